# shellcheck shell=bash disable=SC2154
# The groups of `disks` in which strace lets calls of the system fail, wait or be the last one; it
# sources them.

# The calls of the system that the words make from the first one on that names a file of theirs or of
# the streams, each with its number among those of its name.
calls() {
  strace -o trace "$@" >out 2>err
  awk -F '(' '
    !/^[a-z0-9_]+\(/ || /^(execve|exit)/ { next }
    /"(\/dev\/null|mods|new)/ { begun = 1 }
    { ++count[$1]; if (begun) print $1, count[$1] }' trace
}
# Makes the folder z that of a run's beginning, $1, or none where there is none of that name.
begin() { rm -rf z z.jm_tool-* && { [ ! -d "$1" ] || cp -r "$1" z; }; }
# The names of what isn't finished at and below the folder $1.
unfinished() { find "$1" "$1".jm_tool-* -name '*.jm_tool-*' -printf '%f\n' 2>/dev/null; }
# What stands below z after a run that began with the folder $2 and is to make $3, and ended with
# status $1: with 0 all that is due, and so where a folder that wasn't there appears at once; else each
# file is the old one or the new one, and none is lost. Nothing unfinished is left but what was there,
# unless $4 says that calls go on failing, as that which removes it then does.
leaves() {
  local file
  case "$1 $2 $3" in
    '0 '* | *' nothing whole' | *' nothing image')
      [ "$1" != 0 ] && none z || diff -rq z "$3" >/dev/null || return ;;
  esac
  [ -n "$4" ] || [ "$(unfinished z)" = "$(unfinished "$2")" ] || return
  while IFS= read -r file; do
    cmp -s "z/$file" "$2/$file" || cmp -s "z/$file" "$3/$file" || return 1
  done < <({ find z -type f ! -name '*.jm_tool-*' -printf '%P\n' 2>/dev/null
    find "$2" -type f -printf '%P\n' 2>/dev/null; } | sort -u)
}
# Whether a run ended with status $3 as it must where the call $1 failed with the error $2: a file that
# isn't made, or a line that isn't printed, is told. What a signal interrupts may be tried again.
is_told() {
  case "$1 $2" in
    *EINTR) ;;
    fsync*ENOMEM | rename*ENOMEM | write*ENOMEM) [ "$3" = 7 ] ;;
    fsync* | rename* | write*) [ "$3" = 6 ] ;;
  esac
}
# How the call $1, the number $2 of its name, fails, a line each: by each of these errors once, and from
# there on. Nothing is interrupted for ever. A read may besides meet the end too soon.
failures_of() {
  local error
  for error in "${failing[@]}"; do
    echo "$error error=$error:when=$2"
    echo "$error error=$error:when=$2+ on"
  done
  echo "EINTR error=EINTR:when=$2"
  [ "$1" != read ] || echo "end retval=0:when=$2"
}
# Lets each call of the words $4.. fail: $1 says what they do, from the folder $2 they make $3.
injected() {
  local says=$1 was=$2 due=$3 name number error how on runs=0 bad=0 zero=0
  shift 3
  begin "$was"
  calls "$@" >list
  is "$says isn't as due" leaves 0 "$was" "$due" ''
  while read -r name number; do
    while read -r error how on; do
      begin "$was"
      # A run that is killed is told by the shell, to its own error stream.
      { timeout 20 strace -qq -o trace -e "inject=$name:$how" "$@" >out; } 2>err </dev/null
      status=$?
      runs=$((runs + 1))
      [ "$status" = 0 ] && zero=$((zero + 1))
      leaves "$status" "$was" "$due" "$on" && is_told "$name" "$error" "$status" && continue
      bad=$((bad + 1))
      [ "$bad" -gt 5 ] || echo "disks: $says, $name $how: status $status, $(cat err)"
    done < <(failures_of "$name" "$number")
  done <list
  is "$says: no call fails" [ "$runs" -gt 100 ]
  is "$says: no run with a call that fails is refused" [ "$zero" -lt "$runs" ]
  is "$says with a call that fails leaves other files than it may" [ "$bad" = 0 ]
  echo "disks: $says, each of $(wc -l <list) calls fails: $runs runs, $zero with status 0, $bad wrong"
}
# A folder that is removed while it is listed, at which the system ends the listing: strace holds the
# first call that reads its names.
removed_meanwhile() {
  local pid turn
  rm -rf gone y
  cp -r mods gone
  strace -qq -o trace -e inject=getdents64:delay_enter=1000000:when=1 \
    "$tool" link --module-path gone --add-modules a --output y >out 2>err &
  pid=$!
  for ((turn = 0; turn < 100; turn++)); do
    grep -q 'openat(.*"gone' trace 2>/dev/null && break
    sleep 0.05
  done
  rm -r gone
  wait "$pid"
  is "a folder is removed while it is listed: status $?" \
    grep -qx 'failed: gone: went away while it was listed' err
  is "a folder is removed while it is listed: an image is made" none y
}
# Kills a link at each call of the system: $1 is the image that is there, or empty.
killed_at_calls() {
  local was=$1 says='link to a new file' name number kept=0 made=0 other=0
  [ -z "$was" ] || says='link over a file'
  put x "$was"
  calls "$tool" link --module-path mods --add-modules a --output x >list
  while read -r name number; do
    rm -f x.jm_tool-*
    put x "$was"
    { strace -qq -o trace -e "inject=$name:signal=KILL:when=$number" \
      "$tool" link --module-path mods --add-modules a --output x >out; } 2>err
    if has x "$was"; then
      kept=$((kept + 1))
    elif same x new; then
      made=$((made + 1))
    else
      other=$((other + 1))
    fi
  done <list
  rm -f x.jm_tool-*
  is "$says, killed at a call: what was never stands" [ "$kept" -gt 0 ]
  is "$says, killed at a call: $other images are neither old nor new" [ "$other" = 0 ]
  echo "disks: $says, killed at each of $(wc -l <list) calls: $kept as before, $made new, $other neither"
}
# The words $2.. wait for the disk and name files in the order $1.
in_order() {
  strace -qq -o trace -e trace=fsync,rename "${@:2}" >out 2>err
  order=$(sed -n 's/^\(fsync\|rename\)(.*/\1/p' trace | paste -sd' ')
  is "$2 $3 calls $order" [ "$order" = "$1" ]
}
# Where the call $1 answers the error $2, a link to a new file says $3.
says_of() {
  rm -f y
  strace -qq -o trace -e trace="$1" "$tool" link --module-path mods --add-modules a --output y \
    >out 2>err
  rm -f y
  fails "y: $3" strace -qq -o trace -e "inject=$1:error=$2:when=$(grep -c "^$1(" trace)" \
    "$tool" link --module-path mods --add-modules a --output y
}
# A signal that ends a link leaves what it made beside its place, which stands in no other's way.
ended_by() {
  local ignored
  ignored=$(awk '/^SigIgn/ { print $2 }' /proc/$$/status)
  if [ $((0x$ignored >> ($(kill -l "$1") - 1) & 1)) = 1 ]; then
    leave_out "$1 is ignored here"
    return
  fi
  rm -f y y.jm_tool-*
  { strace -qq -o trace -e "inject=fsync:signal=$1" \
    "$tool" link --module-path mods --add-modules a --output y >out; } 2>err
  is "$1 before an image has its name: an image stands" none y
  is "$1 leaves no file beside the image" [ -s y.jm_tool-0 ]
  link_to y >out 2>err
  is "behind $1 an image isn't as due: $(cat err)" same y new
  rm -f y y.jm_tool-*
}
# Two runs to one new path: one is held where it waits for the disk, and $1 is what that call does
# then; the other one's does $2. They end with the statuses $3 and $4, and the image is $5.
both_to() {
  local pid turn
  rm -f y
  strace -qq -o trace -e "inject=fsync:delay_enter=1500000$1" \
    "$tool" link --module-path mods --add-modules a --output y >out1 2>err1 &
  pid=$!
  for ((turn = 0; turn < 100; turn++)); do
    [ -s y.jm_tool-0 ] && break
    sleep 0.01
  done
  is "the second run finds an image" none y
  strace -qq -o trace2 -e "inject=fsync:delay_enter=1$2" \
    "$tool" link --endian big --module-path mods --add-modules a --output y >out2 2>err2
  is "of two runs the second one ends with $?" [ $? = "$4" ]
  wait "$pid"
  is "of two runs the first one ends with $?" [ $? = "$3" ]
  is "of two runs one fails, and the other's image isn't as due" same y "$5"
  is "two runs leave an unfinished file" tidy .
}
# A reader of names that slow links make, one behind the other, finds nothing or a whole image.
read_beside() {
  local writer number turn bad=0 before=0
  rm -rf fresh
  (for number in {1..10}; do
    strace -qq -o trace -e inject=write:delay_enter=10000 \
      "$tool" link --module-path mods --add-modules a --output "fresh/$number" >out1 2>err1
  done) &
  writer=$!
  for number in {1..10}; do
    for ((turn = 0; turn < 1000; turn++)); do
      "$tool" verify "fresh/$number" >out 2>err
      status=$?
      [ "$status" = 5 ] || break
      before=$((before + 1))
    done
    [ "$status" = 0 ] || bad=$((bad + 1))
  done
  wait "$writer"
  is "a reader never comes before an image" [ "$before" -gt 10 ]
  is "$bad of 10 images are damaged while they are made: $(cat err)" [ "$bad" = 0 ]
}
has_strace() {
  strace -o trace true 2>/dev/null && return
  leave_out "there is no strace that may trace"
  return 1
}
# The calls of links. Beside the image stands an unfinished file of another run.
link_calls() {
  local -a link=("$tool" link --add-modules a --output z/x)
  has_strace || return
  rm -rf was due image
  mkdir was due image
  cp old was/x
  cp new due/x
  cp new image/x
  echo other | tee was/x.jm_tool-0 >due/x.jm_tool-0
  injected 'link over a file' was due "${link[@]}" --module-path mods
  injected 'link to a new file' nothing image "${link[@]}" --module-path mods
  injected 'relink in place' due was "${link[@]}" --endian big --from-image z/x
  killed_at_calls old
  killed_at_calls ''
  removed_meanwhile
  rm -rf was due image z
}
# The calls of what makes more files than one.
folder_calls() {
  local name
  has_strace || return
  rm -rf made other
  mkdir other
  "$tool" extract new --dir other >out
  for name in $(cd other && find . -type f); do echo older >"other/$name"; done
  "$tool" gen made --modules 1 --classes 2 --seed 1 >out
  injected 'extract' nothing whole "$tool" extract new --dir z
  injected 'extract over files' other whole "$tool" extract new --dir z
  injected 'gen' nothing made "$tool" gen z --modules 1 --classes 2 --seed 1
  rm -rf made other z z.jm_tool-*
}
# What may not take its name is told, and removed; what was there stays.
unnamed() {
  local -a refused=(strace -qq -o trace -e inject=rename:error=EACCES "$tool")
  has_strace || return
  again
  rm -rf y
  begin nothing
  fails 'x: permission denied' "${refused[@]}" link --module-path mods --add-modules a --output x
  is "an image that may not take its name does" same x old
  fails 'y: permission denied' "${refused[@]}" link --module-path mods --add-modules a --output y
  is "an image that may not take its name is there" none y
  fails 'z: permission denied' "${refused[@]}" extract new --dir z
  fails 'z: permission denied' "${refused[@]}" link --module-path mods --add-modules a --output z/x
  is "a folder that may not take its name is there" none z
  "$tool" extract old --dir z >out
  echo older >z/a/module-info.class
  fails 'z/a/module-info.class: permission denied' "${refused[@]}" extract new --dir z
  is "a file that may not take its name does" [ "$(cat z/a/module-info.class)" = older ]
  is "what may not take its name is left" tidy .
}
beside() {
  local name
  has_strace || return
  begin nothing
  in_order 'fsync fsync rename fsync' "$tool" link --module-path mods --add-modules a --output z/x
  begin nothing
  in_order 'fsync fsync fsync rename fsync' "$tool" extract new --dir z
  begin whole
  in_order "$(printf 'fsync rename %.0s' {1..6})fsync" "$tool" extract new --dir z
  begin nothing
  in_order 'rename fsync rename fsync' "$tool" gen z --modules 1 --classes 2 --seed 1
  again
  in_order 'fsync rename fsync' "$tool" link --module-path mods --add-modules a --output x
  says_of fsync EIO 'error 5 of the system'
  says_of fsync ENOSPC 'no storage space'
  says_of openat ENFILE 'error 23 of the system'
  says_of openat EMFILE 'error 24 of the system'
  for name in TERM INT HUP KILL; do ended_by "$name"; done
  both_to :error=EIO '' 6 0 old
  both_to '' :error=EIO 0 6 new
  read_beside
}
