# shellcheck shell=bash disable=SC2154
# The groups of `disks` on other users, other runs, new folders and a loss of power; it sources them.

# Waits until the file $1 is there and has bytes.
wait_for() {
  local turn
  for ((turn = 0; turn < 200; turn++)); do
    [ -s "$1" ] && return
    sleep 0.01
  done
}
# Runs a link to $1 in the background, held where it waits for the disk, with the words $2.. of strace.
held_link() {
  local to=$1
  shift
  strace -qq -o trace -e "inject=fsync:delay_enter=1500000:when=1$*" \
    "$tool" link --module-path mods --add-modules a --output "$to" >out1 2>err1 &
  held=$!
}

# A run renames and removes only the file that it made, and has it locked meanwhile.
own() {
  local how
  has_strace || return
  for how in '' :error=EIO; do
    again
    held_link x "$how"
    wait_for x.jm_tool-0
    if [ -z "$how" ]; then
      ! flock -n x.jm_tool-0 true
      judge $? "the unfinished file of a run that goes on isn't locked"
    fi
    rm x.jm_tool-0
    echo other >x.jm_tool-0
    wait "$held"
    is "a run whose unfinished file was replaced$how ends with $?" [ $? = 6 ]
    is "a run$how takes another one's file for its own" same x old
    is "a run$how removes another one's file" [ "$(cat x.jm_tool-0 2>/dev/null)" = other ]
  done
  again
  held_link x
  wait_for x.jm_tool-0
  rm x.jm_tool-0
  wait "$held"
  is "a run whose file was removed says $(cat err1)" \
    grep -qx 'failed: x: its unfinished file was removed or replaced' err1
  again
  for how in file folder pipe; do
    rm -rf y y.jm_tool-*
    case $how in
      file) echo other >y.jm_tool-0 ;;
      folder) mkdir y.jm_tool-0 ;;
      pipe) mkfifo y.jm_tool-0 ;;
    esac
    link_to y >out 2>err
    is "beside a $how of the unfinished name an image isn't as due: $(cat err)" same y new
    is "a $how of the unfinished name is removed" test -e y.jm_tool-0
  done
  rm -rf y y.jm_tool-* l
  # Who lists a folder in which a run makes a file is told that it goes on, and else that it was stopped.
  cp -r mods l
  held_link l/a/p/y
  wait_for l/a/p/y.jm_tool-0
  fails_at 'a file that a run makes below a module' l \
    'l/a/p/y.jm_tool-0: an unfinished file of a run that goes on'
  wait "$held"
  rm -rf l
  cp -r mods l
  mkdir l/a/p/y.jm_tool-0
  fails_at 'an unfinished folder below a module' l \
    'l/a/p/y.jm_tool-0: an unfinished file of a run that was stopped'
  rm -rf l
}

# Runs a link to $1 as the user and the groups of the words $2.. of setpriv.
link_by() {
  local to=$1
  shift
  setpriv "$@" "$tool" link --module-path mods --add-modules a --output "$to" >out 2>err
}
# Whether the file at $1 has owner, group and permissions $2.
has_rights() { [ "$(stat -c '%u %g %a' "$1")" = "$2" ]; }
# A file of the owner, the group and the permissions $1, in a folder where all may make files.
begin_as() {
  local rest=${1#* }
  rm -rf shared
  mkdir -m 777 shared
  cp old shared/x
  chown "${1%% *}:${rest% *}" shared/x
  chmod "${rest#* }" shared/x
}
rights() {
  local before words after
  if [ "$(id -u)" != 0 ] || ! setpriv --reuid=65534 --clear-groups true 2>/dev/null; then
    leave_out "only root with setpriv has other users"
  else
    while IFS='|' read -r says before words after; do
      begin_as "$before"
      # shellcheck disable=SC2086
      link_by shared/x $words
      is "$says: $(cat err)" same shared/x new
      is "$says: $before became $(stat -c '%u %g %a' shared/x)" has_rights shared/x "$after"
    done <<'ROWS'
root keeps owner and group|1001 2001 660|--reuid=0|1001 2001 660
root keeps those of a file for its owner|1001 2001 600|--reuid=0|1001 2001 600
a user of the group keeps the group|1001 2001 660|--reuid=1002 --regid=2002 --groups=2001|1002 2001 660
an owner outside of the group keeps none of its rights|1002 2001 660|--reuid=1002 --regid=2002 --clear-groups|1002 2002 600
nor of those that all others have beyond it|1002 2001 646|--reuid=1002 --regid=2002 --clear-groups|1002 2002 644
what all have stays|1002 2001 644|--reuid=1002 --regid=2002 --clear-groups|1002 2002 644
a file of the user himself|1002 2002 640|--reuid=1002 --regid=2002 --clear-groups|1002 2002 640
ROWS
    # What may not be written to is refused, whatever the folder lets be made.
    while IFS='|' read -r says before words; do
      begin_as "$before"
      # shellcheck disable=SC2086
      link_by shared/x $words
      is "$says ends with $?" [ $? = 6 ]
      is "$says is replaced" same shared/x old
      is "$says: an unfinished file is left" tidy shared
    done <<'ROWS'
a file that its owner may not write|1002 2002 466|--reuid=1002 --regid=2002 --clear-groups
a file that the group may not write|1001 2002 646|--reuid=1002 --regid=2002 --clear-groups
a file of others alone|1001 2001 660|--reuid=1002 --regid=2002 --clear-groups
ROWS
    rm -rf shared
  fi
  access_lists
  cp "$(command -v sleep)" program && chmod 755 program
  ./program 5 &
  how=$!
  link_to program >out 2>err
  is "a program that runs is replaced: $?" [ $? = 6 ]
  kill "$how"
  has_strace || return
  for how in EPERM ENOSYS EOPNOTSUPP; do
    again
    strace -qq -o trace -e "inject=fchmod:error=$how" \
      "$tool" link --module-path mods --add-modules a --output x >out 2>err
    is "where permissions fit and none can be given, $how: $(cat err)" same x new
  done
}

# Of a file with an access list the new one has the mask as its group's permissions, and no list: nobody
# of it, and nobody else, can read what the permissions don't let him.
access_lists() {
  local who
  if ! command -v setfacl >/dev/null; then
    leave_out "there is no setfacl"
    return
  fi
  rm -rf shared
  mkdir -m 777 shared
  cp old shared/x
  chmod 600 shared/x
  if ! setfacl -m u:1003:rw shared/x 2>/dev/null; then
    leave_out "this disk has no access lists"
    return
  fi
  is "a file with a list has the permissions $(stat -c %a shared/x)" \
    [ "$(stat -c %a shared/x)" = 660 ]
  link_to shared/x >out 2>err
  is "a file with a list isn't replaced: $(cat err)" same shared/x new
  is "the list of a file is carried over" [ -z "$(getfacl -cps shared/x)" ]
  is "without its list a file has the permissions $(stat -c %a shared/x)" \
    [ "$(stat -c %a shared/x)" = 660 ]
  if [ "$(id -u)" = 0 ] && setpriv --reuid=1003 --clear-groups true 2>/dev/null; then
    for who in 1003 1004; do
      ! setpriv --reuid="$who" --regid="$who" --clear-groups cat shared/x >out 2>err
      judge $? "the user $who reads a file whose list is gone"
    done
  fi
  setfacl -m u:1003:rw,g::--- shared/x
  is "a list can't be given again" [ -n "$(getfacl -cps shared/x)" ]
  rm -rf shared
}

# A way through a folder that isn't there yet comes to what stands at its end.
through_new() {
  local no='neither a file nor a link to one'
  rm -rf no nope nope2 target through way pipe
  mkfifo pipe
  refuses no/../pipe "$no"
  is "a pipe is replaced" test -p pipe
  again
  ln -s x way
  rm -rf no
  link_to no/../way >out 2>err
  is "a link is replaced" test -L way
  is "what a link leads to isn't replaced: $(cat err)" same x new
  if [ "$(id -u)" = 0 ] && setpriv --reuid=65534 --clear-groups true 2>/dev/null; then
    rm -rf shared
    mkdir -m 777 shared
    cp old shared/x
    chown 65534 shared/x
    chmod 400 shared/x
    link_by shared/no/../x --reuid=65534 --clear-groups
    is "a file that may not be written to is replaced" same shared/x old
    rm -rf shared
  fi
  mkdir -p target/a/p
  mkfifo target/a/p/A.class
  "$tool" extract new --dir nope/../target >out 2>err
  is "an extraction through a new folder ends with $?" [ $? = 6 ]
  is "an extraction through a new folder replaces a pipe" test -p target/a/p/A.class
  "$tool" extract new --dir nope2/../through >out 2>err
  is "an extraction by way of a new folder isn't as due: $(cat err)" diff -rq through whole
  rm -rf no nope nope2 target through way pipe
}

# What is below a folder that wasn't there appears at once, or not at all.
folder() {
  local name number kept=0 made=0 other=0
  has_strace || return
  begin nothing
  strace -qq -o trace -e trace=rename,openat,statx "$tool" extract new --dir z >out 2>err
  is "an extraction into a new folder isn't as due: $(cat err)" diff -rq z whole
  is "an extraction into a new folder renames $(grep -c '^rename(' trace) times" \
    [ "$(grep -c '^rename(' trace)" = 1 ]
  begin nothing
  calls "$tool" extract new --dir z >list
  while read -r name number; do
    rm -rf z z.jm_tool-*
    { strace -qq -o trace -e "inject=$name:signal=KILL:when=$number" \
      "$tool" extract new --dir z >out; } 2>err
    if none z; then
      kept=$((kept + 1))
    elif diff -rq z whole >/dev/null; then
      made=$((made + 1))
    else
      other=$((other + 1))
    fi
  done <list
  is "an extraction that is killed leaves a folder that isn't whole" [ "$other" = 0 ]
  is "an extraction that is killed never leaves none" [ "$kept" -gt 0 ]
  echo "disks: extract into a new folder, killed at each of $(wc -l <list) calls: $kept without it, $made whole, $other neither"
  rm -rf z z.jm_tool-*
  # Two links at once into a folder that isn't there.
  held_link fresh/x
  wait_for fresh.jm_tool-0/x
  "$tool" link --module-path mods --add-modules a --output fresh/y >out 2>err
  is "a second link into a new folder ends with $?: $(cat err)" [ $? = 0 ]
  wait "$held"
  is "a first link into a folder that came meanwhile ends with $?: $(cat err1)" [ $? = 0 ]
  is "of two links into a new folder one isn't as due" same fresh/x new
  is "of two links into a new folder the other isn't as due" same fresh/y new
  is "two links into a new folder leave an unfinished one" tidy .
  rm -rf fresh
  # Two extractions at once into one: the second is refused, and the first's folder is whole.
  strace -qq -o trace -e inject=fsync:delay_enter=1500000:when=1 \
    "$tool" extract new --dir fresh >out1 2>err1 &
  held=$!
  wait_for fresh.jm_tool-0/a/module-info.class
  "$tool" extract new --dir fresh >out 2>err
  is "an extraction beside one ends with $?: $(cat err)" [ $? = 0 ]
  wait "$held"
  is "an extraction into a folder that came meanwhile ends with $?" [ $? = 6 ]
  is "of two extractions one isn't as due" diff -rq fresh whole
  is "two extractions leave an unfinished folder" tidy .
  rm -rf fresh
}

# The disk as it is at once: $1 is mounted at `disk` and has its bytes in the file $2; a copy of them is
# mounted at `copy`, as the system finds a disk after a loss of power.
disk_of() {
  local kind=$1
  rm -rf disk copy disk.bytes copy.bytes
  mkdir disk copy
  case $kind in
    ext4) truncate -s 64M disk.bytes && mkfs.ext4 -q disk.bytes ;;
    xfs) truncate -s 320M disk.bytes && mkfs.xfs -q disk.bytes ;;
    btrfs) truncate -s 256M disk.bytes && mkfs.btrfs -q disk.bytes ;;
  esac 2>/dev/null >&2 || return 1
  case $kind in
    ext4) mount -o loop,noauto_da_alloc disk.bytes disk ;;
    *) mount -o loop disk.bytes disk ;;
  esac 2>/dev/null || return 1
  mounted=$room/disk
}
cut_power() {
  local options=loop
  cp --sparse=always disk.bytes copy.bytes
  umount disk
  mounted=
  mount -o "$options" copy.bytes copy 2>/dev/null || return 1
  mounted=$room/copy
}
restored() {
  [ -z "$mounted" ] || umount "$mounted"
  mounted=
  rm -f disk.bytes copy.bytes
}
# What ext4 alone would have on the disk by itself, a write of its journal, is some seconds away.
power() {
  local kind to file
  for kind in ext4 xfs btrfs; do
    if ! disk_of "$kind"; then
      restored
      leave_out "no disk of $kind may be made and mounted"
      continue
    fi
    for to in x made/by/x; do
      link_to "disk/$to" >out 2>err
      is "$kind: a link ends with $?: $(cat err)" [ $? = 0 ]
      cut_power
      is "$kind: after a loss of power the image at $to isn't there" same "copy/$to" new
      restored
      disk_of "$kind" || return
    done
    cp old disk/x
    sync
    link_to disk/x >out 2>err
    cut_power
    is "$kind: after a loss of power the image that is replaced isn't the new one" same copy/x new
    restored
    disk_of "$kind" || return
    "$tool" extract old --dir disk/z >out 2>err
    for file in $(cd disk/z && find . -type f); do echo older >"disk/z/$file"; done
    sync
    "$tool" extract new --dir disk/z >out 2>err
    cut_power
    number=0
    for file in $(cd whole && find . -type f); do
      same "copy/z/$file" "whole/$file" || [ "$(cat "copy/z/$file")" = older ] || number=$((number + 1))
    done
    is "$kind: after a loss of power $number files are neither old nor new" [ "$number" = 0 ]
    restored
  done
}
# What the flush of a folder answers, after the image has its name.
folder_flush() {
  local error status_due
  has_strace || return
  for error in EIO EINVAL EACCES; do
    rm -f y
    case $error in
      EACCES) strace -qq -o trace -e inject=openat:error=EACCES:when="$(last_call openat)" \
        "$tool" link --module-path mods --add-modules a --output y >out 2>err ;;
      *) strace -qq -o trace -e "inject=fsync:error=$error:when=2" \
        "$tool" link --module-path mods --add-modules a --output y >out 2>err ;;
    esac
    status=$?
    status_due=0
    [ "$error" != EIO ] || status_due=6
    is "a flush of the folder with $error ends with $status: $(cat err)" [ "$status" = "$status_due" ]
    is "a flush of the folder with $error leaves no image" same y new
  done
  rm -f y
}
# The number of the last call $1 of the system that a link to y makes.
last_call() {
  strace -qq -o trace -e trace="$1" "$tool" link --module-path mods --add-modules a --output y \
    >out 2>err
  rm -f y
  grep -c "^$1(" trace
}

# Disks on two layers: what is replaced isn't copied up, and folders whose numbers change are listed.
layers() {
  local turn bad=0 cleaner
  rm -rf lower upper over
  mkdir -p lower upper over
  head -c 400000 /dev/zero >lower/x
  cp -r mods lower/mods
  if ! mount -t tmpfs -o size=200k tmpfs upper 2>/dev/null; then
    leave_out "no small disk may be mounted"
    return
  fi
  mounted=$room/upper
  mkdir upper/up upper/work
  if ! mount -t overlay overlay -o lowerdir=lower,upperdir=upper/up,workdir=upper/work over \
    2>/dev/null; then
    umount upper && mounted=
    leave_out "no overlay may be mounted"
    return
  fi
  link_to over/x >out 2>err
  is "over layers a file isn't replaced: $(cat err)" same over/x new
  if [ "$(id -u)" = 0 ] && [ -w /proc/sys/vm/drop_caches ]; then
    (while :; do echo 2 >/proc/sys/vm/drop_caches; done) 2>/dev/null &
    cleaner=$!
    for ((turn = 0; turn < 60; turn++)); do
      "$tool" link --module-path over/mods --add-modules a --output y >out 2>err || bad=$((bad + 1))
    done
    kill "$cleaner"
    wait "$cleaner" 2>/dev/null
    is "over layers $bad of 60 links fail: $(cat err)" [ "$bad" = 0 ]
  else
    leave_out "no caches may be dropped"
  fi
  umount over
  umount upper && mounted=
}

# A disk that makes a file and then fails to open it, as some do: a library in front of the C library
# does so.
half_opened() {
  local to
  if ! command -v cc >/dev/null; then
    leave_out "there is no compiler of C"
    return
  fi
  cat >half.c <<'C'
#define _GNU_SOURCE
#include <errno.h>
#include <fcntl.h>
#include <stdarg.h>
#include <sys/syscall.h>
#include <unistd.h>
int open(const char *path, int flags, ...) {
  va_list rest;
  va_start(rest, flags);
  int mode = flags & O_CREAT ? va_arg(rest, int) : 0;
  va_end(rest);
  int file = syscall(SYS_openat, AT_FDCWD, path, flags, mode);
  if (file < 0 || !(flags & O_CREAT)) return file;
  close(file);
  errno = EIO;
  return -1;
}
C
  cc -shared -fPIC -o half.so half.c || { leave_out "the compiler of C fails"; return; }
  again
  rm -rf y fresh
  for to in x y fresh/y; do
    fails "$to: error 5 of the system" env LD_PRELOAD="$room/half.so" \
      "$tool" link --module-path mods --add-modules a --output "$to"
  done
  is "a file that can't be opened replaces another one" same x old
  is "a file that can't be opened is left" none y
  is "a folder whose file can't be opened is left" none fresh
  is "a file that can't be opened leaves an unfinished one" tidy .
}

# Where no memory is found by the system, that is status 7 and nothing else.
no_memory() {
  local name number bad=0 runs=0
  has_strace || return
  rm -rf short
  mkdir short
  calls "$tool" link --module-path mods --add-modules a --output short/z/y >list
  while read -r name number; do
    case $name in
      statx | openat | mkdir | read | getdents64 | write | rename | fsync) ;;
      *) continue ;;
    esac
    rm -rf short/z
    { strace -qq -o trace -e "inject=$name:error=ENOMEM:when=$number" \
      "$tool" link --module-path mods --add-modules a --output short/z/y >out; } 2>err
    status=$?
    runs=$((runs + 1))
    case $status in
      0) same short/z/y new && continue ;;
      7) [ "$(cat err)" = 'out of memory' ] && tidy short && continue ;;
    esac
    bad=$((bad + 1))
    [ "$bad" -gt 5 ] || echo "disks: $name $number ENOMEM: status $status, $(cat err)"
  done <list
  is "of $runs calls that find no memory $bad end otherwise" [ "$bad" = 0 ]
  rm -rf short
}
