# Completion of jm_tool in bash. Made by scripts/make_pages of `jm_tool --help` and docs/commands.md.
_jm_tool_paths() {
  mapfile -t COMPREPLY < <(compgen "$1" -- "$word")
  compopt -o filenames 2>/dev/null
}
_jm_tool_words() { mapfile -t COMPREPLY < <(compgen -W "$1" -- "$word"); }
_jm_tool() {
  local word=${COMP_WORDS[COMP_CWORD]} at=$COMP_CWORD before options arguments=0 i
  local -a place=()
  COMPREPLY=()
  if [ "$at" = 1 ]; then
    _jm_tool_words "link cat list ls info extract verify decompress serve gen describe --help --version"
    return
  fi
  # bash takes = and : as words of their own.
  case $word in = | :) word= at=$((at + 1)) ;; esac
  while [ "$at" -gt 3 ] && [ "${COMP_WORDS[at - 1]}" = : ]; do at=$((at - 2)); done
  before=${COMP_WORDS[at - 1]}
  [ "$before" != = ] || before=${COMP_WORDS[at - 2]}
  case $before in
    --module-path) _jm_tool_paths -d; return ;;
    --add-modules | --classes | --exclude-resources | --include | --jobs | --modules | --order-resources | --release | --seed) :; return ;;
    --from-image | --output) _jm_tool_paths -f; return ;;
    --endian) _jm_tool_words "little big"; return ;;
    --dir) _jm_tool_paths -d; return ;;
  esac
  # The words that are neither options nor their values, before this one.
  for ((i = 2; i < at; i++)); do
    case ${COMP_WORDS[i]} in
      --add-modules | --classes | --dir | --endian | --exclude-resources | --from-image | --include | --jobs | --module-path | --modules | --order-resources | --output | --release | --seed) i=$((i + 1)) ;;
      -*) ;;
      *) arguments=$((arguments + 1)) ;;
    esac
  done
  case ${COMP_WORDS[1]} in
    link) options='--module-path --add-modules --output --from-image --endian --bind-services --release --exclude-resources --order-resources --keep-order --strip-java-debug-attributes --compact-pool --module-packages --drop-system-modules --jobs' place=() ;;
    cat) options='--jobs' place=(file -) ;;
    list) options='--include --sha256 --jobs' place=(file) ;;
    ls) options='--jobs' place=(file -) ;;
    info) options='--jobs' place=(file) ;;
    extract) options='--dir --include --jobs' place=(file) ;;
    verify) options='--nodes --jobs' place=(file) ;;
    decompress) options='--output --jobs' place=(file) ;;
    serve) options='--jobs' place=(file) ;;
    gen) options='--modules --classes --seed --jobs' place=(folder) ;;
    describe) options='--release --jobs' place=(file) ;;
    *) return ;;
  esac
  case $word in
    -*) _jm_tool_words "$options" ;;
    *)
      case ${place[arguments]:-} in
        file) _jm_tool_paths -f ;;
        folder) _jm_tool_paths -d ;;
        '') _jm_tool_words "$options" ;;
      esac ;;
  esac
}
complete -F _jm_tool jm_tool
