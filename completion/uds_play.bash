# Completion of uds_play for bash: source this file, or put it into the folder of bash-completion.
_uds_play() {
  local word=${COMP_WORDS[COMP_CWORD]} command='' given=0 flags='' pattern='*.log' wants='' it
  for it in "${COMP_WORDS[@]:1:COMP_CWORD - 1}"; do
    if [ -n "$wants" ]; then
      # a flag's value, before which = may stand as a word of its own
      [ "$it" = = ] || wants=''
      continue
    fi
    case $it in
      --interface | --record) wants=$it ;;
      -?*) ;;
      *) if [ -z "$command" ]; then command=$it; else given=$((given + 1)); fi ;;
    esac
  done
  COMPREPLY=()
  case $wants in
    --record) mapfile -t COMPREPLY < <(compgen -f -- "${word#=}") ;;
  esac
  [ -z "$wants" ] || return 0
  case $command in
    '') flags="check bus verify compare live serial play replay --quiet --help --version" ;;
    check) flags="--quiet --help" ;;
    bus) flags="--interface --quiet --journal --end --help" ;;
    verify) flags="--interface --quiet --help" ;;
    compare) flags="--interface --quiet --differences --help" ;;
    live) flags="--interface --quiet --record --help" ;;
    serial) flags="--journal --quiet --stamps --help" ;;
    play) flags="--journal --quiet --stamps --help" ;;
    replay) flags="--quiet --help" ;;
  esac
  if [ -z "$command" ] || [[ $word == -* ]]; then
    mapfile -t COMPREPLY < <(compgen -W "$flags" -- "$word")
    return
  fi
  [ "$given" -gt 0 ] || pattern='*.toml'
  [ "$command$given" != replay1 ] || pattern='*'
  mapfile -t COMPREPLY < <(compgen -d -- "$word"; compgen -f -X "!$pattern" -- "$word")
}
complete -o filenames -F _uds_play uds_play
