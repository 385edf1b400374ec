# Completion of bash for gpioserve, gpiosay and gpiosess. The options are those that the commands' --help lists.

# Completes the current word by one of these.
_gpioserve_words() {
  mapfile -t COMPREPLY < <(compgen -W "$1" -- "${COMP_WORDS[COMP_CWORD]}")
}

# The options that a command's --help lists.
_gpioserve_options() {
  "$1" --help 2>/dev/null | grep -oE '^ *(-[a-z], )?--[a-z-]+' | grep -oE -- '-[a-z-]+' | paste -sd ' '
}

_gpioserve_files() {
  compopt -o filenames 2>/dev/null
  mapfile -t COMPREPLY < <(compgen "${1--f}" -- "${COMP_WORDS[COMP_CWORD]}")
}

# After `--`, or where the first word of a command stands, that command's own completion.
_gpioserve_command() {
  if declare -F _command_offset >/dev/null; then
    _command_offset "$1"
  elif [ "$COMP_CWORD" -eq "$1" ]; then
    _gpioserve_files -c
  else
    _gpioserve_files
  fi
}

_gpioserve() {
  local i
  for ((i = 1; i < COMP_CWORD; i++)); do
    case ${COMP_WORDS[i]} in
    --)
      _gpioserve_command $((i + 1))
      return
      ;;
    -[btaw] | --board | --transcript | --answers | --waves | --clock | --folder | --served | --answer-timeout | --at-fault | --calls | --way) ((i++)) ;;
    --at | --after) ((i += 2)) ;;
    -*) ;;
    *)
      _gpioserve_command "$i"
      return
      ;;
    esac
  done
  case ${COMP_WORDS[COMP_CWORD - 1]} in
  -[btaw] | --board | --transcript | --answers | --waves | --served | --calls) _gpioserve_files ;;
  --folder) _gpioserve_files -d ;;
  --clock) _gpioserve_words 'manual system' ;;
  --way) _gpioserve_words 'library notify' ;;
  --answer-timeout | --at | --after | --at-fault) ;;
  *) _gpioserve_words "$(_gpioserve_options "$1") --" ;;
  esac
}

_gpiosay() {
  if [ "${COMP_WORDS[COMP_CWORD - 1]}" = --folder ]; then
    _gpioserve_files -d
  else
    compopt -o nospace 2>/dev/null
    _gpioserve_words "$(_gpioserve_options "$1") @STATEMENTS@ wait"
  fi
}

_gpiosess() {
  [ "$COMP_CWORD" -ne 1 ] || _gpioserve_words "check $(_gpioserve_options "$1") --generate"
}

complete -F _gpioserve gpioserve
complete -F _gpiosay gpiosay
complete -F _gpiosess gpiosess
