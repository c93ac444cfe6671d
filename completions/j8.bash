# Completion of the command j8 for bash. Commands and options are completed here; file names by bash itself, so that odd ones are right.

# The words that can stand behind those that it is called with.
_j8_words() {
  local commands="lines quote unquote json8 strings tsv8 help"
  case ${1:-} in
    "") echo "$commands --help --version" ;;
    help) [ $# -gt 1 ] || echo "$commands" ;;
    lines) echo "--pieces --json --help" ;;
    quote) echo "--line --lines -0 --json --help" ;;
    unquote) echo "--lines -0 --json --help" ;;
    json8 | strings | tsv8) echo "--json --help" ;;
  esac
}

# Whether a file's name can stand behind them, typed so far as the first word says.
_j8_file() {
  local typed=$1 word
  shift
  case ${1:-} in lines | quote | unquote | json8 | strings | tsv8) ;; *) return 1 ;; esac
  for word in "${@:2}"; do
    [ "$word" != -- ] || return 0
  done
  # A number follows. An equals sign is a word of its own where bash breaks words at it.
  case ${!#} in --pieces | =) return 1 ;; esac
  case $typed in -* | =) return 1 ;; esac
}

_j8() {
  local typed=${COMP_WORDS[COMP_CWORD]} before=("${COMP_WORDS[@]:1:COMP_CWORD-1}")
  COMPREPLY=()
  _j8_file "$typed" "${before[@]}" && return
  compopt +o default 2>/dev/null
  case "${before[*]: -1}" in --pieces | =) return ;; esac
  mapfile -t COMPREPLY < <(compgen -W "$(_j8_words "${before[@]}")" -- "$typed")
}

complete -o default -F _j8 j8
