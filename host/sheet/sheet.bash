# Completion of the command `sheet` for bash: its verbs, a verb's options, else files. Verbs and options are asked of the command itself, so
# that they are always those that it has.

# _sheet_verbs COMMAND: the verbs that its help lists
_sheet_verbs() {
  "$1" --help 2>/dev/null | sed -n 's,^  \(bin/\)*sheet \([a-z][a-z]*\) .*,\2,p' | sort -u
}

# _sheet_options COMMAND VERB: the options that the verb's help lists
_sheet_options() {
  "$1" "$2" --help 2>/dev/null | sed -n 's,^  \(--[a-z][a-z]*\).*,\1,p'
}

_sheet() {
  local word=${COMP_WORDS[COMP_CWORD]}
  COMPREPLY=()
  if [ "$COMP_CWORD" -eq 1 ]; then
    mapfile -t COMPREPLY < <(compgen -W "$(_sheet_verbs "$1") --help" -- "$word")
  elif [ "${COMP_WORDS[1]}" = help ] && [ "$COMP_CWORD" -eq 2 ]; then
    mapfile -t COMPREPLY < <(compgen -W "$(_sheet_verbs "$1")" -- "$word")
  elif [[ $word == -* ]]; then
    mapfile -t COMPREPLY < <(compgen -W "$(_sheet_options "$1" "${COMP_WORDS[1]}") --help" -- "$word")
  fi
}

# Where nothing is found, files are completed as everywhere.
complete -o bashdefault -o default -F _sheet sheet
