# Completion of sudrepka for bash.

_sudrepka() {
  local word=${COMP_WORDS[COMP_CWORD]} command=${COMP_WORDS[1]}
  COMPREPLY=()
  if [ "$COMP_CWORD" -eq 1 ]; then
    mapfile -t COMPREPLY < <(compgen -W \
      "rewrite map run record repair verify lookup frames sample why --help --version" -- "$word")
  elif [[ $word == -* && $command == run ]]; then
    mapfile -t COMPREPLY < <(compgen -W "--symbols --steps --" -- "$word")
  elif [[ $word == -* && $command == why ]]; then
    mapfile -t COMPREPLY < <(compgen -W "--fault --help" -- "$word")
  elif [[ $word == -* && $command == record ]]; then
    mapfile -t COMPREPLY < <(compgen -W "--steps --" -- "$word")
  elif [ "$command $COMP_CWORD" = "sample 2" ] || [[ ${COMP_WORDS[COMP_CWORD - 1]} =~ ^--(steps|fault)$ ]]; then
    : # a number, or a line
  else
    mapfile -t COMPREPLY < <(compgen -f -- "$word")
  fi
}

complete -o filenames -F _sudrepka sudrepka
