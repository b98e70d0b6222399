# What bash completes behind maxsat.
_maxsat() {
  local word=${COMP_WORDS[COMP_CWORD]}
  COMPREPLY=()
  case ${COMP_WORDS[COMP_CWORD - 1]} in --max-steps | --heap) return ;; esac
  if [[ $word == -* ]]; then
    mapfile -t COMPREPLY < <(compgen -W "--max-steps --heap --help --version" -- "$word")
  else
    compopt -o filenames 2>/dev/null
    mapfile -t COMPREPLY < <(compgen -f -- "$word")
  fi
}
complete -F _maxsat maxsat
