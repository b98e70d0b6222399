# What bash completes behind varisat.
_varisat() {
  local word=${COMP_WORDS[COMP_CWORD]} before=${COMP_WORDS[COMP_CWORD - 1]} choices= files=
  COMPREPLY=()
  case $COMP_CWORD:${COMP_WORDS[1]}:$before in
    1:*) choices="solve check session --help --version" files=1 ;;
    *:--max-steps | *:-t | *:--heap) return ;;
    *:--proof | *:--output) ;;
    *:check:*) choices="--drat --binary --marked --heap" ;;
    2:session:*) choices="--help" ;;
    *:session:*) ;;
    *) choices="--proof --binary --marked --check --max-steps --heap --simplify --no-simplify --progress --statistics --output --wrap -n -q -t -v" ;;
  esac
  [[ $COMP_CWORD != 2 || $choices == --help ]] || choices+=" --help"
  if [[ $word == -* || $COMP_CWORD == 1 ]]; then
    mapfile -t COMPREPLY < <(compgen -W "$choices" -- "$word"; [ -z "$files" ] || compgen -f -- "$word")
  elif [[ ${COMP_WORDS[1]} != session ]]; then
    compopt -o filenames 2>/dev/null
    mapfile -t COMPREPLY < <(compgen -f -- "$word")
  fi
}
complete -F _varisat varisat
