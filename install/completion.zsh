#compdef varisat
# What zsh completes after varisat.
_varisat() {
  local -a commands=(
    'solve:decide a DIMACS CNF text'
    'check:check a proof that such a text is unsatisfiable'
    'session:call a solver line by line'
  )
  if (( CURRENT == 2 )); then
    _describe command commands -- '(--help --version)'
    _arguments '(- *)'{-h,--help}'[print all commands and options]' '(- *)'{-V,--version}'[print the version]' '1:formula:_files'
    return
  fi
  case $words[2] in
    session) _arguments '--help[print more about session]' ;;
    check)
      _arguments '--help[print more about check]' '--drat[take lines that are RAT]' '(--marked)--binary[read the binary format]' \
        '(--binary)--marked[read marked text]' '--heap[give the checker so many bytes of memory]:bytes:' '2:formula:_files' '3:proof:_files'
      ;;
    *)
      _arguments '--help[print more about solve]' \
        '--proof[write a DRAT proof to a file]:proof:_files' '(--marked)--binary[write the proof in the binary format]' \
        '(--binary)--marked[write the proof as marked text]' '--check[have a checker inside the solver check each step]' \
        '--max-steps[give up after so many steps]:steps:' '-t[give up after so many seconds of CPU time]:seconds:' \
        '--heap[give the solver so many bytes of memory]:bytes:' \
        '(--no-simplify)--simplify[simplify the formula however short it is]' '(--simplify)--no-simplify[search the formula as it is]' \
        '(-q)--progress[show how far the search is]' '(--progress -v --statistics)-q[show nothing on standard error but faults]' \
        '(-q)'{-v,--statistics}'[show what was counted and timed]' '--output[write the verdict to a file]:verdict:_files' \
        '(-n)--wrap[print the model on short lines]' '(--wrap)-n[print no line v]' '2:file:_files'
      ;;
  esac
}
_varisat "$@"
