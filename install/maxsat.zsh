#compdef maxsat
# What zsh completes after maxsat.
_arguments '--max-steps[make at most so many steps]:steps:' '--heap[use a heap of so many bytes]:bytes:' \
  '(- *)'{-h,--help}'[print options and statuses]' '(- *)'{-V,--version}'[print the version]' '1:problem:_files'
