# What fish completes after maxsat.
complete -c maxsat -l max-steps -x -d "make at most so many steps"
complete -c maxsat -l heap -x -d "use a heap of so many bytes"
complete -c maxsat -s h -l help -d "print options and statuses"
complete -c maxsat -s V -l version -d "print the version"
