#!/bin/sh
# command.sh NAME FOLDER BUILT IDENTITY: prints the command NAME to be installed, which starts the program of that name in FOLDER, a path
# from the command's own folder, so that both can be moved together. BUILT is the file from which the program was installed, and IDENTITY
# what `install/identity` prints of its sources.
set -eu
name=$1 folder=$2 built=$3 identity=$4
here=$(dirname "$0")
cat <<TEXT
#!/bin/sh
# Starts the program $name.
set -eu
TEXT
sed 1d "$here/start.sh"
cat <<TEXT

# A link to this file may be in another folder.
self=\$0
[ ! -L "\$self" ] || self=\$(readlink -f "\$self")
case \$self in */*) ;; *) self=./\$self ;; esac
program=\${self%/*}/$folder/$name
TEXT
case ${built##*/} in
  unproved-*)
    cat <<TEXT
case \${1-} in
  --version | -V | --help | -h) echo "$name: this program is not proved" >&2 || : ;;
esac
TEXT
    ;;
esac
cat <<TEXT
case \${1-}:\$# in --version:1 | -V:1) tell_version "\$program" "$identity" ;; esac
start $name "\$program" "\$@"
TEXT
