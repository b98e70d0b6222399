# A part of ./varisat, ./maxsat and the installed commands: starts the program, and decompresses the files that it is to read first.

# Tells a fault, and ends with the status of one, also where standard error is closed, full or not read.
fail() {
  (echo "error: $1" >&2) || :
  exit 2
}

# The command that decompresses files of such a name, or nothing.
decompressor_of() {
  case $1 in
    *.gz) echo gzip ;;
    *.bz2) echo bzip2 ;;
    *.xz) echo xz ;;
    *.zst) echo zstd ;;
  esac
}

# Writes the text of the compressed file $1 to a file that has no name and is open as `number`, which the user did not take. It is there
# to its end before the program starts: what a cut archive has of a text may be a text too.
decompress() {
  tool=$(decompressor_of "$1")
  command -v "$tool" >/dev/null || fail "'$1': the command $tool is not there"
  text=$(mktemp) || fail "'$1': no place to decompress it"
  number=3
  while [ -e "/dev/fd/$number" ]; do number=$((number + 1)); done
  eval "exec $number<>\"\$text\""
  rm "$text"
  "$tool" -dc <"$1" >"/dev/fd/$number" || fail "'$1': cannot be decompressed"
}

# Stops where a proof would be written over its formula, or under a name that belongs to another format.
refuse_proof() { # FORMULA PROOF
  if [ "$1" -ef "$2" ]; then
    fail "'$2': the formula is in this file, which a proof would overwrite"
  elif [ -n "$(decompressor_of "$2")" ]; then
    fail "'$2': a proof is written as it is: compress it when it is done"
  fi
}

# Prints the version of the program $1, which is a number alone, and the line $2 that says from which commit it was built. Ends.
tell_version() {
  "$1" --version && echo "$2" || exit 2
  exit 0
}

# Whether the word behind such an option is its value.
takes_value() {
  case $1 in
    --proof | --output | --max-steps | -t | --heap) ;;
    *) return 1 ;;
  esac
}

# Runs the program $2 of the command $1 with the other words as its arguments, and decompresses files that it is to read: of `solve` and of
# `maxsat` the first word that is no option, of `check` all of them, and a file that stands in the place of a command. A first word behind
# `solve` may be a file also where it begins as an option does.
start() {
  command=$1:${3-} program=$2 place=0 files=0 before='' formula='' proof='' output=''
  shift 2
  case $command in
    maxsat:*) command=maxsat ;;
    *:solve | *:check) command=${command#*:} place=-1 ;;
    *:session | *:-?*) command='' ;;
    *) command=file ;;
  esac
  for word; do
    shift
    place=$((place + 1)) is_read=''
    if [ "$place" = 0 ] || [ -z "$command" ]; then
      :
    elif [ -n "$before" ]; then
      [ "$before" != --proof ] || proof=$word
      [ "$before" != --output ] || output=$word
      before=''
    elif takes_value "$word" && ! { [ "$place" = 1 ] && [ -f "$word" ]; }; then
      before=$word
    else
      case $word in
        --proof=*) proof=${word#*=} ;;
        --output=*) output=${word#*=} ;;
        -?*) [ "$place" != 1 ] || is_read=1 ;;
        *) files=$((files + 1)) is_read=1 ;;
      esac
      case $command:$files in
        check:* | *:0 | *:1) ;;
        file:2) proof=$word is_read='' ;;
        *) is_read='' ;;
      esac
    fi
    if [ -n "$is_read" ] && [ -n "$(decompressor_of "$word")" ] && [ -f "$word" ] && [ -r "$word" ]; then
      formula=$word
      decompress "$word"
      word=/dev/fd/$number
    fi
    set -- "$@" "$word"
  done
  [ -z "$proof" ] || refuse_proof "$formula" "$proof"
  ! [ "$formula" -ef "$output" ] || fail "'$output': the formula is in this file, which the verdict would overwrite"
  exec "$program" "$@"
}
