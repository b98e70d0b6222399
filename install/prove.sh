# A part of ./varisat, ./maxsat and contrib/c/prove: proves a crate and those below it, and builds the program or the static library. `root` is
# the top of the repository. contrib/certify, too, takes from here how a signal ends what runs long.
. "$root/install/jobs.sh"

# Says a line. Where standard error is closed, full or not read, the script goes on.
say() {
  (echo "${command:-varisat}: $1" >&2) || true
}

stop() {
  say "$1"
  exit 2
}

# Says the end of a log, and why this script stops.
stop_with_log() {
  tail -n 20 "$1" >&2 || true
  stop "$2"
}

require_rt() {
  command -v rt >/dev/null ||
    stop "the command rt is not there: install the Rattle kit that the README names, and put its folder bin on the PATH"
}

# Runs a command that takes long in a process group of its own, which a signal to this script ends. The command lets go of streams
# that it does not need: if this script is killed, nobody waits for their end.
running=''
work=''
run_long() {
  local status=0
  set -m
  "$@" &
  running=$!
  set +m
  wait "$running" || status=$?
  running=''
  return "$status"
}

clean() {
  if [ -n "$running" ]; then
    kill -- "-$running" 2>/dev/null || true
    wait "$running" 2>/dev/null || true
  fi
  [ -z "$work" ] || rm -rf "$work"
  running='' work=''
}

end_by() {
  trap - EXIT "$1"
  clean
  kill -s "$1" $$
}

clean_at_end() {
  local signal
  trap clean EXIT
  for signal in HUP INT TERM; do trap "end_by $signal" "$signal"; done
}

# The crates that the crate $1 is built from, a line each, and it at last.
crates() {
  awk -v target="$1" '
    /^[a-z]/ { name = $1; sub(":", "", name); uses[name] = $0 }
    function visit(name,  words, count, i) {
      if (name in seen || !(name in uses)) return
      seen[name] = 1
      count = split(uses[name], words, /[: ]+/)
      for (i = 2; i <= count; i++) visit(words[i])
      print name
    }
    END { visit(target) }' "$root/crates.txt"
}

# Whether the file $1 is there, and nothing is newer that the crate $2 is built from.
is_newest() {
  local parts newer
  [ -e "$1" ] || return
  parts=$(crates "$2" | sed 's|.*|crates/&/src crates/&/specs crates/&/proofs|')
  # Not each crate has all three.
  newer=$(cd "$root" && find crates.txt $parts -newer "$1" -print -quit 2>/dev/null) || true
  [ -z "$newer" ]
}

# Puts the file $1 to $2 in one step, as it may come from another file system. What was edited since the file $3 is newer.
put_built() {
  cp "$1" "$2.new" && touch -r "$3" "$2.new" && mv "$2.new" "$2" && return
  rm -f "$2.new"
  stop "no place for $2"
}

# Puts into the folder $2 the LLVM module and the verdict that prove_crate left of the crate $1 in the folder $3. What was edited since the
# file $4 is newer.
put_module() {
  local file
  for file in "$1.bc" "$1.verdict"; do
    [ ! -s "$3/$file" ] || put_built "$3/$file" "$2/$file" "$4"
  done
}

# Of the crates that the crate $1 is built from, the search and those above it. Each of them uses most that come before.
last_crates() {
  crates "$1" | grep -xF "$(awk '
    { name = $1; sub(":", "", name); last = name == "varisat_search" }
    { for (i = 2; i <= NF; i++) if ($i in found) last = 1 }
    last { found[name]; print name }' "$root/crates.txt")"
}

# Copies the crates that are given into the repository in this folder, without the edits that the gate tries.
copy_crates() {
  local name part
  for name in "$@"; do
    mkdir "crates/$name" || return
    for part in "$root/crates/$name"/*; do
      case ${part##*/} in
        out | must-fail) ;;
        *) cp -r "$part" "crates/$name" || return ;;
      esac
    done
    grep "^$name[ :]" "$root/crates.txt" >>crates.txt || return
  done
}

# Links the program $2 from the object file beside it, by the kit $1.
link_program() {
  "$1/bin/rattle-link" --target x86_64-unknown-linux-gnu --toolchain "$1/toolchain" -o "$2" "$2.o" "$1"/c/lib{os,libc}_c.a
}

# Makes the folder $2 a toolchain like the toolchain of the kit $1, whose clang also leaves the LLVM module that it compiles, as the file $3.
copy_toolchain() {
  rm -rf "$2" && mkdir -p "$2/bin" && ln -s "$1"/toolchain/bin/* "$2/bin" && ln -s "$1/toolchain/lib" "$2" && rm -f "$2/bin/clang" || return
  printf '#!/bin/sh\n[ ! -f module.bc ] || cp module.bc "%s"\nexec "%s" "$@"\n' "$3" "$1/toolchain/bin/clang" >"$2/bin/clang"
  chmod +x "$2/bin/clang"
}

# Proves the crate $1 of the repository in this folder by $2 processes, over the crates below as they are built in out/, and makes what
# those above need of it, or the program, or the static library. Beside these two it leaves the LLVM module from which they were compiled,
# out/$1.bc, and what was said of the proof, out/$1.verdict. These are the words with which `rt ci` calls rattle, except the number of
# processes, which is one there.
prove_crate() (
  name=$1 jobs=$2
  line=$(grep "^$name[ :]" crates.txt)
  kit=$(dirname "$(rt doc)")
  words=(--crate-name "$name" --extern "std=$kit/rlibs/std.rlib" -L "dependency=$kit/rlibs")
  for used in ${line#*:}; do
    folder=$kit/rlibs
    [ ! -d "crates/$used" ] || folder=$PWD/crates/$used/out/rlib
    words+=(--extern "$used=$folder/$used.rlib")
  done
  for folder in "$PWD"/crates/*/out/rlib; do words+=(-L "dependency=$folder"); done
  words+=(--antt-project "$kit/rattle/logic/antt-project.json" --logic-built "$kit/logic_built" --links "$name=" --jobs "$jobs")
  cd "crates/$name" && mkdir -p out/rlib || exit
  # Of a repository with a link in out/ rt proves nothing.
  trap 'rm -rf out/toolchain' EXIT
  linked=("${words[@]}" --list-axioms --toolchain "$PWD/out/toolchain")
  if [ -f src/main.rt ]; then
    copy_toolchain "$kit" "$PWD/out/toolchain" "$PWD/out/$name.bc" &&
      "$kit/bin/rattle" build src/main.rt "${linked[@]}" -o "out/$name.o" 2>&1 | tee "out/$name.verdict" && link_program "$kit" "out/$name"
  elif [[ $line = *" staticlib:"* ]]; then
    copy_toolchain "$kit" "$PWD/out/toolchain" "$PWD/out/$name.bc" &&
      "$kit/bin/rattle" build src/lib.rt "${linked[@]}" --crate-type staticlib -o "out/lib$name.a" 2>&1 | tee "out/$name.verdict"
  else
    "$kit/bin/rattle" build src/lib.rt "${words[@]}" --statements -o "out/rlib/$name.rlib"
  fi && echo "rt: $name proved"
)

# Proves the crate $1 and those below it in a repository that it makes in this folder: the crates below the search side by side, as the
# gate does, and the others one after another, each on all processors. rt keeps those below beside the kit, for the gate too.
prove_all() {
  local last name jobs
  last=$(last_crates "$1")
  # rt wants crates.txt at the top of a repository, and takes this folder for one.
  mkdir .git crates && cp "$root/HANDLES" . && copy_crates $(crates "$1" | grep -vxF "$last") && rt ci && copy_crates $last || return
  # More processes seldom gain.
  jobs=$((${RT_JOBS:-1} < 8 ? ${RT_JOBS:-1} : 8))
  for name in $last; do
    prove_crate "$name" "$jobs" || return
  done
}

# Says of each crate that is proved how many of those of the crate $1 are, and how long that took.
tell_progress() {
  local all done=0 start=$SECONDS line
  all=$(crates "$1" | wc -l)
  while IFS= read -r line; do
    if [[ $line =~ ^rt:\ (varisat[a-z_]*)\ (proved|is\ kept) ]]; then
      done=$((done + 1))
      say "$(printf '%s is proved: %d of %d crates, %d:%02d so far' \
        "${BASH_REMATCH[1]}" "$done" "$all" $(((SECONDS - start) / 60)) $(((SECONDS - start) % 60)))"
    fi
  done
}

# Proves the crate $1 and those below it in the new folder $2. What is printed by that goes to the file $3.
prove_target() {
  exec </dev/null >/dev/null
  # It works behind the terminal, which may stop those that write from there.
  trap '' TTOU
  set_jobs
  mkdir "$2" && cd "$2" || return
  prove_all "$1" 2>&1 | tee "$3" | tell_progress "$1"
}
