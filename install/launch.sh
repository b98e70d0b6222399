# shellcheck shell=bash
# A part of ./varisat and ./maxsat: runs the program of the crate $target with the given arguments and streams, which is called $command.
# The proved one is taken where it was built from the present sources, and else one that is built without proofs, once, in a minute, and
# is as fast. `root` is the top of the repository.
crate=$root/crates/$target
proved=$crate/out/$target
. "$root/install/start.sh"
. "$root/install/prove.sh"

require_tools() {
  require_rt
  command -v flock >/dev/null || stop "the command flock is not there: it is in the package util-linux"
}

is_proved() {
  is_newest "$proved" "$target"
}

# Runs a command over all files that count where nothing is proved.
over_sources() {
  local parts files
  parts=$(crates "$target" | sed 's|.*|crates/&/src|') && files=$(cd "$root" && find $parts -name '[!.]*.rt' | LC_ALL=C sort) || return
  (cd "$root" && "$@" crates.txt install/unproved.awk $files)
}

# Where the other program is kept, under a name that tells the sources' contents: in the checkout, or in the user's cache where that
# cannot be written.
name_unproved() {
  local sum cache=${XDG_CACHE_HOME:-}
  # A relative path is to be passed over there, and a service may have no HOME.
  [[ $cache == /* ]] || cache=${HOME:-~}/.cache
  kept=$root/out
  [ -w "$kept" ] || { [ ! -e "$kept" ] && [ -w "$root" ]; } || kept=$cache/varisat
  sum=$(over_sources sha256sum | sha256sum) || stop "the sources cannot be read"
  unproved=$kept/unproved-$command-${sum:0:16}
}

prove() {
  local log=$crate/out/build.log
  require_tools
  mkdir -p "$crate/out" 2>/dev/null && : 2>/dev/null >"$log" || stop "the program is kept in the checkout, which cannot be written: use a copy"
  clean_at_end
  work=$(mktemp -d) || stop "no place for the proofs"
  : >"$work/begun"
  say "proving and building the program: 20 minutes or more the first time, less after an edit"
  run_long prove_target "$target" "$work/repository" "$log" || stop_with_log "$log" "the program was not built"
  put_module "$target" "$crate/out" "$work/repository/crates/$target/out" "$work/begun"
  put_built "$work/repository/crates/$target/out/$target" "$proved" "$work/begun"
  clean
  is_proved || stop "a source was edited meanwhile, or its time lies ahead: ./$command --prove once more"
}

# Builds into the folder $1 by `rt try`, from a stand-in for the kit whose clang optimizes, and keeps the object file. What `rt try` checks
# as a program runs is taken out: it took nearly as long as the search, and let writes behind a list's end pass. No document of the kit says
# that `rt try` calls clang so: where it does not, this fails. The stand-in for `rattle` saves a second process that only gives hints.
build_unproved() {
  local kit
  exec </dev/null >"$kept/build.log" 2>&1 {lock}>&-
  kit=$(dirname "$(rt doc)")
  mkdir -p "$1/bin" "$1/toolchain/bin"
  cp "$kit"/bin/{rt,rtlib.py} "$1/bin"
  ln -s "$kit"/bin/rattle-* "$1/bin"
  printf '#!/bin/sh\n' >"$1/bin/rattle"
  ln -s "$kit"/toolchain/bin/* "$1/toolchain/bin"
  ln -s "$kit"/toolchain/lib "$1/toolchain"
  ln -s "$kit"/{WHAT,c,rattle,rlibs,logic_built} "$1"
  mv "$1/toolchain/bin/clang" "$1/clang"
  ln -s "$root"/{install/unproved.awk,crates} "$1"
  # The functions of such a module are longer than those of a proved one, and as many are to be compiled in place.
  cat >"$1/toolchain/bin/clang" <<'END'
#!/bin/sh
room=${0%/*}/../..
module=$PWD/module
"$room/clang" -S -emit-llvm -Xclang -disable-llvm-passes -x ir module.bc -o module.ll &&
  (cd "$room/crates" && awk -f "$room/unproved.awk" $(find */src -name '[!.]*.rt') "$module.ll") >module.bc &&
  "$room/clang" "$@" -fno-sanitize=address -O3 -mllvm -inline-threshold=600 && cp module.o "$room/program.o"
END
  chmod +x "$1/toolchain/bin/clang" "$1/bin/rattle"
  (cd "$crate" && TMPDIR=$1 "$1/bin/rt" try --steps 1 -- --version) && link_program "$kit" "$1/program"
}

wait_for_lock() {
  exec </dev/null >/dev/null 2>&1
  flock "$lock"
}

# Takes the lock of the folder where programs are kept.
lock() {
  mkdir -p "$kept" 2>/dev/null && : 2>/dev/null >>"$kept/lock" || stop "the program cannot be kept in $kept"
  exec {lock}>>"$kept/lock"
  if ! flock -n "$lock"; then
    say "another start builds the program: waiting for it"
    run_long wait_for_lock
  fi
}

# Builds the program without proofs, unless a start that this one waited for did.
make_unproved() {
  local sought times
  require_tools
  clean_at_end
  lock
  while name_unproved && sought=$unproved && [ ! -x "$unproved" ]; do
    say "building the program without proofs: a minute, once"
    times=$(over_sources stat -c %y)
    # What a start left that was killed.
    rm -rf "$kept"/building.*
    work=$(mktemp -d "$kept/building.XXXXXX") || stop "the program cannot be kept in $kept"
    run_long build_unproved "$work" && [ -x "$work/program" ] || {
      # The last line of `rt try` alone tells nothing.
      grep -qvx 'run=none proved=no' "$kept/build.log" ||
        stop "the program was not built, and nothing tells why: is there room in $kept, and memory?"
      stop_with_log "$kept/build.log" "the program was not built; ./$command --prove builds it with proofs"
    }
    name_unproved
    # Contents alone do not tell an edit that was taken back.
    if [ "$unproved" = "$sought" ] && [ "$(over_sources stat -c %y)" = "$times" ]; then
      [ "$kept" != "$root/out" ] || rm -f "$kept/unproved-$command"-*
      mv "$work/program" "$unproved"
    else
      say "the sources were edited meanwhile"
    fi
    clean
  done
  exec {lock}>&-
}

if [ "${1:-}" = --prove ]; then
  is_proved || prove
  shift
  [ $# -gt 0 ] || exit 0
fi
if is_proved; then
  program=$proved
else
  name_unproved
  [ -x "$unproved" ] || make_unproved
  program=$unproved
  say "this program is not proved: ./$command --prove proves it, in some 20 minutes"
fi
if [ "${1:-}" = --which ]; then
  echo "$program" || exit 2
  exit
fi
# The program was built from the present sources, so their commit is its own.
case ${1:-}:$# in
  --version:1 | -V:1) tell_version "$program" "$("$root/install/identity")" ;;
esac
start "$command" "$program" "$@"
