# shellcheck shell=bash disable=SC2034
# Read by the clients here. WORK: a folder for sources and builds. UNPROVED=1 takes the library without proofs, PEER=1 what it stands in for.
set -euo pipefail
shopt -s inherit_errexit
here=$(cd "$(dirname "$(readlink -f "${BASH_SOURCE[0]}")")" && pwd)
root=$(cd "$here/../.." && pwd)
work=${1:?usage: $0 WORK}
mkdir -p "$work"
work=$(cd "$work" && pwd)
library=$root/out/c${UNPROVED:+-unproved}

say() {
  printf '%s: %s\n' "$(basename "$0")" "$1"
}

# Builds the library where that is due, and installs it below WORK.
build_library() {
  [ -z "${PEER:-}" ] || return 0
  make -s -C "$root/contrib/c" install PREFIX="$work/varisat" UNPROVED="${UNPROVED:-}" >/dev/null
  library=$work/varisat/lib
}

# Runs COMMAND with its output in LOG; sets `status`, and `took`, the seconds of a processor.
timed() { # LOG COMMAND..
  local log=$1 TIMEFORMAT=%U
  shift
  status=0
  { time "$@" >"$log" 2>&1; } 2>"$log.took" || status=$?
  took=$(tail -n 1 "$log.took")
}

# Whether these commands are there.
need() {
  local tool
  for tool in "$@"; do
    command -v "$tool" >/dev/null || { say "$tool is not there, so nothing was tried" && exit 0; }
  done
}

# Has apt read what a Debian release has, from where this machine has its packages, by lists in WORK/apt-RELEASE, so that it needs no rights.
lists_of() { # RELEASE
  local lists=$work/apt-$1 site kind
  [ ! -e "$lists/updated" ] || return 0
  # Where apt-get update was never run it knows no labels.
  site=$(apt-get indextargets --format '$(SITE)' 'Label: Debian' | head -n 1)
  [ -n "$site" ] || site=$(apt-get indextargets --format '$(SITE)' | grep '/debian$' | head -n 1)
  mkdir -p "$lists"/{lists/partial,cache/archives/partial}
  : >"$lists/status"
  for kind in deb deb-src; do echo "$kind $site $1 main"; done >"$lists/sources.list"
  cat >"$lists/apt.conf" <<END
Dir::Etc::sourcelist "$lists/sources.list";
Dir::Etc::sourceparts "-";
Dir::State::lists "$lists/lists";
Dir::State::status "$lists/status";
Dir::Cache "$lists/cache";
END
  APT_CONFIG=$lists/apt.conf apt-get -q update >&2
  touch "$lists/updated"
}

# Fetches the source of a Debian package into WORK/sources and tells its unpacked folder: of what WORDS name alone, where there are any.
source_of() { # PACKAGE RELEASE WORDS..
  local package=$1 release=$2 folder=$work/sources/$1-$2 archive
  shift 2
  if [ ! -e "$folder/done" ]; then
    lists_of "$release"
    mkdir -p "$folder"
    # No patch of Debian's is needed, so that a mirror may lack what belongs to it.
    (cd "$folder" && APT_CONFIG=$work/apt-$release/apt.conf apt-get -q source --download-only "$package") >&2 || ls "$folder"/*.orig.tar.* >&2 || return
    for archive in "$folder"/*.orig.tar.*; do tar xf "$archive" -C "$folder" --wildcards "${@:-*}"; done
    touch "$folder/done"
  fi
  find "$folder" -mindepth 1 -maxdepth 1 -type d | head -n 1
}

# The crates and the source of cargo that Debian keeps in that of rustc: sets `rustc` and `vendor`, and has cargo in FOLDER take them.
take_crates() { # FOLDER
  rustc=$(source_of rustc trixie '*/vendor/*' '*/src/tools/cargo/*')
  vendor=$work/vendor
  [ -e "$vendor/done" ] || { python3 "$here/vendor.py" "$rustc/vendor" "$vendor" "$rustc/src/tools/cargo" && touch "$vendor/done"; }
  mkdir -p "$1/.cargo"
  printf '[source.crates-io]\nreplace-with = "vendored"\n[source.vendored]\ndirectory = "%s"\n' "$vendor" >"$1/.cargo/config.toml"
}
