# For the commands beside it: `program CRATE` sets `program` to the program of that crate, and `archive` sets `archive` to the archive for C programs. Each is
# proved and built on first use, and again when a crate has changed; standard error then tells how far that is. `run [FILE]` runs the program on FILE, or on
# standard input where none is named.
set -eu -o pipefail
top=$(cd "$(dirname "${BASH_SOURCE[0]}")/.." && pwd)
command=bin/$(basename "$0")

# Whether there is no such file, or a crate has changed since it was made; what rt itself writes, in the crates' folders out/, is no change.
is_old() {
  [ ! -f "$1" ] || [ -n "$(cd "$top" && find crates crates.txt -regex 'crates/[^/]*/out' -prune -o -newer "$1" -type f -print -quit)" ]
}

# build CRATE VERB MADE TO: proves a crate and what it stands on, and builds it, by `rt VERB` in its folder, which leaves out/MADE; and puts that to TO.
# Where there is something to prove, standard error has a line for each crate as it begins; where it is not proved, all that the checker said.
build() {
  local begun log notice
  begun=$(date --iso-8601=ns)
  log=$(mktemp)
  (sleep 1 && echo "$command: proving and building; from nothing this takes tens of minutes") >&2 &
  notice=$!
  if ! (cd "$top/crates/$1" && rt "$2" 2>&1) </dev/null | tee "$log" | sed -un "s|^rt: chose --jobs [0-9]* for \([a-z0-9_]*\)\$|$command: proving \1|p" >&2; then
    kill "$notice" 2>/dev/null || :
    cat "$log" >&2
    rm -f "$log"
    echo "$command: crate $1 is not proved, so it was not built" >&2
    exit 1
  fi
  kill "$notice" 2>/dev/null || :
  rm -f "$log"
  mkdir -p "$(dirname "$4")"
  cp "$top/crates/$1/out/$3" "$4.new"
  touch -d "$begun" "$4.new"
  mv -f "$4.new" "$4"
}

program() {
  program=$top/target/bin/$1
  ! is_old "$program" || build "$1" run "$1" "$program"
}

archive() {
  archive=$top/target/staticlib/libhammerloom.a
  ! is_old "$archive" || build hammerloom_c lib libhammerloom_c.a "$archive"
}

run() {
  if [ $# -gt 0 ]; then
    exec "$program" <"$1"
  fi
  exec "$program"
}
