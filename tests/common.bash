# shellcheck shell=bash
# For the suites beside it: where things stand, and how a suite ends. Paths in variables may be relative to the caller's
# folder.
set -u

root=$(cd "$(dirname "${BASH_SOURCE[0]}")/.." && pwd)
archive=$(realpath -m -- "${HAMMERLOOM_ARCHIVE:-$root/target/staticlib/libhammerloom.a}")
program=$(realpath -m -- "${INTERLOCK:-$root/target/bin/interlock}")
qdimacs=$(realpath -m -- "${QDIMACS:-$root/target/bin/from_qdimacs}")
widen=$(realpath -m -- "${WIDEN:-$root/target/bin/to_wide}")
normal=$(realpath -m -- "${NORMAL:-$root/target/bin/to_normal}")
build=$root/target/tests
suite=$build/$(basename "$0")
mkdir -p "$build"

passed=0
failed=0

# The closing line; the status is 0 only if something passed and nothing failed.
finish() {
  printf '%d passed, %d failed\n' "$passed" "$failed"
  [ "$failed" -eq 0 ] && [ "$passed" -gt 0 ]
  exit
}

# What the suite cannot do without is missing or broken.
give_up() {
  printf 'FAILED %s\n' "$1"
  failed=$((failed + 1))
  finish
}

need_archive() { [ -f "$archive" ] || give_up "no archive at $archive (bin/archive writes it)"; }
need_program() { [ -x "$program" ] || give_up "no program at $program (bin/interlock writes it)"; }
need_qdimacs() { [ -x "$qdimacs" ] || give_up "no reader of questions at $qdimacs (bin/qdimacs writes it)"; }
need_widen() { [ -x "$widen" ] || give_up "no converter at $widen (bin/widen writes it)"; }
need_normal() { [ -x "$normal" ] || give_up "no writer of normal sheets at $normal (bin/normal writes it)"; }
need_command() { command -v "$1" >/dev/null || give_up "no $1 on this machine"; }

# check NAME COMMAND...: one check; what the command prints is shown only if it fails.
check() {
  local name=$1 output
  shift
  if output=$("$@" 2>&1); then
    passed=$((passed + 1))
  else
    failed=$((failed + 1))
    printf 'FAILED %s\n%s\n' "$name" "$output"
  fi
}

# same EXPECTED INPUT COMMAND...: given INPUT, the command ends with status 0 within a minute, writes nothing to standard error
# and exactly EXPECTED's bytes to standard output.
same() {
  local expected=$1 input=$2 status
  shift 2
  timeout 60 "$@" <"$input" >"$suite.printed" 2>"$suite.complaints"
  status=$?
  diff -u "$expected" "$suite.printed" && [ ! -s "$suite.complaints" ] && [ "$status" -eq 0 ] && return
  printf 'status %d\n' "$status"
  cat "$suite.complaints"
  return 1
}
