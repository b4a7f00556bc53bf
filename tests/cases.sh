#!/bin/sh
# Runs the suites of tests/suites.txt that are marked `cases`, one after another, on the program that is already built. The script
# stops at the first suite that fails.
#
#     sh tests/cases.sh
set -u
cd "$(dirname "$0")/.." || exit
# shellcheck disable=SC1091
. tests/suites.sh

# run NAME TRIES QUICK SCRIPT WORD ..: runs a suite and shows its output
run() {
  echo "== $1"
  script=$4
  shift 4
  python3 "tests/runners/$script" "$@"
}

each cases run
