#!/bin/sh
# Tests changed sources in a few minutes, without proofs. The script builds the program unproved at the given path, and runs the suites
# of tests/suites.txt marked `quick` on it. As many suites run in parallel as there are processors. The script ends early if a command
# that the suites need is missing. The last line is `N passed, M failed` over all suites.
#
#     sh tests/quick.sh PROGRAM
set -u
cd "$(dirname "$0")/.." || exit
# shellcheck disable=SC1091
. tests/suites.sh
program=$1
passed=0
failed=0
logs=$(mktemp -d)
trap 'rm -rf "$logs"' EXIT

# begin NAME TRIES QUICK SCRIPT WORD ..: writes the shell command line that runs a suite and stores its output and status
begin() {
  suite=$1
  line="python3 tests/runners/$4"
  # A program built without optimisation needs more stack.
  [ "$2" = program ] && line="$line --program '$program' --stack 64"
  more=$3
  shift 4
  printf '%s %s %s > "%s/%s" 2>&1; echo $? > "%s/%s.status"\n' "$line" "$*" "$more" "$logs" "$suite" "$logs" "$suite"
}

# add NAME ..: shows the output of a suite, and adds the counts in its last line `N passed, M
# failed` to the totals
add() {
  echo "== $1"
  cat "$logs/$1"
  status=$(cat "$logs/$1.status")
  count=$(grep -E '^[0-9]+ passed, [0-9]+ failed$' "$logs/$1" | tail -n 1)
  good=${count%% passed*}
  bad=${count#*, }
  bad=${bad%% *}
  if [ "${bad:-0}" -eq 0 ] && { [ "$status" -ne 0 ] || [ "${good:-0}" -eq 0 ]; }; then
    good=0
    bad=1
    echo "$1: ended with status $status"
  fi
  passed=$((passed + good))
  failed=$((failed + bad))
}

if ! sh tests/tools.sh gcc man nvim parallel pyflakes3 readelf shellcheck vim; then
  echo "0 passed, 1 failed"
  exit 1
fi
echo "The program is built with no proof, in a minute or two; then it is tried."
if ! tools/unproved "$program"; then
  echo "0 passed, 1 failed"
  exit 1
fi
each quick begin | tr '\n' '\0' | xargs -0 -n 1 -P "$(nproc)" sh -c
each quick add
echo "$passed passed, $failed failed"
[ "$failed" -eq 0 ]
