#!/usr/bin/env bash
# The gate runs every proof and test of the crates (rt ci), and the suites of tests/suites.txt on the program just proved and built. The
# gate also tests that the prover refuses wrong function bodies. First, the gate installs the commands that it needs, and ends if one cannot
# be installed. Before the last line, the gate prints the cost of each crate and of each part of the gate; out/gate.md records these costs
# too, even if the gate is stopped. After the costs, the gate lists the failures in short, for a reader who sees only the end of a long log.
# The last line is `N passed, M failed` over all parts of the gate.
set -u
cd "$(dirname "$0")/.." || exit
# shellcheck disable=SC1091
. tests/suites.sh
log=$(mktemp)
costs=$(mktemp)
faults=$(mktemp)
trap 'rm -f "$log" "$costs" "$faults"' EXIT
passed=0
failed=0

# Runs a command, shows its output, records its cost, and adds the counts in its last line `N passed, M failed` to the
# totals. A command counts as one failure if it fails without a count of failures, reports no count or an empty one, or
# reports that it left out some tests.
add() {
  local name=$1 status count good bad
  shift
  echo "== $name"
  python3 tests/runners/gate_table.py measure "$costs" out/gate.md "$name" "$@" 2>&1 | tee "$log" | sed -u "s/^\([0-9]* passed, [0-9]* failed\)\$/$name: \1/"
  status=${PIPESTATUS[0]}
  count=$(grep -E '^[0-9]+ passed, [0-9]+ failed$' "$log" | tail -n 1)
  good=0
  bad=0
  if [ -n "$count" ]; then
    good=${count%% *}
    bad=${count#*, }
    bad=${bad%% *}
  fi
  if [ "$bad" -eq 0 ] && { [ "$status" -ne 0 ] || [ "$good" -eq 0 ]; }; then
    bad=1
    echo "$name: ended with status $status"
  fi
  passed=$((passed + good))
  failed=$((failed + bad))
  if [ "$bad" -ne 0 ]; then
    faults_in "$log" | cut -c 1-300 | sed "s/^/$name: /" >>"$faults"
  fi
}

# Prints the lines of a log that report failures, and the lines before an unproved crate that give the reason: at
# most 24 lines.
faults_in() {
  grep -E -B 6 '^rt: [a-z_]+(: its tests are)? NOT PROVED$' "$1" | grep -v ': proved$' | head -n 14
  grep -E '^FAILED |^rt: FAILED|^there is no (program|command|module)' "$1" | head -n 10
}

if ! sh tests/install.sh; then
  echo "tests/install.sh: what the tests need cannot be had, and nothing was tried"
  echo "0 passed, 1 failed"
  exit 1
fi
sources=$(python3 tools/sources.py look)
# The number of crates proved in parallel is limited by memory, from the measured peaks, unless the caller sets
# RT_JOBS.
add "proofs" env "RT_JOBS=${RT_JOBS:-$(python3 tools/jobs.py)}" rt ci
# `make build` and `make demo` use the program built by the gate as long as the sources are unchanged. The tests of wrong function bodies
# also reuse the gate's proofs.
proved=
if [ "$failed" -eq 0 ] && python3 tools/sources.py note "$sources"; then
  proved=$sources
fi
# suite NAME TRIES QUICK SCRIPT WORD ..: runs a suite of the list on the program that the gate built
suite() {
  local name=$1 script=$4
  shift 4
  add "$name" python3 "tests/runners/$script" "$@"
}
each gate suite
add "wrong bodies" python3 tests/runners/wrong.py --proved "$proved"
echo "== costs"
mkdir -p out
python3 tests/runners/gate_table.py show "$costs" "$passed passed, $failed failed" | tee out/gate.md
python3 tests/runners/gate_table.py memory "$costs" >out/memory.txt
if [ -s "$faults" ]; then
  echo "== what failed"
  cat "$faults"
fi
echo "$passed passed, $failed failed"
[ "$failed" -eq 0 ]
