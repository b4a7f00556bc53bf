#!/bin/sh
# Demonstrates the program: shows each command, its output, and its exit status.
set -u
cd "$(dirname "$0")" || exit
PATH="$(cd ../crates/cyclone/out && pwd):$PATH"
room=$(mktemp -d)
trap 'rm -rf "$room"' EXIT

# show COMMAND ..: runs a command without input, and shows its output and status
show() { show_on /dev/null "$@"; }

# show_on INPUT COMMAND ..: runs a command with this input file, and shows its output and status
show_on() {
  input=$1
  shift
  echo
  if [ "$input" = /dev/null ]; then echo "\$ $*"; else echo "\$ $* < $input"; fi
  "$@" < "$input" > "$room/printed" 2> "$room/said"
  status=$?
  head -n "${lines:-1000}" "$room/printed"
  # the output on standard error begins on a line of its own
  [ -z "$(tail -c 1 "$room/printed")" ] || echo
  cat "$room/said"
  echo "(exit status $status)"
}

show cat hello.cyc
show cyclone compile hello.cyc -o "$room/hello.elf"
show cyclone run "$room/hello.elf"
echo
echo "its first eight instructions:"
lines=8
show cyclone disasm "$room/hello.elf"
lines=1000
show cyclone run "$room/hello.elf" --steps 1

show cat count.cyc
show cyclone compile count.cyc -o "$room/count.elf"
show_on count.in cyclone run "$room/count.elf"
show_on count.in cyclone run "$room/count.elf" --calls 2

show cyclone compile primes.cyc --with ../lib/numbers.cyc -o "$room/primes.elf"
show cyclone run "$room/primes.elf"

echo
echo "an average of nothing, where a division by 0 ends the run:"
show cyclone compile average.cyc --with ../lib/numbers.cyc -o "$room/average.elf"
show cyclone run "$room/average.elf"

show cyclone check squares.cyc --with ../lib/numbers.cyc
show cyclone check wrong.cyc
show cyclone check unset.cyc
show cyclone compile wrong.cyc -o "$room/wrong.elf"
