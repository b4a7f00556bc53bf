#!/bin/sh
# Compiles and runs the program in a source file, with a `cyclone` built without proofs: sh examples/try.sh SOURCE
set -u
if [ ! -f "$1" ]; then
  echo "there is no file '$1': make try SOURCE=examples/hello.cyc tries that one" >&2
  exit 8
fi
if ! command -v rt >/dev/null; then
  echo "there is no command rt: README.md says what it is, and which version is needed" >&2
  exit 8
fi
source=$(realpath -- "$1") || exit 8
cd "$(dirname "$0")/.." || exit
program=$PWD/out/unproved/fast/cyclone
room=$(mktemp -d)
trap 'rm -rf "$room"' EXIT

# step WORD ..: runs cyclone once and shows its exit status
step() {
  "$program" "$@"
  status=$?
  echo "(exit status $status)" >&2
}

echo "Nothing is proved here: \`make build\` proves cyclone and builds it. It takes some minutes where cyclone is new or was changed." >&2
tools/unproved --fast "$program" >&2 || exit 8
echo "\$ cyclone compile $source --with lib/*.cyc -o image.elf" >&2
step compile "$source" --with lib/*.cyc -o "$room/image.elf" < /dev/null
[ "$status" -eq 0 ] || exit 0
echo "\$ cyclone run image.elf" >&2
step run "$room/image.elf"
