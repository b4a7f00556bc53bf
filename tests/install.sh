#!/bin/sh
# Installs the Debian packages of the commands that tools.sh reports missing. The script fails if a package cannot be installed, or if a
# command is still missing afterwards.
#
#     sh tests/install.sh
set -eu
cd "$(dirname "$0")"
packages=$(sh tools.sh | sed -n 's/^there is no .*: Debian has it in //p')
[ -n "$packages" ] || exit 0
as_root=""
[ "$(id -u)" -eq 0 ] || as_root="sudo"
$as_root apt-get update -qq
# shellcheck disable=SC2086
$as_root apt-get install -y -qq $packages >/dev/null
exec sh tools.sh
