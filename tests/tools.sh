#!/bin/sh
# Prints the commands of tools.txt that are missing, with the Debian packages that contain them, and fails if a command is missing. The
# script tools.sh installs no package; install.sh does.
#
#     sh tests/tools.sh [COMMAND ..]
set -eu
cd "$(dirname "$0")"
tools=${*:-$(grep -o '^[a-z][^ ]*' tools.txt)}
status=0
# The folder of the modules of Debian's python3.
modules=${MODULES:-/usr/lib/python3/dist-packages}
# The folder of Debian's JavaScript libraries for web pages.
libraries=${LIBRARIES:-/usr/share/javascript}
# The folder of the files with which 32-bit programs are linked.
narrow=${NARROW:-/usr/lib32}
for tool in $tools; do
  kind="command"
  case $tool in
  python3-*)
    kind="module"
    [ -e "$modules/${tool#python3-}" ] && continue
    ;;
  libjs-*)
    kind="module"
    [ -e "$libraries/${tool#libjs-}" ] && continue
    ;;
  lib32-*)
    kind="module"
    [ -e "$narrow/${tool#lib32-}" ] && continue
    ;;
  *) command -v "$tool" >/dev/null && continue ;;
  esac
  echo "there is no $kind $tool: Debian has it in $(sed -n "s/^$tool //p" tools.txt)"
  status=1
done
[ "$status" -eq 0 ] || echo "sh tests/install.sh installs what is missing"
exit "$status"
