#!/bin/sh
# Proves and builds the measurement of sessions, and prints its figures as tables in Markdown. It needs gcc.
set -e
here=$(cd "$(dirname "$0")" && pwd)
work=$(mktemp -d)
trap 'rm -rf "$work"' EXIT
gcc -O2 -shared -fPIC -o "$work/allocations.so" "$here/allocations.c" -ldl
"$here/../with_crates" session python3 "$here/table.py" PROGRAM "$work/allocations.so"
