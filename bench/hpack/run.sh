#!/bin/sh
# Measures the decoder beside python3-hpack and nghttp2 on the same blocks. It needs Debian's python3-hpack and
# libnghttp2-dev.
set -e
here=$(cd "$(dirname "$0")" && pwd)
work=$(mktemp -d)
trap 'rm -rf "$work"' EXIT
echo "this crate:"
"$here/../with_crates" hpack
echo "python3-hpack:"
/usr/bin/python3 "$here/peers.py"
echo "nghttp2:"
clang -O2 -o "$work/peers" "$here/peers.c" -lnghttp2
"$work/peers"
