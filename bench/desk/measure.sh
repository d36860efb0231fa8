#!/bin/sh
# Proves and builds the measurement of the desk, and prints for how many nanoseconds it is locked while it takes a document of 10,000
# entries, of which one has changed.
here=$(cd "$(dirname "$0")" && pwd)
exec "$here/../with_crates" desk PROGRAM 10000
