#!/bin/sh
# Proves and builds the measurement of the store, and prints its figures as a table in Markdown.
here=$(cd "$(dirname "$0")" && pwd)
exec "$here/../with_crates" store python3 "$here/table.py" PROGRAM
