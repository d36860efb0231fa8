#!/bin/sh
# Proves and builds the measurement of publications, and prints its figures as tables in Markdown.
here=$(cd "$(dirname "$0")" && pwd)
exec "$here/../with_crates" publish python3 "$here/table.py" PROGRAM
