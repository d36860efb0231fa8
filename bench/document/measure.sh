#!/bin/sh
# Proves, builds and runs the measurement of documents.
exec "$(dirname "$0")/../with_crates" document
