#!/bin/sh
# Feeds and writes frames, and pulls messages.
exec "$(dirname "$0")/../with_crates" frames
