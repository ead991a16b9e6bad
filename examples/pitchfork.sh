#!/bin/sh
# Runs the program with these words, of which the files are named by their whole paths: $PITCHFORK
# where that is set, and else the proved program, which is proved and built first where it isn't yet.
if [ -n "$PITCHFORK" ]; then
    exec "$PITCHFORK" "$@"
fi
cd "$(dirname "$0")/../crates/pitchfork" && exec rt run -- "$@"
