#!/bin/sh
# Selects code for the darker of two pixels, runs it on sky.pgm and ink.pgm, and writes the result
# as darker.pgm and, where Python 3 is there, as darker.png. pitchfork.sh says which program it is.
set -e
here=$(cd "$(dirname "$0")" && pwd)
sh "$here/pitchfork.sh" select neon "$here/darker.kern" "$here/none.rules" "$here/min.rules" "$here/darker.s"
sh "$here/pitchfork.sh" run "$here/darker.s" "$here/sky.pgm" "$here/ink.pgm" "$here/darker.pgm"
if command -v python3 >/dev/null; then
    python3 "$here/png.py" "$here/darker.pgm" "$here/darker.png"
    echo "$here/darker.png"
fi
