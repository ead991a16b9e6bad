#!/bin/sh
# Evaluates each filter of filters.txt on its images, and writes the pictures NAME.pgm and NAME.png.
# pitchfork.sh says which program it is.
set -e
here=$(cd "$(dirname "$0")" && pwd)
while read -r name images; do
    set -- eval "$here/$name.kern"
    for image in $images; do
        set -- "$@" "$here/$image.pgm"
    done
    sh "$here/pitchfork.sh" "$@" "$here/$name.pgm" </dev/null
    python3 "$here/png.py" "$here/$name.pgm" "$here/$name.png"
    echo "$here/$name.png"
done <"$here/filters.txt"
