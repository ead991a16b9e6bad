#!/bin/sh
# All pictures of the examples, about a minute after the first call, by the program as it is built
# without a proof and without optimisation. Needs `rt` and Python 3.
set -e
here=$(cd "$(dirname "$0")" && pwd)
if [ -n "$PITCHFORK" ]; then
    echo "PITCHFORK is set, so that program makes the pictures, and nothing is built."
    sh "$here/darker.sh"
    exec sh "$here/filters.sh"
fi
cases=$(mktemp -d)
trap 'rm -rf "$cases" "$cases.log"' EXIT

# Adds a call of the program: a file of its words, one a line. `rt try --cases` makes the calls in
# the order of the files' names, and in a folder of its own, so each file is named by its whole path.
number=10
call() {
    number=$((number + 1))
    : >"$cases/$number"
    printf '%s\n' "$@" >"$cases/$number.args"
}

call select neon "$here/darker.kern" "$here/none.rules" "$here/min.rules" "$here/darker.s"
call run "$here/darker.s" "$here/sky.pgm" "$here/ink.pgm" "$here/darker.pgm"
names=darker
while read -r name images; do
    set -- eval "$here/$name.kern"
    for image in $images; do
        set -- "$@" "$here/$image.pgm"
    done
    call "$@" "$here/$name.pgm"
    names="$names $name"
done <"$here/filters.txt"

echo "Building the program without a proof and running it, for a first look: about a minute."
tried=0
(cd "$here/../crates/pitchfork" && rt try --cases "$cases") >"$cases.log" 2>&1 || tried=$?
if [ "$tried" -ne 0 ] || grep -q '^case=.* status=[^0]' "$cases.log"; then
    cat "$cases.log"
    exit 1
fi
for name in $names; do
    python3 "$here/png.py" "$here/$name.pgm" "$here/$name.png"
    echo "$here/$name.png"
done
echo "Nothing of this was proved: \`rt run\` in crates/pitchfork makes the proved program."
