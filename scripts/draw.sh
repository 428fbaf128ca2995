#!/bin/sh
# Draws a picture: scripts/draw.sh FILE.dot [FOLDER]. FILE.svg and FILE.png are put into FOLDER, else beside the file, by Graphviz
# (`apt-get install graphviz`). The file says by which of its programs it is to be drawn.
set -eu

if [ $# -lt 1 ] || [ $# -gt 2 ]; then
    echo "usage: scripts/draw.sh FILE.dot [FOLDER]" >&2
    exit 2
fi
if ! command -v dot >/dev/null; then
    echo "draw.sh: there is no program dot; it is in Debian's package graphviz" >&2
    exit 1
fi
name=$(basename "$1" .dot)
into=${2:-$(dirname "$1")}
dot -Tsvg -o "$into/$name.svg" "$1"
dot -Tpng -Gdpi=120 -o "$into/$name.png" "$1"
