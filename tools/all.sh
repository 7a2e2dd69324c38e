#!/bin/sh
# Makes what is generated under crates/ again, in rt fmt's layout, and checks the crates.
#   tools/all.sh           all of it
#   tools/all.sh tables    the definitions that other files fix, in seconds; nothing is proved
# RT is the command to check with (default: rt).
set -e
cd "$(dirname "$0")/.."
python3 tools/written.py
python3 tools/opened.py
[ "$1" = tables ] || for crate in producer run; do
    python3 tools/prove.py "$crate"
done
for crate in crates/*; do
    (cd "$crate" && rt fmt)
done
[ "$1" = tables ] || for crate in ast producer link run; do
    (cd "crates/$crate" && ${RT:-rt} check)
done
