#!/bin/sh
# Sees that the scripts still write what stands under crates/, to the letter: every written definition, and the answers of the cycles of
# `run`. It works on a copy, and takes about two minutes where the crates below `run` are proved.
# RT is the command to check with (default: rt).
set -eu
root=$(cd "$(dirname "$0")/.." && pwd)
copy=$(mktemp -d)
trap 'rm -rf "$copy"' EXIT
(cd "$root" && tar -cf - --exclude=out crates crates.txt docs tools) | (cd "$copy" && tar -xf -)
cd "$copy"
# What isn't written again must be missed.
rm -f crates/*/specs/Opened.antt crates/link/specs/Tables.antt
rm crates/run/proofs/build/+*/Answers.antt
tools/all.sh tables
python3 tools/prove.py run
(cd crates/run && rt fmt)
diff -r -x out "$root/crates" crates
diff -r "$root/docs" docs
echo "as written"
