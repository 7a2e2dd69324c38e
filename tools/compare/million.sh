#!/bin/sh
# The comparison at scale: some 1,650,000 runs, those of two parts cut after each of
# their calls too. The parts stand in src/main.rs; each ends with `no difference`, or
# the first difference stops it. At the end comes the table of docs/COMPARISON.md.
# Options are compare's.
set -eu
exec "${COMPARE:-$(cd "$(dirname "$0")/../.." && pwd)/target/compare/release/compare}" million "$@"
