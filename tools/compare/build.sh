#!/bin/sh
# Builds the comparison of the program with the oracle.
#   tools/compare/build.sh SOURCE_FOLDER
# SOURCE_FOLDER, or else ORACLE_SOURCE, is the oracle's (tools/oracle/build.sh).
# The program's library is target/staticlib/libexports.a, which tools/library.sh
# writes; with EXPORTS_LIBRARY another folder's libexports.a is taken.
# COMPARE_TARGET is the folder to build in. The command is then
# target/compare/release/compare.
set -eu
here=$(cd "$(dirname "$0")" && pwd)
root=$(cd "$here/../.." && pwd)
source=$(cd "${1:-${ORACLE_SOURCE:?is not set, and no folder of the source is given (tools/oracle/README.md)}}" && pwd)
library=${EXPORTS_LIBRARY:-$root/target/staticlib}
[ -f "$library/libexports.a" ] || {
    echo "no $library/libexports.a: run tools/library.sh first" >&2
    exit 1
}
target=${COMPARE_TARGET:-$root/target/compare}
ORACLE_SOURCE="$source" EXPORTS_LIBRARY="$library" nice cargo build --offline --release -j1 \
    --manifest-path "$here/Cargo.toml" --target-dir "$target"
echo "$target/release/compare"
