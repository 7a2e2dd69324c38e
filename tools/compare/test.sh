#!/bin/sh
# Runs the comparison's own tests.
#   tools/compare/test.sh SOURCE_FOLDER
# The argument, the variables and the folders are build.sh's.
set -eu
here=$(cd "$(dirname "$0")" && pwd)
"$here/build.sh" "$@" >/dev/null
root=$(cd "$here/../.." && pwd)
ORACLE_SOURCE=$(cd "${1:-$ORACLE_SOURCE}" && pwd) \
EXPORTS_LIBRARY=${EXPORTS_LIBRARY:-$root/target/staticlib} \
    nice cargo test --offline --release -j1 --manifest-path "$here/Cargo.toml" \
    --target-dir "${COMPARE_TARGET:-$root/target/compare}"
