#!/bin/sh
# Builds the oracle from the source's own files.
#   tools/oracle/build.sh SOURCE_FOLDER
# SOURCE_FOLDER is the source's repository, as NOTICE names it: it holds src/cubical/.
# Without it the variable ORACLE_SOURCE has to name it. The command is then
# target/oracle/release/oracle.
set -eu
here=$(cd "$(dirname "$0")" && pwd)
root=$(cd "$here/../.." && pwd)
source=$(cd "${1:-${ORACLE_SOURCE:?is not set, and no folder of the source is given (tools/oracle/README.md)}}" && pwd)
ORACLE_SOURCE="$source" nice cargo build --offline --release -j1 \
    --manifest-path "$here/Cargo.toml" --target-dir "$root/target/oracle"
echo "target/oracle/release/oracle"
