#!/bin/sh
# Builds the reference. The command is then target/reference/release/reference.
set -eu
here=$(cd "$(dirname "$0")" && pwd)
root=$(cd "$here/../.." && pwd)
nice cargo build --offline --release -j1 \
    --manifest-path "$here/Cargo.toml" --target-dir "$root/target/reference"
echo "target/reference/release/reference"
