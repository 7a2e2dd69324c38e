#!/bin/sh
# Builds the generator of runs. The command is then target/generator/release/generator.
set -eu
here=$(cd "$(dirname "$0")" && pwd)
root=$(cd "$here/../.." && pwd)
nice cargo build --offline --release -j1 \
    --manifest-path "$here/Cargo.toml" --target-dir "$root/target/generator"
echo "target/generator/release/generator"
