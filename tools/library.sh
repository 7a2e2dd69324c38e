#!/bin/sh
# Proves and builds the library for C and Rust: target/staticlib/libexports.a.
#   tools/library.sh
# RT is the command to build with (default: rt).
set -eu
root=$(cd "$(dirname "$0")/.." && pwd)
cd "$root/crates/exports_c"
${RT:-rt} lib
mkdir -p "$root/target/staticlib"
cp out/libexports_c.a "$root/target/staticlib/libexports.a"
echo "$root/target/staticlib/libexports.a"
