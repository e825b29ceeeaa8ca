#!/usr/bin/env bash
# Builds the static library of crate exports_c, and puts it at target/staticlib/libexports.a.
set -euo pipefail
cd "$(dirname "$0")/../crates/exports_c"
rt lib | tail -n 1
mkdir -p ../../target/staticlib
cp out/libexports_c.a ../../target/staticlib/libexports.a
