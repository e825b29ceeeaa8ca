#!/usr/bin/env bash
# Compares the static library with the Rust: builds the library, the oracle and the comparison, and runs it. The argument is a seed.
set -euo pipefail
cd "$(dirname "$0")/.."
bindings/library.sh
cargo build --quiet --profile checked --offline --package compare
exec target/checked/compare "${1:-1}"
