#!/usr/bin/env bash
# Times the port and the Rust: builds the static library, program replay, the oracle and the benchmark, and runs it.
set -euo pipefail
cd "$(dirname "$0")/.."
(cd crates/replay && rt run > /dev/null)
bindings/library.sh
cargo build --quiet --release --offline --package bench
exec target/release/bench
