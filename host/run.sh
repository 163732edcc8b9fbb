#!/usr/bin/env bash
# Proves and builds the archive of the three C functions, then builds the Rust host and runs its tests.
set -euo pipefail
cd "$(dirname "$0")/.."
tools/prove.sh layout_calls_c
tools/staticlib.sh layout_calls
cargo test --release --offline --manifest-path host/Cargo.toml -- "$@"
