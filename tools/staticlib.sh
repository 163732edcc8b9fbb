#!/usr/bin/env bash
# Proves and builds the archive of the C functions of a crate and leaves it as target/staticlib/libNAME.a. NAME is
# layout_calls, harness, harness_calls or harness_runs; the exports of the first three stand in crates/NAME_c.
set -euo pipefail
cd "$(dirname "$0")/.."
for name in "${@:?the name of a crate that exports C functions}"; do
    crate=$name
    [ ! -d "crates/${name}_c" ] || crate=${name}_c
    mkdir -p target/staticlib
    (cd "crates/$crate" && rt lib >../../target/staticlib.log 2>&1) || { cat target/staticlib.log >&2; exit 1; }
    cp "crates/$crate/out/lib$crate.a" "target/staticlib/lib$name.a"
    echo "target/staticlib/lib$name.a"
done
