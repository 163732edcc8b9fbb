#!/usr/bin/env bash
# Proves and builds relief, runs it on the sample island and shows what it did: numbers, and the picture
# target/sample.png. docs/island.png is a copy of that picture.
set -euo pipefail
cd "$(dirname "$0")/.."
rm -f target/sample.out target/sample.png
tools/prove.sh relief
# relief ends with status 0 in any case: where its output could not be written whole it says so on standard error.
said=$(target/bin/relief <sample/island.stream 2>&1 >target/sample.out) || said+=" (relief: status $?)"
if [ -n "$said" ]; then
    echo "$said" >&2
    exit 1
fi
if command -v rustc >/dev/null; then
    rustc --edition 2021 -O -o target/picture sample/picture.rs
    target/picture show sample/island.stream target/sample.out target/sample.png
else
    echo "target/sample.out has the output; its end record (45 4e, number, incisions, passes, questions):"
    tail -c 16 target/sample.out | od -An -tx1
fi
