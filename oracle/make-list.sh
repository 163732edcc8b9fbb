#!/bin/sh
# Writes the replay list (stdin and stdout of crates/replay) again: the oracle's part, by the published source, and
# behind it that of reference/. `make-list.sh verify` writes it below target/ and says whether the files are that list.
set -eu
root=$(cd "$(dirname "$0")/.." && pwd)
stands=$root/crates/replay
folder=$stands
[ "${1:-write}" = write ] || folder=$root/target/list
(cd "$root/oracle" && cargo run --release --quiet -- list "$folder")
(cd "$root/reference" && cargo run --release --quiet -- list "$folder")
[ "$folder" = "$stands" ] && exit
cmp "$folder/stdin" "$stands/stdin"
cmp "$folder/stdout" "$stands/stdout"
echo 'the list stands as oracle/ and reference/ make it'
