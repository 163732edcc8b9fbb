#!/usr/bin/env bash
# Runs relief on each stream of sample/streams and holds what it writes to the answer beside it, which `oracle relief`
# wrote; tells whole outputs from cut ones; and has relief write to a device that is full.
set -euo pipefail
cd "$(dirname "$0")/.."

fail() {
    echo "$1" >&2
    exit 1
}

# Whether a file is a whole output of relief: the grid record (47 52, w, h: 6 bytes), h rows of 2 + 4 w bytes, and the
# end record of 16 bytes, which begins with 45 4e. The output for a refused stream is the end record alone.
whole() { # FILE
    local size head end=0
    size=$(wc -c <"$1")
    [ "$size" -ge 16 ] || return 1
    read -ra head <<<"$(od -An -v -tu1 -N6 "$1")"
    if [ "${head[0]} ${head[1]}" = "71 82" ]; then
        end=$((6 + (head[4] + 256 * head[5]) * (2 + 4 * (head[2] + 256 * head[3]))))
    fi
    [ "$size" -eq $((end + 16)) ] && [ "$(od -An -tx1 -j "$end" -N2 "$1")" = " 45 4e" ]
}

tools/prove.sh relief

streams=(sample/streams/*.in)
for stream in "${streams[@]}"; do
    name=${stream%.in}
    said=$(target/bin/relief <"$stream" 2>&1 >target/check.out) || said+=" (status $?)"
    [ -z "$said" ] || fail "$name: relief wrote to standard error: $said"
    cmp -s target/check.out "$name.out" || fail "$name: not the answer"
    whole target/check.out || fail "$name: taken for an output that is not whole"
    for cut in 1 16; do
        head -c "-$cut" "$name.out" >target/check.out
        ! whole target/check.out || fail "$name: without its last $cut bytes taken for a whole output"
    done
done
echo "${#streams[@]} streams, each with its answer, whole"

said=$(target/bin/relief <sample/island.stream 2>&1 >/dev/full) || said+=" (status $?)"
[ "$said" = "relief: the output could not be written whole" ] || fail "on a full device relief said: '$said'"
echo "on a full device: $said"
