#!/usr/bin/env bash
# Proves a crate and those that it needs with `rt check`, and prints each as soon as it is proved. Of a crate that is
# not proved it prints what rt says, and it ends with rt's status. A program is built too, as target/bin/NAME.
set -euo pipefail
cd "$(dirname "$0")/.."
name=${1:?the name of a crate of crates.txt}
command -v rt >/dev/null || { echo "prove.sh: there is no command rt; it comes with the Rattle kit" >&2; exit 2; }
[ -d "crates/$name" ] || { echo "prove.sh: there is no crate $name" >&2; exit 2; }
mkdir -p target/bin
echo "$name and the crates that it needs are proved. The first time that takes minutes;" \
    "later only what has changed is proved again."

# rt prints what the prover says of a crate, then 'crate NAME: ..' and 'logic=proved ..'. What comes before is kept
# until then. Crates that have not changed since they were proved are not printed.
crate='' kept=''
(cd "crates/$name" && rt check 2>&1) | {
    while IFS= read -r line; do
        case $line in
        'crate '*': modules loaded='*) crate=${line#crate } crate=${crate%%:*} ;;
        'logic=proved'*) echo "$crate: proved ($SECONDS s)" && kept='' ;;
        'logic=not-proved'*) printf '%s%s\n' "$kept" "$crate: not proved" && kept='' ;;
        'checked '* | *': proved' | 'library '*': modules loaded='* | 'statements '* | 'logic '* | 'rt: chose '*) ;;
        *) kept+=$line$'\n' ;;
        esac
    done
    printf '%s' "$kept" | grep -v '^note: \|^rt: ' || true
}
if [ -f "crates/$name/src/main.rt" ]; then
    (cd "crates/$name" && rt run </dev/null >/dev/null 2>../../target/build.log) || {
        cat target/build.log >&2
        exit 1
    }
    cp "crates/$name/out/$name" "target/bin/$name"
fi
echo "$name: proved, with all that it needs ($SECONDS s)"
