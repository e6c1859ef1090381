#!/usr/bin/env bash
# Tries the edits of bench/edits/CRATE: wrong bodies that the prover must refuse. With no names, those of all crates.
# They stand beside the gate, since the first edit of a crate costs a whole check of it. What is proved in out/ is used
# for the crates below. Fails where an edit is not refused, or its text no longer stands in the code.
set -euo pipefail
top=$(cd "$(dirname "$0")/.." && pwd)
cd "$top"
if [ $# -gt 0 ]; then crates=("$@"); else mapfile -t crates < <(ls bench/edits); fi

clone=$(mktemp -d)
trap 'rm -rf "$clone"' EXIT
git clone -q "$top" "$clone"
for out in crates/*/out; do
    [ -d "$out" ] && cp -a "$out" "$clone/$out"
done

failed=0
for crate in "${crates[@]}"; do
    mkdir -p "$clone/crates/$crate/must-fail"
    rm -f "$clone/crates/$crate/must-fail/"*
    cp "$clone/bench/edits/$crate/"*.edit "$clone/crates/$crate/must-fail/"
    (cd "$clone" && rt must-fail "$crate") | tee "$clone/results" || failed=1
    count=$(ls "$clone/crates/$crate/must-fail" | wc -l)
    echo "$crate: $(grep -c 'refused, as it must be' "$clone/results") of $count edits refused"
    rm -rf "$clone/crates/$crate/must-fail"
done
exit "$failed"
