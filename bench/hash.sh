#!/usr/bin/env bash
# Plays workloads of 1, 2 and 4 callers with shared keys on the hash table under each reclaimer, with the proved program and
# with a plain Rust program of the same algorithm, each five times in turn, and prints a table: the medians of the whole
# time, of the play itself and of peak memory, with their ratios. Each caller makes 250,000 calls, or as many as the argument
# says. README.md, beside this file, says more.
#
# It wants bash, python3 and rustc, for the peak memory GNU time, and `rt` in PATH where the proved
# program has to be built. All that it writes goes to a temporary folder, which it deletes.
set -eu

bench=$(cd "$(dirname "$(readlink -f "${BASH_SOURCE[0]}")")" && pwd)
root=$(dirname "$bench")
calls=${1-250000}
work=$(mktemp -d)
trap 'rm -rf "$work"' EXIT

# The first run of the script at the root proves and builds the program.
"$root/setbench" check <"$root/examples/first.txt" >"$work/workload.txt"
cp "$root/crates/setbench/out/setbench" "$work/setbench"
rustc --edition 2021 -C opt-level=3 -o "$work/hash" "$bench/hash.rs"
rustc --edition 2021 -O -o "$work/judge" "$bench/judge.rs"

columns=(reclaimer callers "calls of each" keys buckets)
for measured in "whole s" "play s" "peak KiB"; do columns+=("$measured, proved" plain ratio); done
columns+=("bytes a record, proved" plain "ns a call, proved" plain)
printf '|' && printf ' %s |' "${columns[@]}" && echo
printf '|' && printf -- '---|%.0s' "${columns[@]}" && echo
for reclaimer in none debra hazard 2geibr; do
    # A reclaimer that the program doesn't have is left out.
    try=(trial --set michael --reclaimer $reclaimer --callers 1 --calls 0 --keys 1 --seed 7)
    if ! "$work/setbench" "${try[@]}" >"$work/tried.txt"; then
        echo "$reclaimer: $(cat "$work/tried.txt")" >&2
        continue
    fi
    for callers in 1 2 4; do
        python3 -B "$bench/hash_table.py" "$work" $reclaimer $callers "$calls" 1000 64
    done
    python3 -B "$bench/hash_table.py" "$work" $reclaimer 4 "$calls" 100000 4096
    # One list.
    for callers in 1 2 4; do
        python3 -B "$bench/hash_table.py" "$work" $reclaimer $callers "$calls" 100 1
    done
done
