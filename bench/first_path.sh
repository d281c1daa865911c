#!/usr/bin/env bash
# Plays two large workloads of one caller with the proved program and with a plain Rust program of
# the same job, each five times in turn, compares what they print byte for byte, and prints the
# ratios of the medians of wall time and of peak memory. README.md, beside this file, says more.
#
# It wants bash, python3 and rustc, for the peak memory GNU time, and `rt` in PATH where the proved
# program has to be built. All that it writes goes to a temporary folder, which it deletes.
set -eu

bench=$(cd "$(dirname "$(readlink -f "${BASH_SOURCE[0]}")")" && pwd)
root=$(dirname "$bench")
work=$(mktemp -d)
trap 'rm -rf "$work"' EXIT

# The first run of the script at the root proves and builds the program, and plays a small workload.
"$root/setbench" play --set plain --reclaimer none <"$root/examples/first.txt" |
    cmp - "$root/examples/first.report.txt"
rustc --edition 2021 -C opt-level=3 -o "$work/plain" "$bench/plain.rs"

python3 "$bench/make_workload.py" 1000000 1000 >"$work/many_calls.txt"
python3 "$bench/make_workload.py" 200000 100000 >"$work/many_keys.txt"

proved=("$root/crates/setbench/out/setbench" play --set plain --reclaimer none)
for workload in many_calls many_keys; do
    python3 "$bench/compare.py" "$work/$workload.txt" -- "${proved[@]}" -- "$work/plain" play
done
