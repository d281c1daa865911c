#!/usr/bin/env bash
# Generates, checks and plays a workload of 1,000,000 calls of 4 callers over 1,000 keys, with the
# proved program and with a plain Rust program of the same jobs, each five times in turn, compares
# what they print byte for byte, and prints the ratios of the medians of wall time and of peak memory.
# README.md, beside this file, says more.
#
# It wants bash, python3 and rustc, for the peak memory GNU time, and `rt` in PATH where the proved
# program has to be built. All that it writes goes to a temporary folder, which it deletes.
set -eu

bench=$(cd "$(dirname "$(readlink -f "${BASH_SOURCE[0]}")")" && pwd)
root=$(dirname "$bench")
work=$(mktemp -d)
trap 'rm -rf "$work"' EXIT

# The first run of the script at the root proves and builds the program.
made=(generate --callers 4 --calls 250000 --keys 1000 --seed 7)
"$root/setbench" "${made[@]}" >"$work/check.txt"
cp "$work/check.txt" "$work/play.txt"
: >"$work/generate.txt"
rustc --edition 2021 -C opt-level=3 -o "$work/plain" "$bench/plain.rs"

proved=$root/crates/setbench/out/setbench
compare=(python3 "$bench/compare.py")
"${compare[@]}" "$work/check.txt" -- "$proved" check -- "$work/plain" check
"${compare[@]}" "$work/generate.txt" -- "$proved" "${made[@]}" -- "$work/plain" generate 4 250000 1000 7
"${compare[@]}" "$work/play.txt" -- "$proved" play --set plain --reclaimer none -- "$work/plain" play

text=$(stat -c %s "$work/play.txt")
echo "twice the text and 32 bytes a call: $(((2 * text + 32 * 1000000) / 1024)) KiB"
