#!/usr/bin/env bash
# Plays calls of one caller over 100 keys on Michael's list, in one bucket, under each reclaimer: with the proved program
# `list_bench` and with a plain Rust program that makes the same steps, each five times in turn. Prints the medians of wall
# time and of peak memory, with their ratios. There are 250,000 calls, or as many as the argument says. README.md, beside
# this file, says more.
#
# It wants bash, python3, rustc, `rt` in PATH, and for the peak memory GNU time. All that it writes but
# the proved program goes to a temporary folder, which it deletes.
set -eu

bench=$(cd "$(dirname "$(readlink -f "${BASH_SOURCE[0]}")")" && pwd)
root=$(dirname "$bench")
work=$(mktemp -d)
trap 'rm -rf "$work"' EXIT

calls=${1-250000} keys=100
(cd "$root/crates/list_bench" && rt run -- "$calls" "$keys" none) >"$work/yes.txt" 2>"$work/build.txt" ||
    { cat "$work/build.txt" >&2; exit 70; }
rustc --edition 2021 -C opt-level=3 -o "$work/list_words" "$bench/list_words.rs"

proved=$root/crates/list_bench/out/list_bench
for reclaimer in none debra hazard 2geibr; do
    # A reclaimer that the program doesn't have is left out.
    if ! "$proved" 0 1 $reclaimer >"$work/yes.txt"; then
        echo "$reclaimer: refused" >&2
        continue
    fi
    : >"$work/list_$reclaimer.txt"
    python3 -B "$bench/compare.py" "$work/list_$reclaimer.txt" -- \
        "$proved" "$calls" "$keys" $reclaimer -- "$work/list_words" "$calls" "$keys" $reclaimer
done
