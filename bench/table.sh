#!/usr/bin/env bash
# Prepares the largest table, draws and hands out every record, sets each aside, and closes the table:
# with the proved program `table_bench` and with a plain Rust program that makes the same steps, each
# five times in turn. Prints the ratios of the medians of wall time and of peak memory. README.md,
# beside this file, says more.
#
# It wants bash, python3, rustc, `rt` in PATH, and for the peak memory GNU time. All that it writes but
# the proved program goes to a temporary folder, which it deletes.
set -eu

bench=$(cd "$(dirname "$(readlink -f "${BASH_SOURCE[0]}")")" && pwd)
root=$(dirname "$bench")
work=$(mktemp -d)
trap 'rm -rf "$work"' EXIT

records=1048575
(cd "$root/crates/table_bench" && rt run -- "$records") >"$work/drawn.txt" 2>"$work/build.txt" ||
    { cat "$work/build.txt" >&2; exit 70; }
rustc --edition 2021 -C opt-level=3 -o "$work/table_words" "$bench/table_words.rs"

: >"$work/largest_table.txt"
python3 "$bench/compare.py" "$work/largest_table.txt" -- \
    "$root/crates/table_bench/out/table_bench" "$records" -- "$work/table_words" "$records"
