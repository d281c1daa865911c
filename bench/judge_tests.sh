#!/usr/bin/env bash
# Shows that the judge takes reports that can be right, and refuses wrong ones: it plays two workloads of `examples/` under
# each set, has the judge take their reports, changes each in one way after another, and has the judge refuse it. Then come
# reports that are written here. Prints one line for each, and ends with status 1 where the judge said otherwise.
#
# It wants bash and rustc, and `rt` in PATH where the proved program has to be built. It takes seconds. All that it writes
# goes to a temporary folder, which it deletes.
set -eu

bench=$(cd "$(dirname "$(readlink -f "${BASH_SOURCE[0]}")")" && pwd)
root=$(dirname "$bench")
work=$(mktemp -d)
trap 'rm -rf "$work"' EXIT
failed=0
rustc --edition 2021 -O -o "$work/judge" "$bench/judge.rs"

# judged STATUS WHAT WORD..: the judge has to end with this status on these words.
judged() {
    local wanted=$1 what=$2 status=0 said
    shift 2
    said=$("$work/judge" "$@") || status=$?
    printf '%s: %s\n' "$what" "$said"
    if [ "$status" != "$wanted" ]; then
        printf 'failed: status %s, and not %s\n' "$status" "$wanted"
        failed=1
    fi
}

# changed WHAT WORKLOAD REPORT PROGRAM: the report as this awk program changes it has to be refused. It has to differ.
changed() {
    awk "$4" "$3" >"$work/changed.txt"
    ! cmp -s "$3" "$work/changed.txt" || { echo "failed: $1 changes nothing"; failed=1; }
    judged 1 "  $1" "$2" "$work/changed.txt"
}

# Exchanges the replies of callers 0 and 1, line by line, while their calls stay.
swap='
    NR == FNR { if ($1 == "caller") { caller = $2; at = 0 } else if (NF == 3) reply[caller, ++at] = $3; next }
    $1 == "caller" { caller = $2; at = 0 }
    NF == 3 && caller < 2 { $3 = reply[1 - caller, ++at] }
    { print }'

for set in plain michael; do
    for name in one_bucket shared_phases; do
        workload=$root/examples/$name.txt report=$work/report.txt
        "$root/setbench" play --set $set --reclaimer none <"$workload" >"$report"
        judged 0 "$name, $set" "$workload" "$report"
        changed "an insertion's reply" "$workload" "$report" '/^i .* yes$/ && !done++ { sub("yes", "no") } 1'
        changed "a removal's reply" "$workload" "$report" '/^r .* no$/ && !done++ { sub("no", "yes") } 1'
        changed "a search's reply" "$workload" "$report" '/^s .* yes$/ && !done++ { sub("yes", "no") } 1'
        changed "a call's key" "$workload" "$report" '/^s / && !done++ { $2++ } 1'
        changed "a call's kind" "$workload" "$report" '/^s / && !done++ { $1 = "i" } 1'
        changed "a call left out" "$workload" "$report" '/^s / && !done++ { next } 1'
        changed "the size" "$workload" "$report" '$1 == "size" { $2++ } 1'
        changed "the sum" "$workload" "$report" '$1 == "size" { sub("sum ", "sum 1") } 1'
        changed "the callers of the first line" "$workload" "$report" 'NR == 1 { $6++ } 1'
        changed "the calls of the first line" "$workload" "$report" 'NR == 1 { $8++ } 1'
        changed "another set" "$workload" "$report" 'NR == 1 { $2 = $2 == "plain" ? "michael" : "plain" } 1'
        for at in 3 5 7 9 11 13 15 17; do
            changed "another count at $at" "$workload" "$report" "\$1 == \"records\" { \$$at++ } 1"
        done
        awk "$swap" "$report" "$report" >"$work/swapped.txt"
        cmp -s "$report" "$work/swapped.txt" && { echo "failed: both callers have the same replies"; failed=1; }
        judged 1 "  replies of two callers exchanged" "$workload" "$work/swapped.txt"
    done
done

# written STATUS WHAT CALLS REPLIES END..: a report on a hash table that is written here. Callers stand behind one another,
# with `;` between them, and END is the last two lines.
reclaimer=none
written() {
    local status=$1 what=$2 callers=$3 ends=$4 counts=$5
    shift 5
    tr ';' '\n' <<<"$callers" | awk -v report="$work/report.txt" -v workload="$work/workload.txt" -v ends="$ends" -v counts="$counts" -v reclaimer="$reclaimer" '
        { number = NR; caller[NR] = $0; total += NF / 3 }
        END {
            print "set michael reclaimer " reclaimer " callers " number " calls " total >report
            print "setbench 1\ncallers " number >workload
            for (c = 1; c <= number; c++) {
                print "caller " c - 1 >report; print "caller " c - 1 >workload
                n = split(caller[c], word, " ")
                for (at = 1; at < n; at += 3) {
                    print word[at], word[at + 1], word[at + 2] >report
                    print word[at], word[at + 1] >workload
                }
            }
            print ends "\nrecords " counts >report
            print "end" >workload
        }'
    judged "$status" "$what" "$@" "$work/workload.txt" "$work/report.txt"
}
none='reused 0 retired 0 freed 0 limbo 0 free 0 spare'
echo "written here:"
written 0 "  one of two callers inserts" "i 9 yes;i 9 no" "size 1 sum 9" "drawn 1 $none 0 spent 0"
written 0 "  and the other has a spare record" "i 9 yes;i 9 no" "size 1 sum 9" "drawn 2 $none 1 spent 0"
written 1 "  both have" "i 9 yes;i 9 no" "size 1 sum 9" "drawn 3 $none 2 spent 0"
written 1 "  one caller alone has a spare record" "i 9 yes i 9 no" "size 1 sum 9" "drawn 2 $none 1 spent 0"
written 1 "  both insert" "i 9 yes;i 9 yes" "size 2 sum 18" "drawn 2 $none 0 spent 0"
written 1 "  a search finds a key that nobody inserts" "s 9 yes;s 9 no" "size 0 sum 0" "drawn 0 $none 0 spent 0"
written 0 "  one of two keys is seen first" "i 1 yes s 2 no;i 2 yes s 1 yes" "size 2 sum 3" "drawn 2 $none 0 spent 0"
written 1 "  each of two keys is seen before the other" "i 1 yes s 2 no;i 2 yes s 1 no" "size 2 sum 3" "drawn 2 $none 0 spent 0"
written 0 "  no record is left" "i 1 yes i 2 yes i 3 full s 3 no" "size 2 sum 3" "drawn 2 $none 0 spent 0" --buckets 1 --records 3
written 1 "  a record is left" "i 1 yes i 2 full s 2 no" "size 1 sum 1" "drawn 1 $none 0 spent 0" --buckets 1 --records 3
written 1 "  more records than there are" "i 1 yes i 2 yes i 3 yes" "size 3 sum 6" "drawn 3 $none 0 spent 0" --buckets 1 --records 3
written 1 "  the key is there where no record is" "i 1 yes i 1 full" "size 1 sum 1" "drawn 1 $none 0 spent 0"
written 1 "  a search finds no record" "s 1 full" "size 0 sum 0" "drawn 0 $none 0 spent 0"
one='reused 0 retired 0 freed 0 limbo 0 free 0 spare 0 spent 0'
written 0 "  a marked record stays linked" "i 9 yes r 9 yes;i 8 yes" "size 1 sum 8" "drawn 2 $one"
written 1 "  a marked record stays linked for one caller" "i 9 yes r 9 yes i 8 yes" "size 1 sum 8" "drawn 2 $one"
written 1 "  a marked record stays linked behind a search" "i 9 yes r 9 yes s 9 no;i 8 yes" "size 1 sum 8" "drawn 2 $one"
written 1 "  a record is freed" "i 9 yes r 9 yes" "size 0 sum 0" "drawn 1 reused 0 retired 1 freed 1 limbo 0 free 1 spare 0 spent 0"
reclaimer=debra
twice='reused 1 retired 1 freed 1 limbo 0 free 0 spare 0 spent 0'
echo "and under DEBRA:"
written 0 "  a record is freed" "i 9 yes r 9 yes" "size 0 sum 0" "drawn 1 reused 0 retired 1 freed 1 limbo 0 free 1 spare 0 spent 0"
written 0 "  it is used again" "i 9 yes r 9 yes s 8 no s 8 no i 8 yes" "size 1 sum 8" "drawn 1 $twice"
written 1 "  and another one was drawn, too" "i 9 yes r 9 yes s 8 no s 8 no i 8 yes" "size 1 sum 8" "drawn 2 $twice"
written 1 "  a linked record is used again" "i 9 yes i 8 yes" "size 2 sum 17" "drawn 1 reused 1 retired 0 freed 0 limbo 0 free 0 spare 0 spent 0"
written 1 "  a record is freed twice" "i 9 yes r 9 yes" "size 0 sum 0" "drawn 1 reused 0 retired 1 freed 2 limbo 0 free 1 spare 0 spent 0"
written 1 "  a record is spent" "i 9 yes r 9 yes" "size 0 sum 0" "drawn 1 reused 0 retired 1 freed 1 limbo 0 free 0 spare 0 spent 1"
written 1 "  a record is free and in limbo" "i 9 yes r 9 yes" "size 0 sum 0" "drawn 1 reused 0 retired 1 freed 1 limbo 1 free 1 spare 0 spent 0"

[ $failed = 0 ] && echo "judge tests: passed"
exit $failed
