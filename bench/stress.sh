#!/usr/bin/env bash
# Plays generated workloads on the hash table, with keys that all callers share, and judges each report. `stress.sh` plays
# 1,000 without reclamation, 250 each with 2, 4, 16 and 64 callers. `stress.sh debra` plays 900 under DEBRA, 300 each with 2,
# 4 and 16 callers, on few records more than there are keys, so that most insertions use a record again; `stress.sh hazard`
# as many with hazard pointers, where each caller may keep six records for each caller, and `stress.sh 2geibr` as many under
# 2GEIBR, where it may keep sixteen. `stress.sh debra shelves`, and so for the other two, plays 200 in which half of the
# callers only insert and the others only remove, so that records come back by the pool's shelves, but for those that a caller
# takes out which inserts and meets a mark. Sizes, seeds, phases, buckets and records vary with the workload's number, and each
# run of this script plays the same ones. README.md, beside this file, says more.
#
# It prints what it judged, and ends with status 1 at the first report that is refused, whose workload, words and report
# it keeps and names. It wants bash, awk and rustc, and `rt` in PATH where the proved program has to be built.
set -eu

reclaimer=${1-none} kind=${2-all}
case $reclaimer/$kind in
none/all) runs=1000 ;;
debra/all | hazard/all | 2geibr/all) runs=900 ;;
debra/shelves | hazard/shelves | 2geibr/shelves) runs=200 ;;
*)
    echo "usage: stress.sh [none|debra|hazard|2geibr] | stress.sh debra|hazard|2geibr shelves" >&2
    exit 2
    ;;
esac
bench=$(cd "$(dirname "$(readlink -f "${BASH_SOURCE[0]}")")" && pwd)
root=$(dirname "$bench")
work=$(mktemp -d)
workload=$work/workload.txt report=$work/report.txt
program=$root/crates/setbench/out/setbench
lines=$work/lines.txt
# The first run of the script at the root proves and builds the program.
"$root/setbench" check <"$root/examples/first.txt" >"$workload"
rustc --edition 2021 -O -o "$work/judge" "$bench/judge.rs"

# refuse CAUSE: keeps what was played, and ends.
refuse() {
    rm -f "$work/judge" "$lines"
    echo "refused: workload $number: $1"
    echo "it was played with: ${play[*]}"
    echo "kept: $workload $report"
    exit 1
}

# Cuts each caller's calls into phases of so many, in the text of a workload without phases.
in_phases() {
    awk -v size="$1" '
        NR == 1 { print "setbench 2"; next }
        NF == 2 && $1 != "callers" && $1 != "caller" { if (at && at % size == 0) print "phase"; at++ }
        $1 == "caller" { at = 0 }
        { print }' >"$workload"
}

# draw N: a number below N, in `drawn`. The same in each run.
state=1
draw() {
    state=$(((state * 1103515245 + 12345) % 2147483648))
    drawn=$((state / 65536 % $1))
}

# few_records: sets the sizes of the workload with this number, of which most insertions have to use a record again: beside
# the buckets and the keys there are 2 to 9 records for each caller, and with hazard pointers and under 2GEIBR as many as it
# retires between two scans, of which the last one may free none.
few_records() {
    local by_number=(2 4 16)
    callers=${by_number[$((number % 3))]}
    draw 5 && local totals=(1000 2000 4000 8000 16000)
    calls=$((totals[drawn] / callers))
    draw 5 && local sizes=(1 2 5 20 50)
    keys=${sizes[$drawn]}
    draw 4 && local tables=(1 3 16 64)
    buckets=${tables[$drawn]}
    draw 3 && phase=0
    if [ "$drawn" = 0 ]; then draw 4 && phase=$((calls / (drawn + 2) + 1)); fi
    local bag=0
    case $reclaimer in
    hazard) bag=$((6 * callers)) ;;
    2geibr) bag=16 ;;
    esac
    draw 8 && records=$((buckets + keys + callers * (drawn + 2 + bag)))
}

# by_shelves: sets the sizes of the workload with this number, in which half of the callers only insert and the others only
# remove. Beside the buckets and the keys there are as many records as those that remove may keep: 63 free ones each, and
# what waits in limbo.
by_shelves() {
    local by_number=(2 4 8)
    callers=${by_number[$((number % 3))]}
    draw 4 && local totals=(2000 4000 8000 16000)
    calls=$((totals[drawn] / callers))
    draw 3 && local sizes=(50 100 200)
    keys=${sizes[$drawn]}
    draw 3 && local tables=(4 16 64)
    buckets=${tables[$drawn]}
    phase=0
    draw 8 && records=$((buckets + keys + callers / 2 * (63 + 6 * callers + 16 + 8 * drawn)))
}

# one_way: writes the workload in which callers with an even number insert keys at random and the others remove some.
one_way() {
    awk -v callers="$callers" -v calls="$calls" -v keys="$keys" -v seed="$number" '
        BEGIN {
            srand(seed)
            print "setbench 1"
            print "callers " callers
            for (caller = 0; caller < callers; caller++) {
                print "caller " caller
                for (call = 0; call < calls; call++) print (caller % 2 ? "r " : "i ") int(rand() * keys)
            }
            print "end"
        }' >"$workload"
}

# plan: sets the words and the sizes of the workload with this number.
plan() {
    if [ "$kind" = shelves ]; then
        by_shelves
        return
    fi
    if [ "$reclaimer" != none ]; then
        few_records
        return
    fi
    callers=$((number % 4)) && callers=$((callers == 0 ? 2 : callers == 1 ? 4 : callers == 2 ? 16 : 64))
    draw 5 && local totals=(200 1000 4000 8000 16000)
    calls=$((totals[drawn] / callers))
    draw 6 && local sizes=(1 2 5 20 100 1000)
    keys=${sizes[$drawn]}
    draw 4 && local tables=(1 3 16 64)
    buckets=${tables[$drawn]}
    # A third has phases, and a fifth few records.
    draw 3 && phase=0
    if [ "$drawn" = 0 ]; then draw 4 && phase=$((calls / (drawn + 2) + 1)); fi
    # About half of the calls are insertions, each of which takes one record at most.
    draw 5 && records=$((buckets + callers * calls))
    if [ "$drawn" = 0 ]; then draw 5 && records=$((buckets + callers * calls * (drawn + 1) / 24 + 1)); fi
}

for ((number = 0; number < runs; number++)); do
    plan
    generate=(generate --callers "$callers" --calls "$calls" --keys "$keys" --seed "$number" --shared yes)
    play=(play --set michael --reclaimer "$reclaimer" --buckets "$buckets" --records "$records")
    if [ "$kind" = shelves ]; then
        one_way
    elif [ "$phase" = 0 ]; then
        "$program" "${generate[@]}" >"$workload"
    else
        "$program" "${generate[@]}" | in_phases "$phase"
    fi
    status=0
    timeout 60 "$program" "${play[@]}" <"$workload" >"$report" || status=$?
    judged=$("$work/judge" --buckets "$buckets" --records "$records" "$workload" "$report") || refuse "$judged"
    case "$status $judged" in
    "0 right "*" full 0 "*) ;;
    "0 right "*) refuse "status 0 with a full" ;;
    "5 right "*" full 0 "*) refuse "status 5 without a full" ;;
    "5 right "*) ;;
    *) refuse "status $status" ;;
    esac
    echo "$phase $judged" >>"$lines"
done

# The words of a line are the size of its phases, `right`, and the judge's names with values.
awk '
    { runs++; phased += $1 > 0; for (at = 3; at < NF; at += 2) of[$at] += $(at + 1); by[$4]++
      whole += /whole yes/; turn += /in_turn yes/; bare += / full [1-9]/; again += / reused [1-9]/ }
    END {
        print "judged " runs ": callers 2 " by[2] ", 4 " by[4] ", 8 " by[8] + 0 ", 16 " by[16] + 0 ", 64 " by[64] + 0 "; with phases " phased
        print "replies " of["calls"] ", full " of["full"] " in " bare " runs; spare records " of["spare"] ", marked ones " of["marked"]
        print "records used again " of["reused"] " times, in " again + 0 " runs"
        print "keys searched " of["searched"] ", only counted " of["counted"] "; all calls together ordered in " whole " runs"
        print "replies of one caller after another in " turn " runs"
    }' "$lines"
rm -rf "$work"
