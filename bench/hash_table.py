"""Plays one workload on the hash table with two programs, five times each in turn, and prints one row about it.

Use: hash_table.py FOLDER RECLAIMER CALLERS CALLS KEYS BUCKETS. The folder has the programs `setbench`, `hash` and `judge`.

The whole time and the peak memory are those of compare.py. Replies depend on how callers meet, so the last report of
each program is judged, and compared only where there is one caller and nothing is reclaimed. The play is the time from
the end of the input until the first byte of the report, less the same time of reading the workload alone: making the table,
playing, and counting what is left. So it is measured from outside of both programs, in the same way. The nanoseconds of a
call are those of the play over the calls of one caller, while the others make theirs.
"""
import os
import shutil
import statistics
import subprocess
import sys
import tempfile
import time

from compare import RUNS, digest, run


def silence(command, source):
    """The seconds from the end of the command's input to the first byte of its output."""
    with subprocess.Popen(command, stdin=subprocess.PIPE, stdout=subprocess.PIPE) as child:
        with open(source, "rb") as text:
            shutil.copyfileobj(text, child.stdin)
        child.stdin.close()
        begun = time.perf_counter()
        child.stdout.read(1)
        seconds = time.perf_counter() - begun
        child.stdout.read()
    return seconds


def judge(folder, source, report):
    """Ends this program where the report is refused."""
    judged = subprocess.run([os.path.join(folder, "judge"), source, report], capture_output=True, text=True, check=False)
    if judged.returncode != 0:
        sys.exit(f"{report}: {judged.stdout or judged.stderr}")


def measure(folder, reclaimer, callers, source, buckets):
    """The medians of both programs: whole time, play, and peak of KiB."""
    proved, plain = os.path.join(folder, "setbench"), os.path.join(folder, "hash")
    plays = [[proved, "play", "--set", "michael", "--reclaimer", reclaimer, "--buckets", buckets], [plain, "play", buckets, reclaimer]]
    checks = [[proved, "check"], [plain, "check"]]
    taken, printed = [[], []], set()
    with tempfile.TemporaryDirectory() as scratch:
        for _ in range(RUNS):
            for at in range(2):
                seconds, peak, _ = run(plays[at], source, scratch)
                report = os.path.join(folder, f"report{at}.txt")
                shutil.move(os.path.join(scratch, "printed"), report)
                play = silence(plays[at], source) - silence(checks[at], source)
                taken[at].append((seconds, play, peak))
                printed.add(digest(report))
    if callers == "1" and reclaimer == "none" and len(printed) != 1:
        sys.exit("the outputs differ")
    for at in range(2):
        judge(folder, source, os.path.join(folder, f"report{at}.txt"))
    return [[statistics.median(column) for column in zip(*runs)] for runs in taken]


def main():
    folder, reclaimer, callers, calls, keys, buckets = sys.argv[1:]
    source = os.path.join(folder, "workload.txt")
    words = ["--callers", callers, "--calls", calls, "--keys", keys, "--seed", "7", "--shared", "yes"]
    with open(source, "wb") as text:
        subprocess.run([os.path.join(folder, "setbench"), "generate", *words], stdout=text, check=True)
    with open(source, "rb") as text:
        records = int(buckets) + sum(line.startswith(b"i ") for line in text)
    proved, plain = measure(folder, reclaimer, callers, source, buckets)
    row = [reclaimer, callers, calls, keys, buckets]
    for at, form in enumerate((".3f", ".3f", ".0f")):
        row += [f"{proved[at]:{form}}", f"{plain[at]:{form}}", f"{proved[at] / plain[at]:.2f}"]
    row += [f"{program[2] * 1024 / records:.0f}" for program in (proved, plain)]
    row += [f"{program[1] * 1e9 / int(calls):.0f}" for program in (proved, plain)]
    print("| " + " | ".join(row) + " |", flush=True)


main()
