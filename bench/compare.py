"""Runs two commands on one file, five times each in turn, and prints how the first compares.

Use: compare.py FILE -- COMMAND.. -- COMMAND..

Both have to end with status 0 and print the same bytes, each time. The wall time is from a
process's start until it was waited for, with its output going to a file. The peak memory is the
largest resident set that the system noted for the process, as GNU time reads it. Without GNU time
it is read here, and is then no less than the memory of this interpreter, which starts the process.
"""
import hashlib
import os
import statistics
import sys
import tempfile
import time

RUNS = 5
GNU_TIME = "/usr/bin/time"


def digest(path):
    """The checksum and the number of the bytes of a file, which is read in pieces."""
    summed, count = hashlib.sha256(), 0
    with open(path, "rb") as read:
        while piece := read.read(65536):
            summed.update(piece)
            count += len(piece)
    return summed.hexdigest(), count


def run(command, source, folder):
    """Runs the command, and gives its seconds, its peak of KiB, and the digest of its output."""
    printed, noted = os.path.join(folder, "printed"), os.path.join(folder, "noted")
    if os.access(GNU_TIME, os.X_OK):
        command = [GNU_TIME, "-f", "%M", "-o", noted, *command]
    files = [
        (os.POSIX_SPAWN_OPEN, 0, source, os.O_RDONLY, 0),
        (os.POSIX_SPAWN_OPEN, 1, printed, os.O_WRONLY | os.O_CREAT | os.O_TRUNC, 0o600),
    ]
    begun = time.perf_counter()
    child = os.posix_spawn(command[0], command, os.environ, file_actions=files)
    _, status, used = os.wait4(child, 0)
    seconds = time.perf_counter() - begun
    if status != 0:
        sys.exit(f"{' '.join(command)}: wait status {status}")
    peak = used.ru_maxrss
    if command[0] == GNU_TIME:
        with open(noted, encoding="ascii") as lines:
            peak = int(lines.read())
    return seconds, peak, digest(printed)


def main():
    source, rest = sys.argv[1], sys.argv[3:]
    split = rest.index("--")
    commands = {"proved": rest[:split], "plain": rest[split + 1 :]}
    seconds, peaks = {"proved": [], "plain": []}, {"proved": [], "plain": []}
    digests = set()
    with tempfile.TemporaryDirectory() as folder:
        for _ in range(RUNS):
            for name, command in commands.items():
                took, peak, printed = run(command, source, folder)
                seconds[name].append(took)
                peaks[name].append(peak)
                digests.add(printed)
    name = os.path.splitext(os.path.basename(source))[0]
    if len(digests) != 1:
        sys.exit(f"{name}: the outputs differ")
    _, count = digests.pop()
    print(f"{name}: {count} bytes printed, the same in all {2 * RUNS} runs")
    for title, unit, form, values in (
        ("wall time", "s", ".3f", seconds),
        ("peak memory", "KiB", ".0f", peaks),
    ):
        first, second = statistics.median(values["proved"]), statistics.median(values["plain"])
        print(
            f"  {title}: proved {first:{form}} {unit}, plain {second:{form}} {unit},"
            f" ratio {first / second:.2f}"
        )


if __name__ == "__main__":
    main()
