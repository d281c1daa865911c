"""Prints a workload of one caller: CALLS calls over the keys from 0 up to, and without, KEYS.

Half of the calls insert, a quarter remove and a quarter search, by the numbers of a linear
congruential generator with a fixed start (Knuth's MMIX), so each run prints the same bytes.
"""
import sys

LETTERS = "iirs"


def numbers():
    state = 1
    while True:
        state = (state * 6364136223846793005 + 1442695040888963407) % 2**64
        yield state >> 33


def main():
    calls, keys = int(sys.argv[1]), int(sys.argv[2])
    drawn = numbers()
    lines = ["setbench 1", "callers 1", "caller 0"]
    for _ in range(calls):
        letter = LETTERS[next(drawn) % 4096 // 1024]
        lines.append(f"{letter} {next(drawn) % keys}")
    lines.append("end")
    print("\n".join(lines))


main()
