"""Access: how long 10,000 addresses against the 22 recommended networks take, and twice as many against 44.

    python3 bench/access.py PROGRAM

PROGRAM is crates/cases/out/cases, as `rt run` in that crate builds it. Each time is the least of 200
runs, less that of one that asks no address, so the start of a process is not in it. The time grows with the addresses
and with the networks alone: twice of both should take four times as long. Prints a line each, and exits 1 where an
address takes more than 10 microseconds, or the second more than 6 times as long as the first."""
import subprocess
import sys
import time

# How many sets of the networks are denied, and how often 10,000 addresses are gone over.
NONE = ["access", "1", "0"]
ONCE = ["access", "1", "1"]
TWICE = ["access", "2", "2"]


def best(program, words, runs):
    least = None
    for _ in range(runs):
        t = time.perf_counter()
        done = subprocess.run([program] + words, stdin=subprocess.DEVNULL, stdout=subprocess.DEVNULL, stderr=subprocess.DEVNULL)
        t = time.perf_counter() - t
        if done.returncode != 0:
            sys.exit("%s %s ended with status %d" % (program, " ".join(words), done.returncode))
        least = t if least is None else min(least, t)
    return least


def main():
    program = sys.argv[1]
    start = best(program, NONE, 200)
    once, twice = best(program, ONCE, 200) - start, best(program, TWICE, 200) - start
    print("start of a process: %.3f ms" % (start * 1e3))
    print("10,000 addresses, 22 networks: %.3f ms, %.0f ns an address" % (once * 1e3, once * 1e5))
    print("20,000 addresses, 44 networks: %.3f ms, %.1f times as long" % (twice * 1e3, twice / once))
    sys.exit(1 if once > 10_000 * 10e-6 or twice > 6 * once else 0)


if __name__ == "__main__":
    main()
