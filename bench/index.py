"""Index: what a call of the cache of responses costs by the entries that it has, and how much memory an entry takes.

    python3 bench/index.py PROGRAM

PROGRAM is crates/cases/out/cases, as `rt run` in that crate builds it. A cache is filled with 1,000, 32,000
and 1,048,576 entries, with names and expiries that come in no order. Then 20,000 questions that are there are made, and an
answer for each, and are let go, read with `get`, or written with `put`; from the instructions of the last two those of the
first are taken, so that neither the filling nor the making is in them. Memory is the most that is resident, with the
entries and with their messages alone, held in a list: what is left is what an entry takes beside its message. Prints a
table, and exits 1 where a call takes more than 3 times as many instructions with most entries as with fewest, or where an
entry of the largest cache takes more than 200 bytes beside its message. It needs valgrind; filling the largest cache under
it takes some minutes, three times."""
import os
import re
import shutil
import subprocess
import sys

CALLS = 20_000
ENTRIES = (1_000, 32_000, 1_048_576)


def instructions(program, words):
    command = ["valgrind", "--tool=callgrind", "--callgrind-out-file=/dev/null", program] + words
    done = subprocess.run(command, stdin=subprocess.DEVNULL, stdout=subprocess.DEVNULL, stderr=subprocess.PIPE)
    if done.returncode != 0:
        sys.exit("%s ended with status %d" % (" ".join(words), done.returncode))
    return int(re.search(r"Collected : (\d+)", done.stderr.decode()).group(1))


def resident(program, words):
    child = subprocess.Popen([program] + words, stdin=subprocess.DEVNULL, stdout=subprocess.DEVNULL)
    _, status, used = os.wait4(child.pid, 0)
    child.returncode = os.waitstatus_to_exitcode(status)
    if child.returncode != 0:
        sys.exit("%s ended with status %d" % (" ".join(words), child.returncode))
    return used.ru_maxrss * 1024


def costs(program, entries):
    made, got, put = (instructions(program, ["kept", str(entries), call, str(CALLS)]) for call in ("make", "get", "put"))
    return (got - made) / CALLS, (put - made) / CALLS


def memory(program, entries):
    start = resident(program, ["held", "0"])
    kept = resident(program, ["kept", str(entries), "make", "0"]) - start
    held = resident(program, ["held", str(entries)]) - start
    return kept / entries, held / entries


def main():
    program = sys.argv[1]
    if not shutil.which("valgrind"):
        sys.exit("valgrind counts the instructions")
    print("| entries | `get` | `put` | bytes an entry | bytes of its message | bytes beside it |")
    print("|---|---|---|---|---|---|")
    found = []
    for entries in ENTRIES:
        got, put = costs(program, entries)
        kept, held = memory(program, entries)
        found.append((got, put, kept - held))
        row = (entries, got, put, kept, held, kept - held)
        print("| %s |" % " | ".join("{:,.0f}".format(n) for n in row), flush=True)
    (least_got, least_put, _), (most_got, most_put, beside) = found[0], found[-1]
    got, put = most_got / least_got, most_put / least_put
    print("with most entries `get` takes %.2f times as many instructions as with fewest, `put` %.2f times" % (got, put))
    sys.exit(1 if got > 3 or put > 3 or beside > 200 else 0)


if __name__ == "__main__":
    main()
