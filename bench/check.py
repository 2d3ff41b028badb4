"""Checking: what `check` of a world costs by the number of its zones, each with two or three questions.

    python3 bench/check.py PROGRAM

PROGRAM is crates/recursor_program/out/recursor_program, as the first command of the README builds it. A world has the root,
eight zones below it and under these all others, some of them one level deeper; each zone has its SOA and NS record, the
address of its server, which is a host of its own, and one or two addresses more. The questions of a zone are for an address
that it has, for a name that does not exist, and in every second zone for a type that the name lacks.
Counts the instructions of each run with valgrind, and prints them with the seconds of a run without it. Exits 1 where the
world is not well served or a question not valid, where a zone of the largest world costs over a half more than one of the
smallest, or where the largest takes two seconds."""
import os
import re
import shutil
import subprocess
import sys
import tempfile
import time

SIZES = (250, 500, 1000, 2000)
TOP_ZONES = 8
MOST_SECONDS, MOST_GROWTH = 2.0, 1.5

HEAD = "recursor 1\nroot 11.0.0.1\npatience 3\ntold world\ndelay 0\naliases chain\n"


def below(label, apex):
    return label + "." if apex == "." else "%s.%s" % (label, apex)


def apexes(count):
    """The apexes of a tree: the root, the zones below it, and in each turn of five the fifth below the fourth."""
    names = ["."] + ["t%d." % n for n in range(TOP_ZONES)]
    while len(names) < count:
        n = len(names)
        above = names[-1] if n % 5 == 4 and n > TOP_ZONES + 1 else names[1 + n % TOP_ZONES]
        names.append(below("z%d" % n, above))
    return names


def address(n):
    return "11.%d.%d.%d" % (n >> 16, n >> 8 & 255, n & 255)


def zone_lines(n, apex):
    server = below("ns", apex)
    records = [
        "%s 3600 IN SOA %s %s 1 1800 900 604800 300" % (apex, server, below("admin", apex)),
        "%s 3600 IN NS %s" % (apex, server),
        "%s 3600 IN A %s" % (server, address(n + 1)),
        "%s 300 IN A 93.184.215.14" % below("www", apex),
    ]
    if n % 2:
        records.append("%s 300 IN A 93.184.215.15" % below("web", apex))
    return "zone %s %d\n%s\n" % (apex, len(records), "\n".join(records))


def question_lines(n, apex):
    asked = [(below("www", apex), "A"), (below("none", apex), "A")]
    if n % 2:
        asked.append((below("web", apex), "MX"))
    return ["question %s %s plain\n" % pair for pair in asked]


def scenario(count):
    """A scenario of so many zones, and the number of its questions."""
    names = apexes(count)
    zones = "".join(zone_lines(n, apex) for n, apex in enumerate(names))
    hosts = "".join("host %s %d\n" % (address(n + 1), n + 1) for n in range(count))
    questions = [line for n, apex in enumerate(names) for line in question_lines(n, apex)]
    return HEAD + zones + hosts + "".join(questions) + "end\n", len(questions)


def run(command, path):
    with open(path) as f:
        return subprocess.run(command, stdin=f, stdout=subprocess.PIPE, stderr=subprocess.PIPE, text=True)


def measure(program, count, folder):
    """The questions, instructions and seconds of a check."""
    path = os.path.join(folder, "scenario")
    text, questions = scenario(count)
    with open(path, "w") as f:
        f.write(text)
    start = time.monotonic()
    told = run([program, "check"], path)
    seconds = time.monotonic() - start
    wanted = "verdict yes\n" + "".join("valid %d yes\n" % (n + 1) for n in range(questions)) + "end\n"
    if told.returncode != 0 or told.stdout != wanted:
        sys.exit("%d zones: the world is not well served, or a question is not valid" % count)
    counted = run(["valgrind", "--tool=callgrind", "--callgrind-out-file=/dev/null", program, "check"], path)
    return questions, int(re.search(r"Collected : (\d+)", counted.stderr).group(1)), seconds


def main():
    program = sys.argv[1]
    if not shutil.which("valgrind"):
        sys.exit("valgrind counts the instructions")
    print("| zones | questions | million instructions | a zone | seconds |")
    print("|---|---|---|---|---|")
    found = {}
    with tempfile.TemporaryDirectory() as folder:
        for count in SIZES:
            found[count] = questions, instructions, seconds = measure(program, count, folder)
            row = (count, questions, instructions / 1e6, instructions / count, seconds)
            print("| {:,} | {:,} | {:,.1f} | {:,.0f} | {:.2f} |".format(*row), flush=True)
    smallest, largest = SIZES[0], SIZES[-1]
    growth = found[largest][1] / largest / (found[smallest][1] / smallest)
    print("a zone of the largest world takes %.2f times as many instructions as one of the smallest" % growth)
    sys.exit(1 if growth > MOST_GROWTH or found[largest][2] >= MOST_SECONDS else 0)


if __name__ == "__main__":
    main()
