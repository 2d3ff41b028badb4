"""Cache: what a question costs that is answered from the cache, against one that is walked for over three zones.

    python3 bench/cache.py PROGRAM

PROGRAM is crates/cases/out/cases, as `rt run` in that crate builds it. In each world a question is
driven once, 2,000 times, each in a run of its own and after the first from the cache, and 2,000 times with a cache of
size 0, so that it is walked for each time. Each time is the least of 40 runs of the program, less that of the first:
the start of the process and reading the scenario are not in it. In the small world each of the
three zones has one server, and the question is for the name of the last zone. The other has the shape of the DNS: 13
roots, a delegation of com. to 13 servers and one of example.com. to 4, each with an address of IPv4 and one of IPv6, and
a question for www.example.com. Prints two lines each, the second with the instructions where valgrind is installed, and
exits 1 where in the second world a question from the cache takes more than a hundredth of one that is walked for."""
import re
import shutil
import subprocess
import sys
import time

from scenarios import as_the_dns, held, small

RUNS = 2000
WORLDS = (("one server a zone", small), ("shape of the DNS", as_the_dns))


def run(command, scenario):
    with open(scenario, "rb") as text:
        done = subprocess.run(command, stdin=text, stdout=subprocess.DEVNULL, stderr=subprocess.PIPE)
    if done.returncode != 0:
        sys.exit("%s ended with status %d" % (" ".join(command), done.returncode))
    return done.stderr.decode()


def seconds(program, scenario, times):
    least = None
    for _ in range(40):
        t = time.perf_counter()
        run([program, "answers", str(times)], scenario)
        t = time.perf_counter() - t
        least = t if least is None else min(least, t)
    return least


def instructions(program, scenario, times):
    counted = ["valgrind", "--tool=callgrind", "--callgrind-out-file=/dev/null", program, "answers", str(times)]
    return int(re.search(r"Collected : (\d+)", run(counted, scenario)).group(1))


def compare(measure, program, world):
    with held(world(True)) as kept, held(world(False)) as unkept:
        once = measure(program, kept, 1)
        cached = (measure(program, kept, RUNS) - once) / (RUNS - 1)
        walked = (measure(program, unkept, RUNS) - once) / (RUNS - 1)
    return cached, walked, walked / cached


def main():
    program = sys.argv[1]
    ratio = None
    for label, world in WORLDS:
        cached, walked, ratio = compare(seconds, program, world)
        print("%s: from the cache %.2f us, walked for %.2f us, %.1f times as long" % (label, cached * 1e6, walked * 1e6, ratio))
        if shutil.which("valgrind"):
            print("%s: from the cache %.0f instructions, walked for %.0f, %.1f times as many" % ((label,) + compare(instructions, program, world)))
    sys.exit(1 if ratio < 100 else 0)


if __name__ == "__main__":
    main()
