"""Zones: what one question costs over a script in memory, for 1, 3 and 10 zones on the way, and beside 10,000 other rules.

    python3 bench/zones.py PROGRAM

PROGRAM is crates/cases/out/cases, as `rt run` in that crate builds it. On each way a question is driven
once, and 2,000 times, each in a run of its own and with a cache of size 0, so that it goes down all zones each time. Each
zone, the root included, has one server; the question is for the name of the last. Each time is that of the processor, the
least of 20 runs of the program, less that with one question: the start of the process and reading the script are not in
it. Prints a table, with the instructions where valgrind is installed, and exits 1 where a zone of ten costs more than
1.5 times as much as one of three, or fewer than two thirds of that, or where a question costs more than 1.1 times as much
beside 10,000 other rules. It goes by the instructions where they were counted, and else by the time."""
import os
import re
import shutil
import subprocess
import sys

from scenarios import held, way

RUNS = 2000
WAYS = (("1 zone", 1, 0), ("3 zones", 3, 0), ("10 zones", 10, 0), ("3 zones, 10,000 more rules", 3, 10000))


def run(command, scenario):
    with open(scenario, "rb") as text:
        done = subprocess.run(command, stdin=text, stdout=subprocess.DEVNULL, stderr=subprocess.PIPE)
    if done.returncode != 0:
        sys.exit("%s ended with status %d" % (" ".join(command), done.returncode))
    return done.stderr.decode()


def processor_time(command, scenario):
    with open(scenario, "rb") as text:
        child = subprocess.Popen(command, stdin=text, stdout=subprocess.DEVNULL, stderr=subprocess.DEVNULL)
    _, status, used = os.wait4(child.pid, 0)
    child.returncode = os.waitstatus_to_exitcode(status)
    if child.returncode != 0:
        sys.exit("%s ended with status %d" % (" ".join(command), child.returncode))
    return used.ru_utime + used.ru_stime


def seconds(program, scenario, times):
    return min(processor_time([program, "answers", str(times)], scenario) for _ in range(20))


def instructions(program, scenario, times):
    counted = ["valgrind", "--tool=callgrind", "--callgrind-out-file=/dev/null", program, "answers", str(times)]
    return int(re.search(r"Collected : (\d+)", run(counted, scenario)).group(1))


def costs(measure, program):
    found = []
    for _, zones, unused in WAYS:
        with held(way(zones, unused)) as scenario:
            found.append((measure(program, scenario, RUNS) - measure(program, scenario, 1)) / (RUNS - 1))
    return found


def main():
    program = sys.argv[1]
    times = costs(seconds, program)
    counts = costs(instructions, program) if shutil.which("valgrind") else None
    print("| on the way | microseconds | instructions |")
    print("|---|---|---|")
    for n, (label, _, _) in enumerate(WAYS):
        print("| %s | %.1f | %s |" % (label, times[n] * 1e6, "{:,.0f}".format(counts[n]) if counts else "not counted"))
    _, three, ten, beside = counts or times
    zone, rules = (ten / 10) / (three / 3), beside / three
    print("a zone of ten costs %.2f times as much as one of three; a question beside other rules costs %.2f times as much" % (zone, rules))
    sys.exit(1 if not 2 / 3 <= zone <= 1.5 or rules > 1.1 else 0)


if __name__ == "__main__":
    main()
