"""Questions: what a question of a run costs by the zones that the run comes to, and so by what the recursor keeps.

    python3 bench/questions.py PROGRAM

PROGRAM is crates/recursor_program/out/recursor_program, as the first command of the README builds it. Each zone lies below
the root and has one server and one, two or five names, each of which one question asks for; a question of each zone plays
before the next one of any, a millisecond after the one before. A scenario has at most 10,000 questions, so 8,000 zones have
one each and 2,000 have five. Counts the instructions of whole runs with valgrind, which takes some minutes, and prints a
table, the functions whose own instructions a question grow most from the smallest to the largest run with one question a
zone, and what that growth is. Exits 1 where a reply is no answer, or where 4,000 questions over 2,000 zones take more than
2,900 million instructions."""
import os
import re
import shutil
import subprocess
import sys
import tempfile

RUNS = ((500, 1), (2000, 1), (8000, 1), (500, 2), (2000, 2), (5000, 2), (500, 5), (2000, 5))
LIMITED, LIMIT = (2000, 2), 2_900_000_000
SMALLEST, LARGEST = (500, 1), (8000, 1)

HEAD = "recursor 1\nroot 11.0.0.1\npatience 3\ntold script\n"


def zone_rules(zone, names):
    name, ip = "z%d." % zone, "11.%d.%d.%d" % (1 + (zone >> 16), zone >> 8 & 255, zone & 255)
    rules = [
        "reply 11.0.0.1 udp %s NS 0 message NOERROR none 0 1 1\n%s 172800 IN NS ns.%s\nns.%s 172800 IN A %s\n"
        % (name, name, name, name, ip)
    ]
    for n in range(names):
        asked = "q%d.%s" % (n, name)
        rules.append(
            "reply %s udp %s NS 0 message NOERROR aa 0 1 0\n%s 3600 IN SOA ns.%s admin.%s 1 1800 900 604800 300\n"
            "reply %s udp %s A 0 message NOERROR aa 1 0 0\n%s 300 IN A 93.184.215.14\n"
            % (ip, asked, name, name, name, ip, asked, asked)
        )
    return "".join(rules)


def scenario(zones, names):
    rules = "".join(zone_rules(zone, names) for zone in range(zones))
    questions = "".join("question q%d.z%d. A plain\n" % (n, zone) for n in range(names) for zone in range(zones))
    turns = "".join("turn %d %d\n" % (n + 1, n * 1000) for n in range(zones * names))
    return HEAD + rules + questions + turns + "end\n"


def own_counts(path):
    """The instructions of each function without those of its callees."""
    told = subprocess.run(["callgrind_annotate", "--threshold=100", path], capture_output=True, text=True).stdout
    counts = {}
    for line in told.splitlines():
        found = re.match(r"\s*([\d,]+) \(\s*[\d.]+%\)\s+(.*?)(?: \[[^]]*\])?$", line)
        if found and "PROGRAM TOTALS" not in line:
            name = found.group(2).split(":", 1)[-1]
            counts[name] = counts.get(name, 0) + int(found.group(1).replace(",", ""))
    return counts


def measure(program, zones, names, folder):
    """The instructions of a run, and those of its functions."""
    path, counted = os.path.join(folder, "scenario"), os.path.join(folder, "counted")
    with open(path, "w") as f:
        f.write(scenario(zones, names))
    command = ["valgrind", "--tool=callgrind", "--callgrind-out-file=" + counted, program, "resolve"]
    with open(path) as f:
        done = subprocess.run(command, stdin=f, stdout=subprocess.PIPE, stderr=subprocess.PIPE, text=True)
    if done.returncode != 0:
        sys.exit("%d zones: the run ended with status %d" % (zones, done.returncode))
    answers = len(re.findall(r"^reply \d+ message NOERROR aa 1 0 0$", done.stdout, re.M))
    if answers != zones * names:
        sys.exit("%d zones: %d of %d questions are answered" % (zones, answers, zones * names))
    return int(re.search(r"Collected : (\d+)", done.stderr).group(1)), own_counts(counted)


def tell_growth(smallest, largest):
    """Which functions take more instructions a question in the largest run."""
    (few, few_own), (many, many_own) = smallest, largest
    few_questions, many_questions = SMALLEST[0] * SMALLEST[1], LARGEST[0] * LARGEST[1]
    growth = {f: n / many_questions - few_own.get(f, 0) / few_questions for f, n in many_own.items()}
    print("a question over most zones takes %.2f times as many as over fewest; more a question:" % (many / many_questions / (few / few_questions)))
    for name in sorted(growth, key=growth.get, reverse=True)[:8]:
        print("    %10s  %s" % ("{:,.0f}".format(growth[name]), name))


def main():
    program = sys.argv[1]
    if not shutil.which("valgrind"):
        sys.exit("valgrind counts the instructions")
    print("| zones | questions | million instructions | a question |")
    print("|---|---|---|---|")
    found = {}
    with tempfile.TemporaryDirectory() as folder:
        for zones, names in RUNS:
            found[zones, names] = measure(program, zones, names, folder)
            count, questions = found[zones, names][0], zones * names
            print("| {:,} | {:,} | {:,.0f} | {:,.0f} |".format(zones, questions, count / 1e6, count / questions), flush=True)
    tell_growth(found[SMALLEST], found[LARGEST])
    sys.exit(1 if found[LIMITED][0] > LIMIT else 0)


if __name__ == "__main__":
    main()
