"""Many questions: what a question of a run costs by how many questions the run has.

    python3 bench/many_questions.py PROGRAM

PROGRAM is crates/cases/out/cases, as `rt run` in that crate builds it. All questions of a run are for the
name of the third of three zones, one in the other; each zone, the root included, has one server, and the cache has size 0,
so that each question goes down all of them. Counts the instructions of whole runs with valgrind, less those of a run with
one question: the start of the process and reading the script are not in it. Prints a table, and exits 1 where a question of
the largest run takes more than 1.1 times as many as one of the smallest."""
import re
import shutil
import subprocess
import sys

from scenarios import held, way

ZONES = 3
RUNS = (1000, 4000, 16000)
LIMIT = 1.1


def instructions(program, questions):
    """The instructions of a run, all of whose questions are answered."""
    words = ["many", str(questions)]
    command = ["valgrind", "--tool=callgrind", "--callgrind-out-file=/dev/null", program] + words
    with held(way(ZONES)) as scenario, open(scenario, "rb") as text:
        done = subprocess.run(command, stdin=text, stdout=subprocess.PIPE, stderr=subprocess.PIPE, text=True)
    if done.returncode != 0:
        sys.exit("%s ended with status %d" % (" ".join(words), done.returncode))
    if done.stdout != "many %d: %d are answered\n" % (questions, questions):
        sys.exit("%s: %s" % (" ".join(words), done.stdout))
    return int(re.search(r"Collected : (\d+)", done.stderr).group(1))


def main():
    program = sys.argv[1]
    if not shutil.which("valgrind"):
        sys.exit("valgrind counts the instructions")
    beginning = instructions(program, 1)
    found = []
    print("| questions | million instructions | a question |")
    print("|---|---|---|")
    for questions in RUNS:
        count = instructions(program, questions) - beginning
        found.append(count / (questions - 1))
        print("| {:,} | {:,.0f} | {:,.0f} |".format(questions, count / 1e6, found[-1]), flush=True)
    ratio = found[-1] / found[0]
    print("a question of the largest run takes %.3f times as many as one of the smallest" % ratio)
    sys.exit(1 if ratio > LIMIT else 0)


if __name__ == "__main__":
    main()
