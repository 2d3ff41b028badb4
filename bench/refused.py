"""Everything that can fail, fails once: each allocation of a run is refused in turn, each read and write fails, and each
moves one byte alone.

    python3 bench/refused.py PROGRAM [FILE..]

PROGRAM is crates/recursor_program/out/recursor_program, as `rt run` in that crate's folder builds it. `resolve` runs over
each FILE, by default those of examples/, and `check` over each that has a world. A run of which an allocation is refused
may end in three ways: with status 6 and `error memory` or nothing; with the output of the whole run; or with replies
`error NoMemory`. Then its log is a front of the whole log, the give-up of what is waited for there, if anything, and what
the other questions ask that the front was not told, by a run of the scenario without those that ran out of memory; and the
other replies are those of that run, or those of the whole run where nothing stands behind the give-up. A read that fails
gives status 4 and `error read`, a write that fails status 5 and a front of the output, and a short one changes nothing.

A library of C stands between the program and the C library: it is compiled by `cc` and loaded by LD_PRELOAD, and counts
calls in a file that it shares with this script. Prints a line for each run that ends otherwise, and one for each file with
its counts: of its allocations, how many end in status 6 and in `NoMemory` where they are refused. Exits 1 where a run ends
otherwise."""
import glob
import os
import re
import struct
import subprocess
import sys
import tempfile

SOURCE = r"""
#define _GNU_SOURCE
#include <errno.h>
#include <fcntl.h>
#include <stdlib.h>
#include <sys/mman.h>
#include <sys/syscall.h>
#include <unistd.h>

void *__libc_malloc(size_t size);
void *__libc_calloc(size_t count, size_t size);
void *__libc_realloc(void *at, size_t size);
void *__libc_memalign(size_t alignment, size_t size);

enum { ALLOCATIONS, READS, WRITES, KINDS };

static long unshared[KINDS];
static long *calls = unshared;
static long chosen[KINDS];
static int is_short;

static const char *const words[KINDS] = {"CHOSEN_ALLOCATION", "CHOSEN_READ", "CHOSEN_WRITE"};

__attribute__((constructor)) static void start(void) {
    const char *path = getenv("CALLS_FILE");
    int file = path ? open(path, O_RDWR) : -1;
    void *shared = file < 0 ? MAP_FAILED : mmap(0, sizeof unshared, PROT_READ | PROT_WRITE, MAP_SHARED, file, 0);
    if (shared == MAP_FAILED) _exit(99);
    close(file);
    is_short = getenv("IS_SHORT") != 0;
    for (int kind = 0; kind < KINDS; kind++) {
        const char *number = getenv(words[kind]);
        chosen[kind] = number ? atol(number) : 0;
    }
    calls = shared;
}

static int is_chosen(int kind) { return ++calls[kind] == chosen[kind]; }

static int is_refused(void) {
    if (!is_chosen(ALLOCATIONS)) return 0;
    errno = ENOMEM;
    return 1;
}

void *malloc(size_t size) { return is_refused() ? 0 : __libc_malloc(size); }

void *calloc(size_t count, size_t size) { return is_refused() ? 0 : __libc_calloc(count, size); }

void *realloc(void *at, size_t size) { return is_refused() ? 0 : __libc_realloc(at, size); }

void *aligned_alloc(size_t alignment, size_t size) { return is_refused() ? 0 : __libc_memalign(alignment, size); }

int posix_memalign(void **to, size_t alignment, size_t size) {
    if (is_refused()) return ENOMEM;
    *to = __libc_memalign(alignment, size);
    return *to ? 0 : ENOMEM;
}

ssize_t read(int file, void *to, size_t size) {
    if (file == 0 && is_chosen(READS)) {
        if (!is_short) return errno = EIO, -1;
        size = size < 1 ? size : 1;
    }
    return syscall(SYS_read, file, to, size);
}

ssize_t write(int file, const void *from, size_t size) {
    if (file == 1 && is_chosen(WRITES)) {
        if (!is_short) return errno = EIO, -1;
        size = size < 1 ? size : 1;
    }
    return syscall(SYS_write, file, from, size);
}
"""

EXAMPLES = os.path.join(os.path.dirname(os.path.abspath(__file__)), "..", "examples")
KINDS = ("ALLOCATION", "READ", "WRITE")
MOST_SECONDS = 20
ENTRY = re.compile(r"\d+ (opened|asked|waited|told|gaveup) ")

# What opens or asks, and how many words say to whom and what.
BEGINNINGS = {"opened": 2, "asked": 4}


def lines_without(lines, questions):
    """The lines of a scenario without these questions, whose turns name question 0."""
    asked, kept = 0, {}
    for line in lines:
        word, *rest = line.split(b" ")
        if word == b"question":
            if asked not in questions:
                kept[asked] = len(kept) + 1
                yield line
            asked += 1
        elif word == b"turn":
            yield b" ".join([word, b"%d" % kept.get(int(rest[0]) - 1, 0), *rest[1:]])
        else:
            yield line


class Runs:
    """Runs of the program over one file with one word, in a folder that holds the library and its counts."""

    def __init__(self, program, word, path, folder):
        self.command, self.path, self.folder = [os.path.abspath(program), word], path, folder
        self.counts, self.fewer = os.path.join(folder, "counts"), {}
        self.wanted = self.run()
        self.calls = dict(zip(KINDS, self.counted()))

    def counted(self):
        with open(self.counts, "rb") as f:
            return struct.unpack("3q", f.read())

    def run(self, kind=None, number=0, is_short=False, path=None):
        """The status and output of a run in which the call of this kind and number fails or is short."""
        with open(self.counts, "wb") as f:
            f.write(bytes(24))
        environment = {"LD_PRELOAD": os.path.join(self.folder, "refusing.so"), "CALLS_FILE": self.counts}
        if kind:
            environment["CHOSEN_" + kind] = str(number)
        if is_short:
            environment["IS_SHORT"] = "1"
        with open(path or self.path, "rb") as f:
            try:
                told = subprocess.run(self.command, stdin=f, capture_output=True, env=environment, timeout=MOST_SECONDS)
            except subprocess.TimeoutExpired:
                return None, b""
        return told.returncode, told.stdout

    def without(self, questions):
        """The output of a run of the file without these questions, whose turns name none."""
        if tuple(questions) not in self.fewer:
            path = os.path.join(self.folder, "fewer")
            with open(self.path, "rb") as f, open(path, "wb") as fewer:
                fewer.writelines(lines_without(f.readlines(), questions))
            self.fewer[tuple(questions)] = self.run(path=path)[1]
        return self.fewer[tuple(questions)]

    def ends(self, kind, is_short):
        """How each run ended in which a call of this kind fails or is short, by its number."""
        return [(number, *self.run(kind, number, is_short)) for number in range(1, self.calls[kind] + 1)]


def parts(output):
    """The entries of the log of a transcript, and its replies, each with its lines; nothing where it is none."""
    lines = output.decode("latin-1").split("\n")
    if not lines[0].startswith("log ") or lines[-2:] != ["end", ""]:
        return None
    entries, replies = [], []
    for line in lines[1:-2]:
        if line.startswith("reply %d " % (len(replies) + 1)):
            replies.append([line.split(" ", 2)[2]])
        elif replies:
            replies[-1].append(line)
        elif line.startswith("%d " % (len(entries) + 1)) and ENTRY.match(line):
            entries.append([line])
        elif entries:
            entries[-1].append(line)
        else:
            return None
    return (entries, replies) if lines[0] == "log %d" % len(entries) else None


def unnumbered(entries):
    """The entries, with what was opened or asked in place of each number: that, the word of the entry, and the rest."""
    begun, told = {}, []
    for first, *records in entries:
        number, word, *rest = first.split(" ")
        if word in BEGINNINGS:
            begun[number] = (word, *rest[: BEGINNINGS[word]])
            told.append((begun[number], word, rest[BEGINNINGS[word] :], records))
        else:
            told.append((begun.get(rest[0]), word, rest[1:], records))
    return told


def give_up_at(size, same):
    """The give-up of what is waited for behind so many entries of a log, at the moment of that, or nothing."""
    _, word, of, *rest = same[size][0].split(" ") if size < len(same) else ("", "opened", "")
    if word in BEGINNINGS:
        return []
    begun = same[int(of) - 1][0].split(" ")
    moment = begun[2 + BEGINNINGS[begun[1]]] if word == "waited" else rest[0]
    return [["%d gaveup %s %s" % (size + 1, of, moment)]]


def is_rest(entries, front, wanted):
    """Whether the entries are the wanted ones, but for connections and answers that the front has."""
    had = {begun for begun, word, rest, _ in front if word == "told" and rest[1] != "error"}
    for entry in wanted:
        if entries and entries[0] == entry:
            entries = entries[1:]
        elif entry[0] not in had:
            return False
    return not entries


def goes_on(entries, same, wanted):
    """Whether a log is a front of the whole one, the give-up of what is waited for there, if anything, and the wanted log,
    but for what the front has."""
    told, wanted = unnumbered(entries), unnumbered(wanted)
    for size in range(len(entries) + 1):
        front = entries[:size] + give_up_at(size, same)
        if entries[: len(front)] == front and is_rest(told[len(front) :], told[:size], wanted):
            return True
        if entries[: size + 1] != same[: size + 1]:
            return False
    return False


def lacks_memory(runs, output):
    """Whether some reply says that memory ran out, the log goes on as it may, and the other replies are those of the whole
    run, or those of a run without the questions that ran out of memory."""
    told, same = parts(output), parts(runs.wanted[1])
    if not told or not same or len(told[1]) != len(same[1]):
        return False
    lacking = [n for n, reply in enumerate(told[1]) if reply == ["error NoMemory"]]
    if not lacking:
        return False
    others = [reply for n, reply in enumerate(told[1]) if n not in lacking]
    if others == [reply for n, reply in enumerate(same[1]) if n not in lacking] and goes_on(told[0], same[0], []):
        return True
    without = parts(runs.without(lacking))
    return others == without[1] and goes_on(told[0], same[0], without[0])


def refused(runs, status, output):
    if status == 6:
        return output in (b"", b"error memory\n")
    return (status, output) == runs.wanted or status == runs.wanted[0] and lacks_memory(runs, output)


def unread(runs, status, output):
    return (status, output) == (4, b"error read\n")


def unwritten(runs, status, output):
    return status == 5 and runs.wanted[1].startswith(output)


def same(runs, status, output):
    return (status, output) == runs.wanted


# What is made to fail, whether it is short instead, what must come of it, and its words.
FAULTS = (
    ("ALLOCATION", False, refused, "allocations refused"),
    ("READ", False, unread, "reads that fail"),
    ("READ", True, same, "short reads"),
    ("WRITE", False, unwritten, "writes that fail"),
    ("WRITE", True, same, "short writes"),
)


def tell(name, words, bad):
    for number, status, output in bad:
        how = "no end" if status is None else "status %d" % status
        print("%s: number %d of the %s: %s, %r" % (name, number, words, how, output[:2000]))


def try_file(program, word, path, folder):
    """Makes each call of a run fail in turn. Gives the number of runs that end otherwise."""
    runs = Runs(program, word, path, folder)
    name = "%s %s" % (word, os.path.basename(path))
    if runs.wanted[0] is None or runs.wanted[0] < 0 or not runs.calls["ALLOCATION"]:
        sys.exit("%s: the program does not run, or calls no malloc of the C library" % name)
    wrong, ways = 0, {}
    for kind, is_short, is_right, words in FAULTS:
        ended = runs.ends(kind, is_short)
        bad = [end for end in ended if not is_right(runs, *end[1:])]
        tell(name, words, bad)
        wrong += len(bad)
        ways[words] = sum(end[1] == 6 for end in ended), sum(b" error NoMemory\n" in end[2] for end in ended)
    counts = runs.calls["ALLOCATION"], *ways["allocations refused"], runs.calls["READ"], runs.calls["WRITE"], wrong
    print("| %s | %s |" % (name, " | ".join(map(str, counts))), flush=True)
    return wrong


def compiled(folder):
    """Compiles the library into this folder."""
    source = os.path.join(folder, "refusing.c")
    with open(source, "w") as f:
        f.write(SOURCE)
    library = os.path.join(folder, "refusing.so")
    subprocess.run(["cc", "-shared", "-fPIC", "-O1", "-fno-builtin", "-o", library, source], check=True)


def has_world(path):
    with open(path, "rb") as f:
        return b"\ntold world\n" in f.read()


def main():
    program, paths = sys.argv[1], sys.argv[2:] or sorted(glob.glob(os.path.join(EXAMPLES, "*.scenario")))
    wrong = 0
    print("| run | allocations | status 6 | `NoMemory` | reads | writes | runs that end otherwise |\n|" + 7 * "---|")
    with tempfile.TemporaryDirectory() as folder:
        compiled(folder)
        for path in paths:
            words = ["resolve", "check"] if has_world(path) else ["resolve"]
            wrong += sum(try_file(program, word, path, folder) for word in words)
    sys.exit(1 if wrong else 0)


if __name__ == "__main__":
    main()
