"""What reading a message in wire form costs, beside the readers that people use.

    python3 bench/wire.py PROGRAM

PROGRAM is crates/cases/out/cases, as `rt run` in that crate builds it. Prints for each message and reader the nanoseconds of
user time in which it reads the message and gives the memory back, and, where valgrind is installed, the instructions and the
allocations. A time is the least of five runs over that of one reading. The other readers are small C programs over these
packages of Debian; one that is not installed is left out:

    unbound   libunbound-dev libssl-dev nettle-dev libevent-dev, for reply_info_parse, which the library has inside
    libknot   libknot-dev
    ldns      libldns-dev
    c-ares    libc-ares-dev; it reads answers alone

Ends with status 1 where a message of 65,535 bytes takes more than 100 milliseconds here."""
import os
import re
import resource
import shutil
import struct
import subprocess
import sys
import tempfile

MOST = 65535
LIMIT = 100e6

HEAD = """#include <stdint.h>
#include <stdio.h>
#include <stdlib.h>
#include <string.h>
static uint8_t message[65536];
static size_t length;
"""

TAIL = """
int main(int count, char **words) {
    long read = 0, times = atol(words[2]);
    length = fread(message, 1, sizeof message, stdin);
    begin();
    for (long i = 0; i < times; i++) read += once();
    printf("read %ld: %ld are messages\\n", times, read);
    return 0;
}
"""

UNBOUND = """
struct buffer { size_t position, limit, capacity; uint8_t *data; };
struct buffer *sldns_buffer_new(size_t);
void alloc_init(void *, void *, int);
void *regional_create(void);
void regional_free_all(void *);
int reply_info_parse(struct buffer *, void *, void *, void **, void *, void *);
void reply_info_parsedelete(void *, void *);
void query_info_clear(void *);
static struct buffer *buffer;
static void *region;
static uint64_t cache[1024], question[64], edns[128];
static void begin(void) {
    buffer = sldns_buffer_new(length);
    memcpy(buffer->data, message, length);
    alloc_init(cache, NULL, 0);
    region = regional_create();
}
static int once(void) {
    void *reply = NULL;
    buffer->position = 0;
    int well = reply_info_parse(buffer, cache, question, &reply, region, edns) == 0;
    if (well) reply_info_parsedelete(reply, cache);
    query_info_clear(question);
    regional_free_all(region);
    return well;
}
"""

KNOT = """
#include <libknot/libknot.h>
static void begin(void) {}
static int once(void) {
    knot_pkt_t *packet = knot_pkt_new(message, length, NULL);
    int well = knot_pkt_parse(packet, 0) == KNOT_EOK;
    knot_pkt_free(packet);
    return well;
}
"""

LDNS = """
#include <ldns/ldns.h>
static void begin(void) {}
static int once(void) {
    ldns_pkt *packet;
    if (ldns_wire2pkt(&packet, message, length) != LDNS_STATUS_OK) return 0;
    ldns_pkt_free(packet);
    return 1;
}
"""

ARES = """
#include <netdb.h>
#include <ares.h>
static void begin(void) {}
static int once(void) {
    struct hostent *host;
    if (ares_parse_a_reply(message, length, &host, NULL, NULL) != ARES_SUCCESS) return 0;
    ares_free_hostent(host);
    return 1;
}
"""

STATIC = "-l:libunbound.a -lssl -lcrypto -lhogweed -lnettle -lgmp -levent -lpthread"
OTHERS = (("unbound", UNBOUND, STATIC), ("libknot", KNOT, "-lknot"), ("ldns", LDNS, "-lldns"), ("c-ares", ARES, "-lcares"))


def name(*labels):
    return b"".join(bytes([len(label)]) + label for label in labels)


def pointer(place):
    return struct.pack(">H", 0xC000 + place)


def record(owner, kind, data, ttl=0, record_class=1):
    return owner + struct.pack(">HHIH", kind, record_class, ttl, len(data)) + data


def message(*sections):
    """A response with these sections, each a list of the bytes of its items."""
    counts = [len(section) for section in sections]
    return struct.pack(">HHHHHH", 0x1234, 0x8400, *counts) + b"".join(b"".join(section) for section in sections)


def answer():
    """The answer to a question for an address, whose owner is a pointer to the question."""
    question = name(b"example", b"com") + b"\0" + struct.pack(">HH", 1, 1)
    return message([question], [record(pointer(12), 1, bytes([93, 184, 215, 14]), 300)], [], [])


def referral():
    """A referral to two servers of a zone, with an address of each, and an OPT record."""
    question = name(b"www", b"example-company", b"com") + b"\0" + struct.pack(">HH", 1, 1)
    zone, first = 16, 12 + len(question)
    servers = [record(pointer(zone), 2, name(b"ns%d" % i) + pointer(zone), 172800) for i in (1, 2)]
    places = [first + 12, first + 12 + len(servers[0])]
    addresses = [record(pointer(place), 1, bytes([192, 0, 2, place]), 172800) for place in places]
    return message([question], [], servers, addresses + [record(b"\0", 41, b"", 0, 1232)])


def filled(data, owner):
    """One record with this data at place 23 of the message, and as many with these owners as a message has room for."""
    records = [record(b"\0", 16, data)]
    size = 12 + len(records[0])
    while True:
        records.append(record(owner(len(records)), 16, b""))
        size += len(records[-1])
        if size > MOST:
            return message([], records[:-1], [], [])


def roots():
    return filled(b"\0", lambda count: pointer(23))


def chain():
    """A chain of pointers, and owners that lead to its last 2,000."""
    data, places = b"\0", [23]
    while 23 + len(data) < 16384:
        places.append(23 + len(data))
        data += pointer(places[-2])
    return filled(data, lambda count: pointer(places[-1 - count % 2000]))


def long_names():
    """Eight names of 126 labels, to which the owners lead in turn."""
    long = name(*[b"a"] * 126) + b"\0"
    return filled(long * 8, lambda count: pointer(23 + len(long) * (count % 8)))


def parted_names():
    """Names of 119 to 126 labels with 60 pointers between any two, to which the owners lead in turn."""
    data, place = b"\0", 23
    starts = []
    for _ in range(130):
        for _ in range(60):
            at = 23 + len(data)
            data += pointer(place)
            place = at
        at = 23 + len(data)
        data += name(b"a") + pointer(place)
        place = at
        starts.append(at)
    return filled(data, lambda count: pointer(starts[118 + count % 8]))


MESSAGES = (
    ("an answer", answer, 500_000),
    ("a referral", referral, 200_000),
    ("owners that lead to the root", roots, 500),
    ("owners that lead to a chain of 8,180 pointers", chain, 20),
    ("owners of 126 labels", long_names, 20),
    ("owners of 119 to 126 labels, 60 pointers between any two", parted_names, 20),
)


def readers(program, folder):
    """Each reader that is at hand, with its program."""
    found = [("Hudrengi", program)]
    for reader, text, libraries in OTHERS:
        source, to = os.path.join(folder, reader + ".c"), os.path.join(folder, reader)
        with open(source, "w") as file:
            file.write(HEAD + text + TAIL)
        command = ["cc", "-O2", "-o", to, source] + libraries.split()
        if shutil.which("cc") and subprocess.run(command, stderr=subprocess.DEVNULL).returncode == 0:
            found.append((reader, to))
        else:
            print("%s is not at hand" % reader)
    return found


def run(command, data):
    done = subprocess.run(command, input=data, capture_output=True)
    return done.stdout.decode(), done.stderr.decode()


def user_time(program, data, times):
    best = None
    for _ in range(5):
        before = resource.getrusage(resource.RUSAGE_CHILDREN).ru_utime
        run([program, "read", str(times)], data)
        spent = resource.getrusage(resource.RUSAGE_CHILDREN).ru_utime - before
        best = spent if best is None else min(best, spent)
    return best


def nanoseconds(program, data, times):
    return (user_time(program, data, times + 1) - user_time(program, data, 1)) / times * 1e9


def counted(tool, pattern, program, data):
    """What a tool of valgrind counts for a reading, of a hundred."""
    command = ["valgrind", "--tool=" + tool] + (["--callgrind-out-file=/dev/null"] if tool == "callgrind" else [])
    totals = []
    for times in (1, 101):
        found = re.search(pattern, run(command + [program, "read", str(times)], data)[1])
        totals.append(int(found.group(1).replace(",", "")))
    return (totals[1] - totals[0]) / 100


def row(program, data, times):
    if "1 are messages" not in run([program, "read", "1"], data)[0]:
        return None, "not read"
    time = nanoseconds(program, data, times)
    text = "{:,.0f} ns".format(time)
    if len(data) < 1000 and shutil.which("valgrind"):
        instructions = counted("callgrind", r"Collected : (\d+)", program, data)
        allocations = counted("memcheck", r"usage: ([\d,]+) allocs", program, data)
        text += ", {:,.0f} instructions, {:.1f} allocations".format(instructions, allocations)
    return time, text


def main():
    worst = 0
    with tempfile.TemporaryDirectory() as folder:
        found = readers(sys.argv[1], folder)
        for label, made, times in MESSAGES:
            data = made()
            print("%s, %d bytes" % (label, len(data)))
            for reader, program in found:
                time, text = row(program, data, times)
                print("    %-10s %s" % (reader, text))
                if program == sys.argv[1] and time is not None:
                    worst = max(worst, time)
    sys.exit(1 if worst > LIMIT else 0)


if __name__ == "__main__":
    main()
