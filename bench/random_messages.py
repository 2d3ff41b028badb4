"""Random packets: `decode` prints what an independent reader of this file reads, and the same first fault.

    python3 bench/random_messages.py PROGRAM [COUNT [SEED]]

PROGRAM is crates/recursor_program/out/recursor_program. COUNT packets (100,000 if left out) are made from SEED (1 if left
out), each from its own number: messages of random questions and records with and without pointers, and changes of such
ones, in which bytes are set, dropped, put in or cut off; and random bytes. Each is handed to `decode`. Prints how many
were read and how many were refused for each fault, and the number and the bytes of each packet whose output or status is
another than the reader's. Ends with status 1 where there is one. It measures nothing, and is no part of the gate."""
import collections
import ipaddress
import random
import subprocess
import sys
from concurrent.futures import ThreadPoolExecutor

TYPES = {1: "A", 2: "NS", 5: "CNAME", 6: "SOA", 10: "NULL", 12: "PTR", 15: "MX", 16: "TXT", 28: "AAAA", 33: "SRV", 41: "OPT", 43: "DS",
         46: "RRSIG", 47: "NSEC", 48: "DNSKEY", 50: "NSEC3", 51: "NSEC3PARAM", 64: "SVCB", 65: "HTTPS", 251: "IXFR", 252: "AXFR", 255: "ANY", 257: "CAA"}
CLASSES = {1: "IN", 3: "CH", 4: "HS"}
CODES = {0: "NOERROR", 1: "FORMERR", 2: "SERVFAIL", 3: "NXDOMAIN", 4: "NOTIMP", 5: "REFUSED"}
FLAGS = {(0, 0): "none", (1, 0): "aa", (0, 1): "tc", (1, 1): "aa+tc"}


def type_text(number):
    return TYPES.get(number, "TYPE%d" % number)


def class_text(number):
    return CLASSES.get(number, "CLASS%d" % number)


def code_text(number):
    return CODES.get(number, "RCODE%d" % number)


def hex_text(data):
    return data.hex() or "-"


def name_text(labels):
    return "".join(label.decode() + "." for label in labels) or "."


def name_bytes(labels):
    return b"".join(bytes([len(label)]) + label for label in labels) + b"\0"


# ---- the reader


class Fault(Exception):
    """The first item from the left that cannot be read."""


class Reader:
    def __init__(self, message):
        self.message = message
        self.place = 0

    def take(self, count):
        if self.place + count > len(self.message):
            raise Fault("Short")
        taken = self.message[self.place : self.place + count]
        self.place += count
        return taken

    def number(self, count):
        return int.from_bytes(self.take(count), "big")

    def run(self, place):
        """The labels from a place on, where a pointer behind them leads, if there is one, and the place behind it."""
        labels = []
        while True:
            if place >= len(self.message):
                raise Fault("Short")
            first = self.message[place]
            if first == 0:
                return labels, None, place + 1
            if first >= 192:
                if place + 1 >= len(self.message):
                    raise Fault("Short")
                return labels, (first - 192) * 256 + self.message[place + 1], place + 2
            if first >= 64:
                raise Fault("BadLabel")
            label = self.message[place + 1 : place + 1 + first]
            if len(label) < first:
                raise Fault("Short")
            if any(not 0x21 <= byte <= 0x7E or byte in b".\\" for byte in label):
                raise Fault("BadByte")
            labels.append(label)
            place += 1 + first

    def name(self):
        start = self.place
        labels, to, self.place = self.run(start)
        while to is not None:
            if to >= start:
                raise Fault("BadPointer")
            start = to
            more, to, _ = self.run(start)
            labels += more
        if len(name_bytes(labels)) > 255:
            raise Fault("LongName")
        return labels

    def data(self, kind, length):
        if self.place + length > len(self.message):
            raise Fault("Short")
        end = self.place + length
        text = self.data_text(kind, length)
        if self.place != end:
            raise Fault("BadData")
        return text

    def data_text(self, kind, length):
        if kind in (1, 28):
            if length != {1: 4, 28: 16}[kind]:
                raise Fault("BadData")
            return address_text(self.take(length))
        if kind in (15, 46) and length < 2:
            raise Fault("BadData")
        if kind in (2, 5):
            return name_text(self.name())
        if kind == 6:
            return self.soa(self.place + length)
        if kind == 12:
            return hex_text(name_bytes(self.name()))
        if kind == 15:
            return hex_text(self.take(2) + name_bytes(self.name()))
        if kind == 46:
            return "%s %s" % (type_text(self.number(2)), hex_text(self.take(length - 2)))
        return hex_text(self.take(length))

    def soa(self, end):
        names = [name_text(self.name()), name_text(self.name())]
        if self.place + 20 != end:
            raise Fault("BadData")
        return " ".join(names + [str(self.number(4)) for _ in range(5)])


def address_text(data):
    """RFC 5952 section 4, without the form that ends in dots."""
    return str(ipaddress.ip_address(data))


def read(message):
    """The lines of a message, or a Fault."""
    if len(message) > 65535:
        raise Fault("Long")
    reader = Reader(message)
    number, flags = reader.number(2), reader.number(2)
    counts = [reader.number(2) for _ in range(4)]
    questions = []
    for _ in range(counts[0]):
        name = name_text(reader.name())
        questions.append("question %s %s %s" % (name, type_text(reader.number(2)), class_text(reader.number(2))))
    sections, opt = [], None
    for section in range(3):
        lines = []
        for _ in range(counts[section + 1]):
            labels, kind = reader.name(), reader.number(2)
            if kind == 41 and (section < 2 or opt or labels):
                raise Fault("BadOpt")
            group, life, length = reader.number(2), reader.number(4), reader.number(2)
            if kind == 41:
                opt = (life >> 24, "edns %d %d %d %s" % (group, life >> 16 & 255, life >> 15 & 1, hex_text(reader.take(length))))
            else:
                lines.append("%s %d %s %s %s" % (name_text(labels), life, class_text(group), type_text(kind), reader.data(kind, length)))
        sections.append(lines)
    if reader.place != len(message):
        raise Fault("Trailing")
    code = code_text((flags & 15) + (16 * opt[0] if opt else 0))
    lines = ["wire %d %s %d %s" % (number, "response" if flags >> 15 else "query", flags >> 11 & 15, code)] + questions
    lines.append("message %s %s %d %d %d" % (code, FLAGS[flags >> 10 & 1, flags >> 9 & 1], *(len(part) for part in sections)))
    for part in sections:
        lines += part
    return lines + ([opt[1]] if opt else []) + ["end"]


def wanted(message):
    try:
        return 0, "\n".join(read(message)) + "\n"
    except Fault as fault:
        return 3, "error wire %s\n" % fault


# ---- the packets


class Writer:
    """A message that grows; names may end in a pointer to a place where one stands."""

    def __init__(self, rng):
        self.rng = rng
        self.bytes = b""
        self.places = []

    def number(self, value, count):
        self.bytes += value.to_bytes(count, "big")

    def name(self, short=False):
        place = len(self.bytes)
        labels = [bytes(self.rng.choice(b"abcXYZ019-_*!~") for _ in range(self.rng.choice([1, 1, 3, 7, 63]))) for _ in range(self.rng.choice([0, 1, 1, 2, 3]))]
        self.bytes += name_bytes(labels)[:-1]
        if self.places and not short and self.rng.random() < 0.6:
            self.number(49152 + self.rng.choice(self.places), 2)
        else:
            self.bytes += b"\0"
        if place < 16384:
            self.places.append(place)

    def data(self, kind):
        if kind in (2, 5, 12, 15):
            self.bytes += b"\0\x0a" if kind == 15 else b""
            self.name()
        elif kind == 6:
            self.name()
            self.name()
            self.bytes += self.rng.randbytes(20)
        else:
            size = {1: 4, 28: 16, 46: 18}.get(kind, self.rng.choice([0, 1, 5]))
            self.bytes += (b"\0" * 10 + b"\xff\xff" + self.rng.randbytes(4) if kind == 28 and self.rng.random() < 0.3 else self.rng.randbytes(size))

    def record(self):
        kind = self.rng.choice([1, 1, 2, 5, 6, 12, 15, 16, 28, 46, 64, 65280])
        self.name()
        self.number(kind, 2)
        self.number(self.rng.choice([1, 1, 1, 3, 254]), 2)
        self.number(self.rng.choice([0, 300, 4294967295]), 4)
        place = len(self.bytes)
        self.number(0, 2)
        self.data(kind)
        length = len(self.bytes) - place - 2 + self.rng.choice([0] * 20 + [1, -1])
        self.bytes = self.bytes[:place] + max(0, length).to_bytes(2, "big") + self.bytes[place + 2 :]

    def opt(self):
        self.bytes += b"\0"
        self.number(41, 2)
        self.number(self.rng.choice([512, 1232, 65535]), 2)
        self.number(self.rng.choice([0, 32768, 0x01008000, 0xFF000000]), 4)
        options = self.rng.randbytes(self.rng.choice([0, 0, 4]))
        self.number(len(options), 2)
        self.bytes += options


def message(rng):
    counts = [rng.choice([0, 1, 1, 1, 2])] + [rng.choice([0, 0, 1, 2]) for _ in range(3)]
    opts = rng.choice([0, 0, 1, 1, 1, 1, 1, 1, 1, 2])
    writer = Writer(rng)
    writer.number(rng.randrange(65536), 2)
    writer.number(rng.randrange(65536), 2)
    for count in counts[:3] + [counts[3] + opts]:
        writer.number(count, 2)
    for _ in range(counts[0]):
        writer.name()
        writer.number(rng.choice([1, 2, 28, 255, 65535]), 2)
        writer.number(rng.choice([1, 1, 3]), 2)
    for _ in range(sum(counts[1:])):
        writer.record()
    for _ in range(opts):
        writer.opt()
    return writer.bytes


def changed(rng, packet):
    for _ in range(rng.choice([1, 1, 1, 2, 5])):
        place = rng.randrange(len(packet) + 1)
        byte = bytes([rng.choice([0, 1, 63, 64, 191, 192, 255, rng.randrange(256)])])
        packet = rng.choice([packet[:place] + byte + packet[place + 1 :], packet[:place] + packet[place + 1 :], packet[:place] + byte + packet[place:], packet[:place]])
    return packet


def packet_of(seed, number):
    rng = random.Random("%d %d" % (seed, number))
    kind = rng.random()
    if kind < 0.05:
        return rng.randbytes(rng.choice([0, 3, 11, 12, 13, 20, 40, 300]))
    packet = message(rng)
    return packet if kind < 0.4 else changed(rng, packet)


# ---- the comparison


def main():
    program = sys.argv[1]
    count = int(sys.argv[2]) if len(sys.argv) > 2 else 100000
    seed = int(sys.argv[3]) if len(sys.argv) > 3 else 1
    ends = collections.Counter()
    wrong = 0

    def try_one(number):
        packet = packet_of(seed, number)
        run = subprocess.run([program, "decode"], input=packet, capture_output=True)
        return number, packet, (run.returncode, run.stdout.decode()), wanted(packet)

    with ThreadPoolExecutor(8) as pool:
        for start in range(0, count, 4096):
            for number, packet, got, want in pool.map(try_one, range(start, min(start + 4096, count))):
                ends["read" if want[0] == 0 else want[1].split()[2]] += 1
                if got != want:
                    wrong += 1
                    print("packet %d: %s" % (number, packet.hex()))
                    print("  got %d %r, wanted %d %r" % (*got, *want))
    print("%d packets: %s" % (count, ", ".join("%s %d" % end for end in ends.most_common())))
    sys.exit(1 if wrong else 0)


main()
