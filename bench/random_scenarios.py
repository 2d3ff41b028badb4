"""Random scenarios: that memory is never said to be wanting where there is memory, and that each question has its reply.

    python3 bench/random_scenarios.py PROGRAM [COUNT [SEED]]

PROGRAM is crates/recursor_program/out/recursor_program. COUNT scenarios (100,000 if left out) are made from SEED (1 if left
out), each from its own number, and each is handed to the program: worlds of a few zones whose servers refer, answer, deny,
fail, stay silent, cut messages off or tell what they may not, under random options, with questions of random turns. It
prints how many replies of each kind came, and each scenario's number that ended with another status than 0, lacks a reply,
or has the reply NoMemory. Ends with status 1 where there is one. It measures nothing, and is no part of the gate."""
import collections
import os
import random
import subprocess
import sys
from concurrent.futures import ThreadPoolExecutor

NAMES = [".", "com.", "net.", "example.com.", "a.example.com.", "www.a.example.com.", "b.com.", "x.net.", "y.x.net.", "org."]
IPS = ["11.0.0.%d" % n for n in range(1, 9)] + ["2a00::1", "10.0.0.1"]
TYPES = ["NS", "NS", "NS", "A", "A", "AAAA", "SOA", "MX", "TXT"]
CODES = ["NOERROR"] * 8 + ["NXDOMAIN", "NXDOMAIN", "SERVFAIL", "REFUSED", "NOTIMP", "RCODE11"]
FLAGS = ["none", "none", "aa", "aa", "aa", "tc", "aa+tc"]
ERRORS = ["busy", "busy", "io", "closed", "refused", "timeout", "noconnections", "mismatch"]


def parent(name):
    rest = name.split(".", 1)[1]
    return rest if rest else "."


def record(rng, names=NAMES):
    name, ttl = rng.choice(names), rng.choice([0, 1, 60, 300, 4294967295])
    group = "CH" if rng.random() < 0.02 else "IN"
    kind = rng.choice(["A", "A", "NS", "NS", "AAAA", "SOA"])
    data = {"A": "11.0.0.%d" % rng.randint(1, 8), "NS": rng.choice(NAMES), "AAAA": "2a00::%d" % rng.randint(1, 3), "SOA": "m. r. 1 2 3 4 %d" % rng.choice([0, 5, 900])}[kind]
    return "%s %d %s %s %s" % (name, ttl, group, kind, data)


def told(rng, sections, code, flags):
    lines = ["message %s %s %d %d %d" % (code, flags, *(len(part) for part in sections))]
    return lines + [line for part in sections for line in part]


def reply(rng, ip, protocol, name, kind, lines):
    delay = rng.choice([0, 0, 0, 0, 1, 2, 5])
    return ["reply %s %s %s %s %d %s" % (ip, protocol, name, kind, delay, lines[0])] + lines[1:]


def referral(rng, ip, child, servers):
    host = rng.choice(["ns.", "ns." if child == "." else "ns." + child])
    glue = ["%s %d IN %s %s" % (host, rng.choice([0, 60, 172800]), "AAAA" if ":" in server else "A", server) for server in servers]
    lines = told(rng, [[], ["%s 60 IN NS %s" % (child, host)], glue], "NOERROR", rng.choice(["none", "aa"]))
    return reply(rng, ip, rng.choice(["udp", "udp", "udp", "tcp"]), child, "NS", lines)


def noise(rng):
    ip, protocol, name, kind = rng.choice(IPS), rng.choice(["udp", "udp", "tcp"]), rng.choice(NAMES), rng.choice(TYPES)
    if rng.random() < 0.3:
        return reply(rng, ip, protocol, name, kind, ["error " + rng.choice(ERRORS)])
    sections = [[record(rng) for _ in range(rng.choice([0, 0, 1, 2]))] for _ in range(3)]
    return reply(rng, ip, protocol, name, kind, told(rng, sections, rng.choice(CODES), rng.choice(FLAGS)))


def options(rng):
    lines = []
    if rng.random() < 0.4:
        lines.append("option response_cache_size %d" % rng.choice([0, 1, 2, 100]))
    if rng.random() < 0.1:
        lines.append("option deny_answers 11.0.0.%d/32" % rng.randint(1, 8))
    if rng.random() < 0.2:
        lines.append("option deny_server %s" % rng.choice(["-", "11.0.0.3/32", "11.0.0.0/29"]))
    if rng.random() < 0.2:
        lines.append("option positive_ttl %s" % rng.choice(["0 0", "5 10", "60 86400"]))
    if rng.random() < 0.2:
        lines.append("option negative_ttl %s" % rng.choice(["0 0", "5 10"]))
    if rng.random() < 0.2:
        lines.append("option case_randomization 1")
    if rng.random() < 0.2:
        lines.append("option first_delays %s" % rng.choice(["1", "31,1", "3,3,3"]))
    return lines


def scenario(number, seed):
    rng = random.Random("%d %d" % (seed, number))
    roots = rng.sample(IPS[:8], rng.choice([1, 1, 2, 3]))
    lines = ["recursor 1"] + ["root " + ip for ip in roots] + options(rng) + ["patience %d" % rng.choice([1, 2, 3, 5]), "told script"]
    told_lines = []
    servers = {".": roots}
    for name in NAMES[1:]:
        above = servers.get(parent(name))
        if above and rng.random() < 0.7:
            servers[name] = rng.sample(IPS, rng.choice([0, 1, 1, 2, 3]))
            told_lines += [referral(rng, ip, name, servers[name]) for ip in above if rng.random() < 0.9]
    for name in NAMES:
        zone = name
        while zone not in servers:
            zone = parent(zone)
        for ip in servers[zone]:
            if rng.random() < 0.5:
                answer = told(rng, [["%s 60 IN A 11.0.0.%d" % (name, rng.randint(1, 8))], [], []], "NOERROR", rng.choice(["aa", "aa", "aa+tc"]))
                told_lines.append(reply(rng, ip, rng.choice(["udp", "udp", "tcp"]), name, "A", answer))
    told_lines += [noise(rng) for _ in range(rng.choice([0, 2, 6, 12]))]
    for _ in range(rng.choice([0, 0, 1, 3])):
        end = rng.choice(["ok", "error " + rng.choice(ERRORS)])
        told_lines.append(["connect %s %s %d %s" % (rng.choice(IPS), rng.choice(["udp", "tcp"]), rng.choice([0, 1, 3]), end)])
    if rng.random() < 0.15:
        told_lines.append(["refuse %s %s" % (rng.choice(IPS), rng.choice(["udp", "tcp"]))])
    rng.shuffle(told_lines)
    lines += [line for part in told_lines for line in part]
    count, moment = rng.choice([1, 1, 2, 4, 8]), 0
    lines += ["question %s %s plain" % (rng.choice(NAMES + ["unqualified"]), rng.choice(TYPES)) for _ in range(count)]
    for _ in range(rng.choice([0, count, 2 * count, 4 * count])):
        moment += rng.choice([0, 0, 1, 1000, 1000000, 6000000])
        lines.append("turn %d %d" % (rng.randint(1, count), moment))
    return "\n".join(lines + ["end", ""]), count


def judge(program, number, seed):
    text, count = scenario(number, seed)
    done = subprocess.run([program, "resolve"], input=text.encode(), stdout=subprocess.PIPE, stderr=subprocess.DEVNULL)
    found = done.stdout.decode(errors="replace").split("\n")
    replies = [line.split() for line in found if line.startswith("reply ")]
    kinds = [" ".join(words[2:4]) if words[2] == "error" else "message" for words in replies]
    well = done.returncode == 0 and len(replies) == count and not any("NoMemory" in words for words in replies)
    return number, well, done.returncode, kinds


def main():
    program = os.path.abspath(sys.argv[1])
    count = int(sys.argv[2]) if len(sys.argv) > 2 else 100_000
    seed = int(sys.argv[3]) if len(sys.argv) > 3 else 1
    kinds, bad = collections.Counter(), []
    with ThreadPoolExecutor(os.cpu_count()) as pool:
        for number, well, status, told_kinds in pool.map(lambda n: judge(program, n, seed), range(1, count + 1), chunksize=64):
            kinds.update(told_kinds)
            if not well:
                bad.append((number, status))
                print("scenario %d of seed %d: status %d" % (number, seed, status))
    print("%d scenarios, %d replies" % (count, sum(kinds.values())))
    for kind, times in kinds.most_common():
        print("%8d %s" % (times, kind))
    sys.exit(1 if bad else 0)


if __name__ == "__main__":
    main()
