"""Reading: how long `resolve` takes on scripts of 1 to 16 MiB, against sha256sum of the same file.

    python3 bench/reading.py PROGRAM

PROGRAM is crates/recursor_program/out/recursor_program, as the first command of the README builds it. The script has
one question; all its other rules are never asked. Prints one line a size, and exits 1 where a bound is passed: 15 times
the time of sha256sum and 40 times the size of the file in memory at 16 MiB."""
import os
import resource
import subprocess
import sys
import tempfile
import time

HEAD = "recursor 1\nroot 11.0.0.1\npatience 3\ntold script\n"
BASE = (
    "reply 11.0.0.1 udp com. NS 0 message NOERROR none 0 1 1\ncom. 172800 IN NS a.nic.com.\na.nic.com. 172800 IN A 11.0.0.2\n"
    "reply 11.0.0.2 udp example.com. NS 0 message NOERROR none 0 1 1\nexample.com. 172800 IN NS ns.example.com.\n"
    "ns.example.com. 172800 IN A 11.0.0.3\n"
    "reply 11.0.0.3 udp example.com. A 0 message NOERROR aa 1 0 0\nexample.com. 300 IN A 93.184.215.14\n"
)
TAIL = "question example.com. A plain\nturn 1 0\nend\n"


def script(size):
    parts, length, n = [HEAD, BASE], len(HEAD) + len(BASE) + len(TAIL), 0
    while True:
        rule = (
            "reply 11.0.%d.%d udp z%d.unused.example. NS 0 message NOERROR none 0 1 1\n"
            "z%d.unused.example. 172800 IN NS ns.z%d.unused.example.\nns.z%d.unused.example. 172800 IN A 12.0.%d.%d\n"
            % (n >> 8 & 255, n & 255, n, n, n, n, n >> 8 & 255, n & 255)
        )
        if length + len(rule) > size:
            break
        parts.append(rule)
        length += len(rule)
        n += 1
    return "".join(parts) + TAIL


def best(command, path, runs):
    least = None
    for _ in range(runs):
        with open(path, "rb") as f:
            t = time.perf_counter()
            done = subprocess.run(command, stdin=f, stdout=subprocess.DEVNULL)
            t = time.perf_counter() - t
        if done.returncode != 0:
            sys.exit("%s ended with status %d" % (command[0], done.returncode))
        least = t if least is None else min(least, t)
    return least


def peak(command, path):
    pid = os.fork()
    if pid == 0:
        with open(path, "rb") as f:
            subprocess.run(command, stdin=f, stdout=subprocess.DEVNULL)
        used = resource.getrusage(resource.RUSAGE_CHILDREN).ru_maxrss
        os._exit(0 if print(used, file=open(path + ".peak", "w")) is None else 1)
    os.waitpid(pid, 0)
    return int(open(path + ".peak").read()) * 1024


def main():
    program = sys.argv[1]
    bad = False
    first = None
    with tempfile.TemporaryDirectory() as folder:
        for mib in (1, 2, 4, 8, 16):
            path = os.path.join(folder, "script")
            with open(path, "w") as f:
                f.write(script(mib << 20))
            size = os.path.getsize(path)
            ours, sha = best([program, "resolve"], path, 3), best(["sha256sum"], path, 3)
            memory = peak([program, "resolve"], path) / size
            each = ours / size
            first = first or each
            print(
                "%2d MiB: %.3f s, %.1f times sha256sum (%.3f s), %.1f times the file in memory, %.2f times the time a byte of 1 MiB"
                % (mib, ours, ours / sha, sha, memory, each / first)
            )
            if mib == 16 and (ours > 15 * sha or memory > 40):
                bad = True
    sys.exit(1 if bad else 0)


if __name__ == "__main__":
    main()
