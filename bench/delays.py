"""Delays: the definitions of the smoothed round trip times of crates/server_core, in exact integers of Python.

    python3 bench/delays.py [SEED]

Runs 1,000 steps that a linear congruential generator makes from SEED, by default 1: records, failures, some at a moment
before the last one, and readings, some after very long times. Prints the delay after the last step and a checksum of all
that was read. The case `a thousand steps come to the delay and the checksum of exact integers` of
crates/cases/data/delays.cases runs the same steps from the seeds 1, 2 and 3 and compares both numbers."""
import sys

ONE = 1 << 60
MOST = 5_000_000
FAILURE = 150_000


def decay(elapsed, weight):
    """The factor of a time in microseconds by a weight in seconds."""
    x = max(elapsed, 1_000_000) * ONE // (weight * 1_000_000)
    if x >= 1 << 80:
        return 0
    q = ONE - (x >> 20)
    for _ in range(20):
        q = q * q >> 60
    return q


class Delay:
    def __init__(self, initial):
        self.micros, self.since = initial, None

    def elapsed(self, now):
        return max(0, now - self.since)

    def record(self, rtt, now):
        rtt = min(rtt, MOST)
        if self.since is None:
            self.micros = rtt
        else:
            q = decay(self.elapsed(now), 3)
            self.micros = min(((ONE - q) * rtt + q * self.micros + ONE // 2) // ONE, MOST)
        self.since = now

    def record_failure(self, now):
        self.micros = FAILURE if self.since is None else min(self.micros + FAILURE, MOST)
        self.since = now

    def current_fixed(self, now):
        return self.micros * (ONE if self.since is None else decay(self.elapsed(now), 180))


def following(number):
    return (number * 6_364_136_223_846_793_005 + 1_442_695_040_888_963_407) % (1 << 64)


def step(delay, number, now):
    rtt = (number >> 20) % 5_250_000
    kind = (number >> 50) % 4
    if kind == 0:
        delay.record_failure(now)
    elif kind == 1:
        delay.record(rtt, max(0, now - 2_000_000))
    else:
        delay.record(rtt, now)


def run(seed, steps, watch=None):
    delay, number, now, checksum = Delay(10), seed, 0, 0
    for i in range(steps):
        number = following(number)
        now += number >> (20 if i % 50 == 49 else 40)
        step(delay, number, now)
        number = following(number)
        later = now + (number >> (14 if i % 50 == 24 else 36))
        read = delay.current_fixed(later)
        checksum = (checksum * 31 + read % (1 << 64)) % (1 << 64)
        if watch is not None:
            watch(i, delay, now, later, read)
    return delay.micros, checksum


def main():
    seed = int(sys.argv[1]) if len(sys.argv) > 1 else 1
    micros, checksum = run(seed, 1_000)
    print("delay %d, checksum %d" % (micros, checksum))


if __name__ == "__main__":
    main()
