"""The cache of responses as a plain list: computes what each case of crates/cases/data/cache.cases wants.

    python3 bench/plain_cache.py

Tells the cases that want something else than the list gives, and ends with status 1 where there are any. The list has entries in the order in which they were written, and looks for each question from the start (RFC 1035 section
3.2.1, RFC 2308 section 5). It has nothing in common with the cache, and measures nothing.
"""
import pathlib
import sys

CASES = pathlib.Path(__file__).resolve().parent.parent / "crates/cases/data/cache.cases"
SECOND, DAY = 1_000_000, 86_400


class PlainCache:
    def __init__(self, size):
        self.size, self.entries = size, []

    def find(self, question):
        return next((it for it in self.entries if it["question"] == question), None)

    def read(self, now, question):
        found = self.find(question)
        if found is None:
            return "absent"
        if now > found["expiry"]:
            return "expired"
        ttl = max(found["ttl"] - max(now - found["written"], 0) // SECOND, 0)
        return f"{found['kind']} {ttl} of line {found['line']}"

    def write(self, now, entry, life, is_clamped):
        before = self.find(entry["question"])
        expiry = now + min(life, DAY) * SECOND
        if is_clamped and before is not None and now <= before["expiry"]:
            expiry = min(expiry, before["expiry"])
        if self.size == 0:
            return
        if before is not None:
            self.entries.remove(before)
        elif len(self.entries) >= self.size:
            least = min(it["expiry"] for it in self.entries)
            self.entries.remove(next(it for it in self.entries if it["expiry"] == least))
        self.entries.append({**entry, "written": now, "expiry": expiry})


def after(cache, words, line):
    """The cache after a line of these words, and what is seen then, or none where the line says nothing that the list knows."""
    first, *rest = words
    if first == "size":
        return PlainCache(int(rest[0])), "entries 0"
    if first == "copy":
        return cache, f"entries {len(cache.entries)}"
    if first not in ("read", "write", "deny", "fail"):
        return cache, None
    now, question = int(rest[0]), (rest[1].lower(), rest[2], rest[3])
    if first == "read":
        return cache, cache.read(now, question)
    numbers = [int(it) for it in rest[4:] if it != "clamped"]
    if first != "fail":
        kind = {"write": "answer", "deny": "denial"}[first]
        entry = {"question": question, "kind": kind, "ttl": numbers[0], "line": line}
        cache.write(now, entry, min(numbers), rest[-1] == "clamped")
    return cache, f"entries {len(cache.entries)}"


def main():
    odd = 0
    for case in CASES.read_text(encoding="utf-8").split("\n== ")[1:]:
        name, text = case.split("\n", 1)
        given, wanted = (it.strip("\n").split("\n") for it in text.split("\n--\n"))
        cache, seen = PlainCache(0), []
        for line, words in enumerate(given, 1):
            cache, told = after(cache, words.split(), line)
            seen.append(told)
        same = len(seen) == len(wanted) and all(a in (None, b) for a, b in zip(seen, wanted))
        if same == name.startswith("not: "):
            odd += 1
            print(f"{name}: the list gives", *seen, sep="\n  ")
    print(f"{odd} cases want something else than the list gives")
    sys.exit(1 if odd else 0)


if __name__ == "__main__":
    main()
