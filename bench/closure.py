"""Closure: how many definitions of the repository each clause of `drive` and of `run` reaches.

    python3 bench/closure.py [FOLDER]

FOLDER is a checkout, by default the one in which this file stands. A definition is an abbreviation, a record or a data
type of a crate's specs/; those of std and the types of programs do not count. Prints, for each function, a line a
clause: its name, the definitions that it reaches, and how many of these stand in each crate; and a line for all. Then
the same of the three parts of the theorem: what the clauses of `drive` reach that say whom a run asks (`asks`), what an
answer is (`answers`) and what an error means (`errors`), each without the other two."""
import collections
import pathlib
import re
import sys

FUNCTIONS = [("recursor_core", "driving.rt", "drive"), ("recursor_command", "command.rt", "run")]
PARTS = {"asks": "OnlyServersAsked", "answers": "AnswerIsSound", "errors": "ErrorIsSound"}
DEFINITION = re.compile(r"\s*(?:(?:abbrev|unfoldable|def)(?: pub)?|(?:pub )?(?:record|data)) ([\w']+)")
IMPORT = re.compile(r"(pub )?use Rattle\.(\w+)\.specs\.([\w.]+?)(?:\.\{([^}]*)\}| as (\w+))", re.S)
CLAUSE = re.compile(r"\b(ensures|requires) *(\w*) *\{")
WORD = re.compile(r"(?<![\w'.])([A-Za-z_][\w']*)(?:\.([A-Za-z_][\w']*))?")


class Module:
    """The definitions of a file, each with its text, and what the file imports."""

    def __init__(self, text):
        self.names, self.aliases, self.exports = imports_of(text)
        self.definitions = collections.OrderedDict()
        name = None
        for line in without_comments(text).split("\n"):
            found = DEFINITION.match(line)
            if found:
                name = found.group(1)
                self.definitions[name] = []
            if name and not line.startswith("use "):
                self.definitions[name].append(line)


def without_comments(text):
    return re.sub(r"--.*|//.*", "", text)


def imports_of(text):
    """The names that a text imports, each with its module and its name there; its aliases of modules; what it exports."""
    names, aliases, exports = {}, {}, {}
    for public, crate, module, listed, alias in IMPORT.findall(text):
        if module.startswith("declared"):
            continue
        if alias:
            aliases[alias] = (crate, module)
        for item in filter(None, (part.strip() for part in listed.split(","))):
            there, here = item.split(" as ") if " as " in item else (item, item)
            names[here.strip()] = (crate, module, there.strip())
            if public:
                exports[here.strip()] = names[here.strip()]
    return names, aliases, exports


def modules_of(root):
    """All modules of specs/, by crate and path."""
    modules = {}
    for path in sorted(root.glob("crates/*/specs/**/*.antt")):
        parts = path.relative_to(root / "crates").with_suffix("").parts
        modules[parts[0], ".".join(parts[2:])] = Module(path.read_text())
    return modules


def named_in(text, names, aliases, own=()):
    """What a text names: by an import, by an alias of a module, or as a definition beside it."""
    for first, second in WORD.findall(text):
        if first in aliases and second:
            yield aliases[first] + (second,)
        elif first in own:
            yield first
        elif first in names:
            yield names[first]


def resolved(modules, key):
    """Where a name is defined, going through modules that export it; nothing where the repository does not define it."""
    crate, module, name = key
    for _ in range(8):
        if (crate, module) not in modules:
            return None
        if name in modules[crate, module].definitions:
            return crate, module, name
        if name not in modules[crate, module].exports:
            return None
        crate, module, name = modules[crate, module].exports[name]
    return None


def reached(modules, seeds, without=()):
    """All definitions that these lead to, themselves among them, but by none of the names to do without."""
    seen, left = set(), [resolved(modules, seed) for seed in seeds]
    while left:
        key = left.pop()
        if key is None or key in seen or key[2] in without:
            continue
        seen.add(key)
        module = modules[key[0], key[1]]
        text = "\n".join(module.definitions[key[2]])
        for found in named_in(text, module.names, module.aliases, module.definitions):
            left.append(key[:2] + (found,) if isinstance(found, str) else resolved(modules, found))
    return seen


def clauses_of(text, function):
    """The clauses of a function, each with its name and its text."""
    start = re.search(r"\bpub fn %s\b" % function, text).start()
    contract = without_comments(text[start:text.index("\n{", start)])
    marks = list(CLAUSE.finditer(contract))
    ends = [mark.start() for mark in marks[1:]] + [len(contract)]
    return [(mark.group(2) or mark.group(1), contract[mark.end():end]) for mark, end in zip(marks, ends)]


def part_of(modules, part, clauses, names, aliases):
    """What the clauses that reach a part of the theorem reach, without its other parts."""
    others, whole = set(PARTS.values()) - {PARTS[part]}, set()
    for _, clause in clauses:
        found = reached(modules, named_in(clause, names, aliases), others)
        whole |= found if any(key[2] == PARTS[part] for key in found) else set()
    return whole


def line_of(name, found):
    crates = collections.Counter(key[0] for key in found).most_common()
    return "  %-13s %4d  %s" % (name, len(found), ", ".join("%s %d" % pair for pair in crates))


def main():
    root = pathlib.Path(sys.argv[1]) if len(sys.argv) > 1 else pathlib.Path(__file__).resolve().parent.parent
    modules = modules_of(root)
    parts = []
    for crate, path, function in FUNCTIONS:
        text = (root / "crates" / crate / "src" / path).read_text()
        names, aliases, _ = imports_of(text)
        clauses = clauses_of(text, function)
        print("%s::%s" % (crate, function))
        whole = set()
        for name, clause in clauses:
            found = reached(modules, named_in(clause, names, aliases))
            whole |= found
            print(line_of(name, found))
        print(line_of("all", whole))
        if function == "drive":
            parts = [line_of(part, part_of(modules, part, clauses, names, aliases)) for part in PARTS]
    print("theorem")
    for line in parts:
        print(line)


if __name__ == "__main__":
    main()
