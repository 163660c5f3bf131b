#!/usr/bin/env python3
"""respell.py: turns this repository's own names to the kit's spelling, once, after the kit's port.py.

Definitions, lemmas, record fields and constructors of specs/ and proofs/ go to snake case; a dash stays where it
joins two names of functions, as in length-to_be. Types, modules, names from src/, strings and files keep theirs.
Must-fail edits and code in the pages follow. It ends with an error, and writes nothing, where two names would fall together.
"""
import collections
import pathlib
import re
import sys

ROOT = pathlib.Path(__file__).resolve().parent.parent
CHAR = r"[^\s(){}.,;:`\[\]\"/|\\]"
TOKEN = re.compile(rf"{CHAR}+")
DECLARED = re.compile(rf"^(\s*)(?:abbrev |unfoldable )*(?:pub )?((?:{CHAR}+ )*{CHAR}+) : (.*)$")
# words of the library, and operations that lemmas are named after, whose names a dash may join
WORDS = set("length take drop append set map get_or cond leb ltb eqb min max replicate add sub mul div mod pow and or not if".split())

# names that fall together and may: one is private to its file
APART = {"post_of"}


def words_of(name):
    """The words of a name in snake case: dashes part words, and a capital begins one."""
    return [re.sub(r"(?<=[a-z0-9])([A-Z])(?=[a-z0-9]|$)", lambda m: "_" + m.group(1).lower(), part) for part in name.split("-")]


def is_type(name):
    return name[0].isupper()


def respelled(name, functions):
    parts = words_of(name)
    out = parts[0]
    for before, part in zip(parts, parts[1:]):
        dash = before in functions and part in functions or is_type(before)
        out += ("-" if dash else "_") + part
    return out


def sources():
    for crate in sorted((ROOT / "crates").iterdir()):
        for folder in ("specs", "proofs"):
            yield from sorted((crate / folder).rglob("*.antt"))


def declarations():
    """Each declared name of an .antt file, with its file and whether its type is one that Rattle writes."""
    for path in sources():
        for line in path.read_text().split("\n"):
            found = DECLARED.match(line)
            if not found or line.lstrip().startswith(("--", "use ", "(", "λ", "let ", "×", "→")):
                continue
            for name in found[2].split(" "):
                yield name, path, found[3].startswith(("tie.", "goal."))


def defined():
    """The names of the functions that specs/ defines."""
    for path in sources():
        if "specs" in path.parts:
            for name in re.findall(rf"^\s*(?:abbrev|unfoldable) (?:pub )?({CHAR}+) : ", path.read_text(), re.M):
                if not is_type(name):
                    yield name


def imported():
    """For each file the names that it takes from outside this repository."""
    own = {c.name for c in (ROOT / "crates").iterdir()}
    out = collections.defaultdict(set)
    for path in sources():
        for line in path.read_text().split("\n"):
            if line.startswith("use ") and not re.match(r"use Rattle\.(%s)\." % "|".join(sorted(own)), line):
                out[path] |= set(TOKEN.findall(line.split("{", 1)[-1]))
    return out


def main():
    declared = list(declarations())
    names = {n for n, _, made in declared if not made}
    made = {n for n, _, m in declared if m}
    functions = WORDS | {"_".join(words_of(n)) for n in defined()}
    turned = {}
    for n in sorted(names):
        if n in made or not re.fullmatch(r"[\w'?₀-₉-]+", n) or is_type(n) and "-" not in n:
            continue
        new = respelled(n, functions)
        if new != n:
            turned[n] = new
    # what port.py or this script turned already, for edits and pages, which port.py leaves
    earlier = collections.defaultdict(set)
    for n in names:
        earlier[n.replace("-", "_")].add(turned.get(n, n))
    # where a lemma would have its function's name, it gets _lem
    in_specs = {n for n, p, _ in declared if "specs" in p.parts}
    taken = collections.Counter(turned.get(n, n) for n in names)
    for n in sorted(names - in_specs):
        if taken[turned.get(n, n)] > 1 and not re.search("[a-z][A-Z]", n):
            turned[n] = turned.get(n, n) + "_lem"
    taken = collections.Counter(turned.get(n, n) for n in names)
    clash = [n for n, k in taken.items() if k > 1 and n not in APART]
    if clash:
        sys.exit("two names would fall together: " + ", ".join(f"{n} (of {', '.join(o for o in turned if turned[o] == n)})" for n in clash))

    outside = imported()

    def turn(text, path, may=lambda m: True):
        def one(m):
            t = m.group(0)
            return turned[t] if t in turned and t not in outside[path] and may(m) else t
        return TOKEN.sub(one, text)

    count = 0
    for path in sources():
        old = path.read_text()
        lines = []
        for line in old.split("\n"):
            code, dash, comment = line.partition("-- ")
            lines.append(turn(code, path) + dash + turn(comment, path, lambda m: re.search("[a-z][A-Z]", m.group(0))))
        new = "\n".join(lines)
        if new != old:
            path.write_text(new)
            count += 1
    for path in sorted((ROOT / "crates").glob("*/src/**/*.rt")):
        old = path.read_text()
        new = "\n".join(l if l.lstrip().startswith("//") else turn(l, path) for l in old.split("\n"))
        if new != old:
            path.write_text(new)
            count += 1

    def late(text):
        def one(m):
            t = m.group(0)
            if t in turned:
                return turned[t]
            if t in names or not re.search(r"[a-z0-9][A-Z]|\w-\w", t):
                return t
            now = earlier.get("_".join(words_of(t)), set())
            return next(iter(now)) if len(now) == 1 else t
        return TOKEN.sub(one, text)

    pages = sorted(ROOT.glob("*.md")) + sorted((ROOT / "docs").glob("*.md"))
    for path in sorted((ROOT / "crates").glob("*/must-fail/*.edit")):
        old = path.read_text()
        new = "\n".join(late(l) if l.startswith(("old:", "new:")) else l for l in old.split("\n"))
        if new != old:
            path.write_text(new)
            count += 1
    for path in pages:
        old = path.read_text()
        new = re.sub(r"`[^`\n]+`", lambda m: m.group(0) if "/" in m.group(0) else late(m.group(0)), old)
        if new != old:
            path.write_text(new)
            count += 1
    print(f"respell: {len(turned)} names, {count} files")


main()
