#!/usr/bin/env python3
"""Prints the functions of crates/*/src at a commit (HEAD where none is named) whose bodies differ in names, numbers and types alone.

    tools/twins.py [COMMIT]
"""
import re
import subprocess
import sys

commit = sys.argv[1] if len(sys.argv) > 1 else "HEAD"


def git(*words):
    return subprocess.run(["git", *words], capture_output=True, text=True, check=True).stdout


def block(text, at):
    """The place after the block that opens at `at`."""
    depth = 0
    for end in range(at, len(text)):
        depth += {"{": 1, "}": -1}.get(text[end], 0)
        if depth == 0:
            return end + 1
    return len(text)


def bodies(text):
    text = re.sub(r"//[^\n]*", "", text)
    for head in re.finditer(r"\bfn (\w+)", text):
        at = text.index("{", head.end())
        # the clauses come before the body
        while re.search(r"\b(?:requires|ensures)(?: \w+)?\s*$", text[head.end():at]):
            at = text.index("{", block(text, at))
        yield head.group(1), text[at:block(text, at)]


def shape(body):
    words = re.findall(r"\w+|[^\s\w]", body)
    kept = {"if", "else", "match", "for", "in", "while", "return", "let", "mut", "break", "true", "false"}
    return " ".join(w if not re.match(r"\w", w) or w in kept else "N" if w[0].isdigit() else "x" for w in words)


groups = {}
for path in git("ls-tree", "-r", "--name-only", commit, "crates").split():
    if "/src/" in path and path.endswith(".rt"):
        for name, body in bodies(git("show", f"{commit}:{path}")):
            seen = shape(body)
            if len(seen.split()) >= 20:
                groups.setdefault(seen, []).append(f"{path.split('/')[1]}::{name}")
for seen, names in sorted(groups.items(), key=lambda g: g[1]):
    if len(names) > 1:
        print(len(names), " ".join(names))
