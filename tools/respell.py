#!/usr/bin/env python3
"""Brings the repository's own definitions and lemmas to the spelling of today's Rattle, once, right after the kit's port.py.

usage: python3 tools/respell.py, at the top; with --list it only prints what it would turn.

Words are in snake case: `viewRows` becomes `view_rows`. In a name a dash stays where what stands before it is the name of
a definition, as in `length-added`; elsewhere it becomes `_`, as in `key_at`. Where two names would fall together the one
with the dash keeps it, and a lemma that would have its function's name gets `_lem`. Types and modules keep their capitals;
functions of src/, goals and steps that Rattle names, and all names from elsewhere keep their spelling.
"""

import collections
import pathlib
import re
import sys

LETTER = "A-Za-z0-9_'\u2080-\u209c\u2032\u2115\u2124\u25cc-"
TOKEN = re.compile(rf"(?<![{LETTER}])[A-Za-z][{LETTER}]*")
NAME = re.compile(r"[a-z][A-Za-z0-9_'\u2080-\u209c-]*")
STD = set("length append take drop map reverse get_or replicate filter cond min max int_min suc sum concat".split())
OLD = {"getD": "get_or", "minZ": "int_min"}  # names that the kit has spelled otherwise since
DEFINED = re.compile(r"^[ ]*(?:(?:abbrev|unfoldable|pub|data) )*([^\s:(){}.]+)\s:\s", re.M)
LET = re.compile(r"\blet ([^\s:(){}.]+) (?::|=)")
GOAL = re.compile(r"^\s*(?:(?:abbrev|pub) )*(\S+)\s*:\s*(?:need|goal|given)\.\S+", re.M)
USE = re.compile(r"^\s*(?:ghost |pub )?use ([\w.\u00b7'+-]+)\.\{([^}]*)\}", re.M)
ALIAS = re.compile(r"^\s*(?:ghost |pub )?use [\w.\u00b7'+-]+ as (\w+)", re.M)


def antt_files(top):
    return [p for d in ("specs", "proofs") for p in sorted(top.glob(f"crates/*/{d}/**/*.antt")) if "out" not in p.parts]


def snake(name):
    for old, new in OLD.items():
        name = re.sub(rf"{old}(?![a-z])", new, name)
    return re.sub(r"(?<=[a-z0-9])([A-Z])", lambda m: "_" + m.group(1).lower(), name)


def fields(text):
    """The fields of the records that a file declares."""
    inside = None
    for line in text.split("\n"):
        depth = len(line) - len(line.lstrip())
        if re.match(r"\s*(?:pub )?record \w", line) and line.rstrip().endswith("where"):
            inside = depth
        elif inside is not None and line.strip() and depth <= inside:
            inside = None
        elif inside is not None:
            m = re.match(r"\s*(?:pub )?([^\s:(){}.]+) : ", line)
            if m:
                yield m.group(1)


def names(top, texts):
    crates = {p.name for p in (top / "crates").iterdir()}
    own, goals, foreign, parts = set(), set(), set(), set()
    for t in texts.values():
        goals |= set(GOAL.findall(t))
        own |= set(DEFINED.findall(t)) | set(LET.findall(t))
        parts |= set(fields(t))
    sources = [p.read_text(encoding="utf-8") for p in top.glob("crates/*/src/*.rt")]
    for t in list(texts.values()) + sources:
        for path, inner in USE.findall(t):
            here = path.startswith("Rattle.") and path.split(".")[1] in crates
            if not here or ".Goals" in path or ".Given" in path or ".declared." in path:
                foreign |= {n.split(" as ")[0].strip() for n in inner.split(",")}
    own |= parts
    specs = {n for p, t in texts.items() if "specs" in p.parts for n in DEFINED.findall(t)} - parts
    return {n for n in own - goals - foreign if NAME.fullmatch(n)}, specs, parts, own | foreign | goals


def mapping(own, specs, taken):
    words = {snake(n) for n in specs if "-" not in n} | STD
    turned = {}
    for name in sorted(own):
        first, *rest = snake(name).split("-")
        new = first + "".join(("-" if first in words and i == 0 else "_") + r for i, r in enumerate(rest))
        if new != name:
            turned[name] = new
    count = collections.Counter(turned.values())
    for name in sorted(turned):
        new = turned[name]
        if "-" in name and (count[new] > 1 or new in taken):
            kept = snake(name.split("-")[0]) + "-" + "_".join(snake(r) for r in name.split("-")[1:])
            turned[name] = kept
    for name, new in list(turned.items()):
        if new in own and new not in turned:
            turned[new] = new + "_lem"
    turned = {o: n for o, n in turned.items() if o != n}
    back = collections.defaultdict(set)
    for old, new in turned.items():
        back[new].add(old)
    for new, olds in back.items():
        if len(olds) > 1 or (new in taken and new not in turned):
            print("falls together:", new, "<-", *sorted(olds))
    return turned


def respelled(text, turned, parts):
    aliases = set(ALIAS.findall(text))

    def word(m):
        name = m.group(0)
        if name not in turned:
            return name
        before = text[: m.start()]
        if before.endswith("."):
            head = re.search(r"(\w+)\.$", before)
            if name not in parts and not (head and head.group(1) in aliases):
                return name
        return turned[name]

    return TOKEN.sub(word, text)


def main(top, only_list):
    texts = {p: p.read_text(encoding="utf-8") for p in antt_files(top)}
    own, specs, parts, taken = names(top, texts)
    turned = mapping(own, specs, taken)
    if only_list:
        for old, new in sorted(turned.items()):
            print(old, "->", new)
        return
    for p, t in texts.items():
        p.write_text(respelled(t, turned, parts), encoding="utf-8")
    camel = {o: n for o, n in turned.items() if re.search("[A-Z]", o)}
    for p in list(top.glob("crates/*/src/*.rt")) + list(top.glob("crates/*/must-fail/*.edit")):
        lines = p.read_text(encoding="utf-8").split("\n")
        out = [respelled(line, turned if line.lstrip().startswith(("ghost", "ensures", "requires")) else camel, parts) for line in lines]
        p.write_text("\n".join(out), encoding="utf-8")
    for p in list(top.glob("docs/*.md")) + [top / "README.md"]:
        t = p.read_text(encoding="utf-8")
        p.write_text(re.sub(r"`[^`\n]+`", lambda m: respelled(m.group(0), camel, set(camel)), t), encoding="utf-8")


if __name__ == "__main__":
    main(pathlib.Path(".").resolve(), "--list" in sys.argv)
