#!/usr/bin/env python3
"""Spells the repository's own definitions and lemmas as the library does, after port.py.

usage: python3 tools/spell.py [--list]      at the top of the checkout

Words in snake case, types in upper camel case; a dash stays only where it joins the names of two definitions, after which a lemma is called.
Names of Rust source, names that the check makes (goals, steps, places) and names of the libraries stay. --list prints the pairs and writes nothing.
A file in which two names would fall together is named, and nothing is written.
"""

import os
import re
import sys

ROOT = "crates"
HEAD = re.compile(r"^(\s*)(?:(?:unfoldable|abbrev|pub|pattern)\s+)*([^\s:(){}\[\],.;@\"]+)((?:\s+[^\s:(){}\[\],.;@\"]+)*)\s+:\s(.*)$")
TOKEN = re.compile(r"[^\s(){}\[\],.;:@\"`/|\\]+")
CAMEL = re.compile(r"^[a-z][a-z0-9]*(?:[A-Z0-9][A-Za-z0-9]*)+$")
# Words of the library after which lemmas are called.
LIBRARY = "length take drop append map set get_or add mul sub div mod pow min max".split()
# Facts, which are types.
BY_HAND = {"activation": "Activation", "completion": "Completion", "instanceStarts": "InstanceStarts"}
# Names that an import gives a definition (use .. as ..), and names that stand in comments alone.
ELSEWHERE = "numbersAt overtakesOf narrowOf everyoneOf countOf closedOf rowOf firstOf".split()
# A function that is called as a type is, in one crate, whose letter is a variable elsewhere.
IN_CRATE = {"worked": {"P": "p"}}


def files(ends):
    for folder, dirs, names in os.walk(ROOT):
        dirs[:] = sorted(d for d in dirs if d not in ("out", "must-fail"))
        for name in sorted(names):
            if name.endswith(ends):
                yield os.path.join(folder, name)


def declared():
    """Names that the .antt files declare; those whose type the check makes, or that prove a function whole, apart."""
    own, made, words = set(), set(), set()
    for path in files(".antt"):
        with open(path, encoding="utf-8") as f:
            for line in f:
                if line.startswith(("use ", "--", "module", "mod ", "pub mod")):
                    continue
                m = HEAD.match(line)
                if not m:
                    continue
                name, kind = m.group(2), m.group(4)
                if kind.startswith(("tie.", "goal.", "lts.", "steps.")) or kind.startswith("{M : Type 1}") or name.startswith(("invariant-", "decreases-")):
                    made.add(name)
                elif not m.group(1) or "=" not in line:
                    own.add(name)
                    if "/specs/" in path and not m.group(1):
                        words.add(name)
    return own - made | {n for n in own & made if CAMEL.match(n)}, words


def snake(word):
    return re.sub(r"(?<=[A-Za-z0-9])([A-Z])", lambda m: "_" + m.group(1).lower(), word)


def spelled(name, words):
    if name in BY_HAND:
        return BY_HAND[name]
    parts = name.split("-")
    out = snake(parts[0]) if CAMEL.match(parts[0]) else parts[0]
    for before, part in zip(parts, parts[1:]):
        out += ("-" if before in words and part in words else "_") + (snake(part) if CAMEL.match(part) else part)
    return out


def functions():
    """Names of Rust functions and crates, which a definition may share."""
    out = set(os.listdir(ROOT))
    for path in files(".rt"):
        with open(path, encoding="utf-8") as f:
            out |= set(re.findall(r"\bfn (\w+)", f.read()))
    return out


def pairs():
    """Old and new names. A lemma that would be spelled as a definition is ends in _lem."""
    own, words = declared()
    words |= set(LIBRARY)
    table = {n: spelled(n, words) for n in sorted(own) if CAMEL.match(n) or "-" in n or n in BY_HAND}
    meant = {new for old, new in table.items() if "-" not in old}
    for name in sorted(own):
        if table.get(name, name) in meant and ("-" in name or name not in table):
            table[name] = table.get(name, name) + "_lem"
    table |= {name: snake(name) for name in ELSEWHERE}
    return {old: new for old, new in table.items() if old != new}


def turn(text, table, seen):
    def one(m):
        word = m.group(0)
        at = m.start()
        comment = re.search(r"(?:^|\s)(?:--|//)", text[text.rfind("\n", 0, at) + 1:at])
        if word not in table or comment and word in BY_HAND:
            seen.setdefault(word, set()).add(word)
            return word
        if "-" in word and at and text[at - 1] == "." and not re.search(r"[A-Z]\w*\.$", text[:at]):
            return word
        seen.setdefault(table[word], set()).add(word)
        return table[word]

    return TOKEN.sub(one, text)


def main(argv):
    table, shared = pairs(), functions()
    if "--list" in argv:
        print("\n".join(f"{a}\t{b}" for a, b in table.items()))
        return 0
    changed, together = {}, []
    for path in files((".antt", ".rt")):
        with open(path, encoding="utf-8") as f:
            text = f.read()
        seen = {}
        new = turn(text, table | IN_CRATE.get(path.split(os.sep)[1], {}), seen)
        together += [f"{path}: {sorted(olds)} would both be {word}" for word, olds in sorted(seen.items()) if len(olds) > 1 and word not in shared]
        if new != text:
            changed[path] = new
    for line in together:
        print(line)
    if together and "--anyway" not in argv:
        return 1
    for path, new in changed.items():
        with open(path, "w", encoding="utf-8") as f:
            f.write(new)
    print(f"{len(table)} names, {len(changed)} files")
    return 0


if __name__ == "__main__":
    raise SystemExit(main(sys.argv[1:]))
