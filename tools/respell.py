#!/usr/bin/env python3
"""Brings the names of our own definitions and lemmas to one spelling: words in snake case, facts and records in camel case.

usage: python3 tools/respell.py [--list]     at the top of the repository; --list prints the new names and changes nothing

It ran once, when the repository was brought to a newer Rattle. A name is ours if a file of specs/ or proofs/ declares it and
it is no answer to a goal; names of the library, of goals and of the code stay, and so do comments and strings.
"""

import collections
import glob
import re
import sys

WORD = r"[^\s(){}\[\];,.\"@]+"
DECLARED = re.compile(r"^\s*(?:(?:abbrev|unfoldable|pub|data|record|ruleset|deriving) )*(" + WORD + r")\s*(?:\s*[({].*?[)}])*\s*:\s(?:\s*goal\.)?")
GOAL = re.compile(r"^\s*(?:(?:abbrev|unfoldable|pub) )*" + WORD + r"\s*:\s*goal\.")
BOUND = re.compile(r"[({]((?:" + WORD + r" )+): ")
LOCAL = re.compile(r"\blet (" + WORD + r") [:=]|λ ((?:" + WORD + r" )*" + WORD + r")\.")
LIBRARY = re.compile(r"^use Rattle\.(?:std|proofs|core)\b[^{]*\{(.*)\}")


# Names that would be the library's own, and what they are called instead.
OTHERWISE = {"bit-and": "bit_of_and", "bit-or": "bit_of_or"}


def files():
    return sorted(glob.glob("crates/*/specs/**/*.antt", recursive=True) + glob.glob("crates/*/proofs/**/*.antt", recursive=True) + glob.glob("crates/*/src/**/*.rt", recursive=True))


def respelled(name):
    if name in OTHERWISE:
        return OTHERWISE[name]
    if name[0].isupper():
        return "".join(part[:1].upper() + part[1:] for part in name.split("-"))
    name = name.replace("getD", "get_or")
    name = re.sub(r"(?<=[a-z])([A-Z])", lambda m: "_" + m.group(1).lower(), name)
    return name.replace("-", "_")


def turns(name):
    return name[0].isalpha() and (("-" in name) or (name[0].islower() and re.search(r"[a-z][A-Z]", name)))


def declared():
    own, library = set(), set()
    for path in files():
        if path.endswith(".rt"):
            continue
        for line in open(path, encoding="utf-8"):
            if line.lstrip().startswith("--"):
                continue
            imported = LIBRARY.match(line)
            if imported:
                library |= {w for n in imported.group(1).split(", ") for w in n.split(" as ")[:1]}
                continue
            if GOAL.match(line):
                continue
            found = DECLARED.match(line)
            if found:
                own.add(found.group(1))
            for names in BOUND.findall(line):
                own |= set(names.split())
            for one, several in LOCAL.findall(line):
                own |= {one} | set(several.split())
    return {n for n in own - library if n and turns(n)}


def parts(path, text):
    """The text in pieces, each with whether names are sought in it."""
    comment = r"//[^\n]*" if path.endswith(".rt") else r"--[^\n]*"
    at = 0
    for m in re.finditer(comment + r"|b?\"(?:[^\"\\]|\\.)*\"", text):
        yield text[at : m.start()], True
        yield m.group(), False
        at = m.end()
    yield text[at:], True


def main(argv):
    new = {n: respelled(n) for n in declared()}
    together = collections.defaultdict(set)
    for n, m in new.items():
        together[m].add(n)
    for m, names in sorted(together.items()):
        if len(names) > 1:
            print(f"fall together: {' '.join(sorted(names))} as {m}")
    if "--list" in argv:
        for n, m in sorted(new.items()):
            print(f"{n} {m}")
    for path in files():
        text = open(path, encoding="utf-8").read()
        present = {w for piece, sought in parts(path, text) if sought for w in re.findall(WORD, piece)}
        for n in sorted(present & set(new)):
            if new[n] in present:
                print(f"look: {path}: {n} becomes {new[n]}, which stands there already")
        turned = "".join(re.sub(r"(?<!goal\.)(?<!\bc\.)" + WORD, lambda m: new.get(m.group(), m.group()), piece) if sought else piece for piece, sought in parts(path, text))
        if turned != text and "--list" not in argv:
            open(path, "w", encoding="utf-8").write(turned)
    return 0


if __name__ == "__main__":
    raise SystemExit(main(sys.argv[1:]))
