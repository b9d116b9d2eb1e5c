#!/usr/bin/env python3
"""Brings the names that this repository gives its own definitions and lemmas to the spelling of today's Rattle.

usage: tools/respell.py        at the top of the repository, with everything committed

A word is in snake case: `isOneOf` becomes `is_one_of`. A dash joins two names that are defined somewhere, as in `length-listed`; where one of the two is a
plain word the dash becomes `_`, as in `ratio_narrow`. Types, modules and facts keep their capitals. Names that would fall together with another keep their
old spelling, and are printed. Functions of src/, strings, inputs and outputs are not touched. It was run once, right after the toolchain's own script, on the
commit that docs/PORT.md names, where each function's proof was one file; it is kept so that what it did can be had again there, and is not for the tree of today.
"""
import collections
import os
import re
import sys

WORD = r"[^\s(){}\[\].;,@\"`:«»\\]+"
TOKEN = re.compile(r"\"(?:[^\"\\\n]|\\.)*\"|" + WORD)
DECL = re.compile(r"^(\s*)((?:(?:pub|abbrev|unfoldable)\s+)*)(" + WORD + r")\s*:\s")
TYPE = re.compile(r"^(\s*)(?:(?:pub|abbrev|unfoldable)\s+)*(record|data)\s+(" + WORD + r")")
# names of the library that lemmas here are about
STD = set(
    "length get_or get set take drop append map sum min max add sub mul div mod suc le lt eq ne not and or nat_abs to_z of_z to_nat "
    "le_z lt_z eqb leb ltb cond pos negsuc zero one bit_and bit_or slice_set slice_index".split()
)


def files(*kinds):
    for folder, dirs, names in os.walk("crates"):
        dirs[:] = sorted(d for d in dirs if d not in ("out", "data", "must-fail"))
        for name in sorted(names):
            if name.endswith(kinds):
                yield os.path.join(folder, name)


def read(path):
    with open(path, encoding="utf-8") as it:
        return it.read()


def declared():
    """The names that the files of specs/ and proofs/ declare: what is defined, and what is a lemma."""
    defined, lemmas = collections.Counter(), collections.Counter()
    for path in files(".antt"):
        if path.endswith("Proof.antt"):
            continue
        inside = None
        for line in re.sub(r"--[^\n]*", "", read(path)).split("\n"):
            m = TYPE.match(line)
            if m:
                inside = len(m.group(1))
                defined[m.group(3)] += 1
                continue
            m = DECL.match(line)
            if m:
                if inside is not None and len(m.group(1)) > inside:
                    defined[m.group(3)] += 1
                    continue
                inside = None
                (defined if "abbrev" in m.group(2) or "unfoldable" in m.group(2) else lemmas)[m.group(3)] += 1
            elif line.strip() and not line.startswith(" "):
                inside = None
    return defined, lemmas


def snake(name):
    if not name[0].islower():
        return name
    name = re.sub(r"(?<![\w])getD(?!\w)", "get_or", name)
    name = re.sub(r"([a-z0-9])([A-Z])(?=[A-Z]|$|[-'])", lambda m: m.group(1) + "_" + m.group(2).lower(), name)
    return re.sub(r"([a-z0-9])([A-Z])", lambda m: m.group(1) + "_" + m.group(2).lower(), name)


def plan():
    defined, lemmas = declared()
    to = {}
    for name in defined:
        new = snake(name)
        if name[0].islower() and "-" in new and re.fullmatch(r"[\w'-]+", new):
            new = new.replace("-", "_")
        to[name] = new
    known = set(to.values()) | STD
    for name in lemmas:
        if name in to:
            continue
        new = snake(name)
        if "-" in new and re.fullmatch(r"[\w'-]+", new):
            parts = new.split("-")
            out = parts[0]
            for before, after in zip(parts, parts[1:]):
                out += ("-" if before in known and after in known else "_") + after
            new = out
        to[name] = new
    return {a: b for a, b in to.items() if a != b}


def main():
    to = plan()
    texts = {p: read(p) for p in files(".antt", ".rt")}
    # the words that stand alone: what is bound or declared in .antt files, and the parameters and fields of src/. A function of src/ may share a word's name.
    there = set()
    for path, text in texts.items():
        if path.endswith(".rt"):
            there.update(re.findall(r"(?m)^(?!\s*//).*?\b([a-z]\w*): ", text) + re.findall(r"[(,] ?([a-z]\w*): ", text))
        elif not path.endswith("Proof.antt"):
            text = re.sub(r"(?m)^use .*$|--[^\n]*", "", text)
            there.update(m.group(0) for m in TOKEN.finditer(text) if text[m.start() - 1 : m.start()] != ".")
    words = [set(TOKEN.findall(text)) for text in texts.values()]
    defined, _ = declared()
    wants = collections.defaultdict(list)
    for a, b in to.items():
        wants[b].append(a)
    for b, names in sorted(wants.items()):
        # of several, the first definition in camel case has the name
        first = sorted(names, key=lambda a: (a not in defined, "-" in a, a))[0] if b not in there else None
        for a in names:
            # the others too, where no file has both
            if a != first and any(a in has and (b in has or any(n in has for n in names if n != a)) for has in words):
                print(f"kept: {a} (there is another {b})")
                del to[a]

    def turned(text):
        return TOKEN.sub(lambda m: to.get(m.group(0), m.group(0)), text)

    for path, text in texts.items():
        if turned(text) != text:
            with open(path, "w", encoding="utf-8") as it:
                it.write(turned(text))
    # the documents cite names between backticks
    for folder in (".", "docs", "docs/requests", "second"):
        for name in sorted(os.listdir(folder)) if os.path.isdir(folder) else []:
            if name.endswith(".md"):
                path = os.path.join(folder, name)
                text = read(path)
                new = re.sub(r"`[^`\n]+`", lambda m: turned(m.group(0)), text)
                if new != text:
                    with open(path, "w", encoding="utf-8") as it:
                        it.write(new)
    print(f"{len(to)} names")


if __name__ == "__main__":
    sys.exit(main())
