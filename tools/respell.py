#!/usr/bin/env python3
"""Brings the repository's own definitions and lemmas to one spelling: snake case, as textFits and mark-number to text_fits and mark_number.

usage: tools/respell.py [--list]        at the top of the repository; --list prints old and new names, and writes nothing

A name is the repository's own where a file of specs/ or proofs/ declares it. Types, which begin with a capital, and modules keep their names, and so
does what Rattle makes of the source (goals, F_spec). Where a lemma would have a definition's name, `_lem` is added to the lemma's. In .antt files
code turns, and in comments; in .rt files clauses, `ghost use` items and comments; in edits and pages code spans and lines of text. In comments and
pages a name with a dash turns only inside backquotes, since it may be a word of prose. A second run changes nothing.
"""

import collections
import os
import re
import sys

WORD = re.compile(r"[^\s(){}.;,@\"«»\[\]`|]+")
PIECE = re.compile(r'"(?:[^"\\\n]|\\.)*"|(?<![^\s(){}.;,])--[^\n]*|//[^\n]*')
SPAN = re.compile(r"`[^`\n]+`")
DECLARED = re.compile(
    r"(?m)^[ \t]*((?:(?:abbrev|unfoldable|opaque|pub)[ \t]+)*)([^\s:(){}.,;λ\[\]\"]+)((?:[ \t]*[({][^\n]*?[)}])*)[ \t]*:[ \t]+([^\n]*)"
)
USE = re.compile(r"(?m)^[ \t]*(?:pub[ \t]+)?use[ \t]+(\S+?)\.\{([^}]*)\}")
KEYWORDS = {"let", "in", "where", "elim", "use", "module", "record", "data", "pub", "mod", "_"}
# No lemma, but the constructor beside as_layout.
APART = {"no-plan": "as_no_plan"}
PAGES = ["README.md", "docs", "docs/changes"]


def read(path):
    with open(path, encoding="utf-8") as it:
        return it.read()


def files(*endings):
    for folder, folders, names in os.walk("crates"):
        folders[:] = sorted(f for f in folders if f != "out")
        for name in sorted(names):
            if name.endswith(endings):
                yield os.path.join(folder, name)


def pages():
    for path in PAGES:
        each = [path] if path.endswith(".md") else sorted(os.path.join(path, name) for name in os.listdir(path))
        yield from (one for one in each if one.endswith(".md") and not os.path.basename(one).startswith("PORT"))


def snake(name):
    name = re.sub(r"(?<=[a-z0-9])([A-Z])", lambda m: "_" + m.group(1).lower(), name)
    return re.sub(r"(?<=[^\s-])-(?=[^\s-])", "_", name)


def declared():
    """The lowercase names that a file declares, but for goals, which have Rattle's names."""
    names = set()
    for path in files(".antt"):
        text = re.sub(r"(?<![^\s(){}.;,])--[^\n]*", "", read(path))
        by_hand = path.endswith(("/Proof.antt", "/Answers.antt", "/Invariants.antt"))
        for marks, name, _, kind in DECLARED.findall(text):
            if name in KEYWORDS or not name[0].islower():
                continue
            if by_hand and (kind.startswith(("tie.", "goal.")) or kind.endswith("statement M") or name.endswith("-spec")):
                continue
            names.add(name)
    return names


def table():
    """Old names by their files' words, and new ones, where they differ. Two that fall together are told apart."""
    own = declared()
    together = collections.defaultdict(set)
    for name in own:
        together[snake(name)].add(name)
    out = {}
    for new, olds in together.items():
        for old in olds:
            lemma = "-" in old or (old == new and any("-" not in o and o != old for o in olds))
            target = APART.get(old, new + "_lem") if len(olds) > 1 and lemma else new
            if target != old:
                out[old] = target
    return out


def foreign(text):
    """Names that the file takes from a module that is not the repository's."""
    out = set()
    for path, names in USE.findall(text):
        if not path.startswith("Rattle.") or path.startswith("Rattle.std"):
            out |= {n.strip().split(" as ")[-1] for n in names.split(",")}
    return out


def code(text, names):
    return WORD.sub(lambda m: names.get(m.group(0), m.group(0)), text)


def with_capitals(names):
    """Names that no function of src/ has."""
    return {old: new for old, new in names.items() if re.search("[a-z0-9][A-Z]", old)}


def prose(text, names):
    """A comment or a page: spans turn whole, and elsewhere the names that no prose has."""
    camel = with_capitals(names)
    out, at = [], 0
    for m in SPAN.finditer(text):
        out += [code(text[at : m.start()], camel), code(m.group(0), names)]
        at = m.end()
    return "".join(out) + code(text[at:], camel)


def turned(text, names, in_code):
    out, at = [], 0
    for m in PIECE.finditer(text):
        out.append(code(text[at : m.start()], in_code))
        out.append(m.group(0) if m.group(0).startswith('"') else prose(m.group(0), names))
        at = m.end()
    return "".join(out) + code(text[at:], in_code)


def older(names):
    """For edits and pages, which port.py leaves: what a name was before it, too."""
    new = set(declared()) - set(names) | set(names.values())

    class Table(dict):
        def get(self, word, default=None):
            one = snake(word)
            if one == word:
                return names.get(word, default)
            return next((n for n in ([one + "_lem"] if "-" in word else []) + [one] if n in new), names.get(word, default))

        def items(self):
            return names.items()

    return Table()


def write(path, text, new):
    if new != text:
        with open(path, "w", encoding="utf-8") as it:
            it.write(new)


def main(words):
    names = table()
    if words == ["--list"]:
        for old in sorted(names):
            print(f"{old}\t{names[old]}")
        return 0
    if words:
        print(__doc__)
        return 2
    before = older(names)
    for path in files(".antt", ".rt"):
        text = read(path)
        skip = foreign(text)
        here = {old: new for old, new in names.items() if old not in skip}
        write(path, text, turned(text, here, here if path.endswith(".antt") else with_capitals(here)))
    for path in files(".edit"):
        text = read(path)
        write(path, text, code(text, before))
    for path in pages():
        text = read(path)
        out, at = [], 0
        for m in SPAN.finditer(text):
            out += [text[at : m.start()], code(m.group(0), before)]
            at = m.end()
        write(path, text, "".join(out) + text[at:])
    return 0


if __name__ == "__main__":
    raise SystemExit(main(sys.argv[1:]))
