#!/usr/bin/env python3
"""Respells the repository's own definitions, fields and lemmas as today's Rattle spells names.

usage: python3 tools/respell.py [--map]      at the top of the checkout; --map prints the table and writes nothing

It was run once, right after the toolchain's own script had turned the older spelling. A definition or a field is in snake case
(surveyRefusal becomes survey_refusal). In a lemma's name a dash stays between two names of definitions (sum-collect), and any other
dash becomes an underscore (far_far). Where a lemma would fall together with a definition or another name it gets the ending _lem.
Types, modules, constructors of one capital letter, functions of src/ and names that Rattle makes keep their spelling.
"""

import collections
import glob
import re
import sys

SEPARATORS = r"\s(){}\[\],;.`:\"*"
NAME = re.compile(rf"[^{SEPARATORS}]+")
DEFINITION = re.compile(rf"\s*(?:(?:pub|abbrev|unfoldable)\s+)*((?:[^{SEPARATORS}]+\s+)*?[^{SEPARATORS}]+)\s+:\s+(.*)")
IMPORT = re.compile(r"\s*(?:pub |ghost )*use ([\w.+]+)\.\{([^}]*)\}")
CAMEL = re.compile(r"[a-z]\w*[a-z0-9][A-Z]\w*'?$")
MADE = ("tie.", "goal.", "lts.")  # the types of the goals that Rattle names
PROSE = ("README.md", "docs/*.md", "docs/changes/*.md", "crates/*/must-fail/*.edit", "tests/wrong_rules/*")


def read(path):
    with open(path, encoding="utf-8") as f:
        return f.read()


def files(*patterns):
    return sorted(path for pattern in patterns for path in glob.glob(pattern, recursive=True))


def snake(name):
    return re.sub(r"(?<=[a-z0-9])([A-Z])", lambda m: "_" + m[1].lower(), name)


def declared(paths):
    """The names that the files declare, each with its types as they begin on the line."""
    found = collections.defaultdict(list)
    for path in paths:
        for line in read(path).split("\n"):
            if line.lstrip().startswith(("--", "use ", "pub use ")):
                continue
            it = DEFINITION.match(line)
            for name in it[1].split() if it else []:
                found[name].append(it[2])
    return found


def imported(paths):
    """The names that the files take from the toolchain's libraries."""
    found = set()
    for path in paths:
        for line in read(path).split("\n"):
            it = IMPORT.match(line)
            if it and not re.match(r"Rattle\.(?!std\b|core\b)", it[1]):
                found.update(word.split()[0] for word in it[2].split(",") if word.strip())
    return found


def joined(name, words):
    """A lemma's name: a dash stays between two words that are names."""
    parts = name.split("-")
    if "" in parts:
        return name
    out = parts[0]
    for before, after in zip(parts, parts[1:]):
        out += ("-" if before in words and after in words else "_") + after
    return out


def together(files_of, one, other):
    """Whether two names stand in one file."""
    return not files_of[one].isdisjoint(files_of[other])


def table():
    specs = declared(files("crates/*/specs/**/*.antt"))
    proofs = declared(files("crates/*/proofs/**/*.antt"))
    antt = files("crates/*/specs/**/*.antt", "crates/*/proofs/**/*.antt")
    theirs = imported(antt + files("crates/*/src/**/*.rt"))
    files_of = collections.defaultdict(set)
    for path in antt:
        for word in NAME.findall(read(path)):
            files_of[word].add(path)
    words = {snake(name) for name in specs} | theirs
    new = {}
    for name in sorted(specs):
        if CAMEL.match(name) or ("-" in name and name not in theirs):
            new[name] = snake(name).replace("-", "_")
    for name in sorted(proofs):
        made = any(kind.startswith(MADE) for kind in proofs[name])
        if name in new or name in theirs or made:
            continue
        if CAMEL.match(name):
            new[name] = snake(name)
        elif name.endswith("-spec"):
            new[name] = name.replace("-", "_")
        elif "-" in name and name[0] not in "-+":
            new[name] = joined(name, words)
    new = {old: it for old, it in new.items() if old != it}
    for old, it in list(new.items()):
        # a lemma that stands under a definition's new name gives way
        if old in specs and it in proofs and it not in specs and it not in theirs and together(files_of, old, it):
            new[it] = it + "_lem"
    olds = collections.defaultdict(list)
    for old in sorted(new, key=lambda it: ("-" in it, it not in specs, it)):
        stands = new[old] not in new and any(new[old] in names for names in (theirs, specs, proofs))
        others = olds[new[old]] + [new[old]] * stands
        if any(together(files_of, old, other) for other in others):
            new[old] += "_lem"
        olds[new[old]].append(old)
    return new


def turned(text, new, spans):
    """The text with each whole name turned; in prose a name with a dash turns only in a code span."""
    def one(it):
        return new.get(it[0], it[0])

    if not spans:
        return NAME.sub(one, text)
    camel = {old: it for old, it in new.items() if "-" not in old}
    text = NAME.sub(lambda it: camel.get(it[0], it[0]), text)
    return re.sub(r"`[^`\n]*`", lambda it: NAME.sub(one, it[0]), text)


def main():
    new = table()
    if "--map" in sys.argv[1:]:
        print("\n".join(f"{old}\t{it}" for old, it in sorted(new.items())))
        return
    code = files("crates/*/specs/**/*.antt", "crates/*/proofs/**/*.antt", "crates/*/src/**/*.rt")
    for path in code + files(*PROSE):
        text = read(path)
        it = turned(text, new, path not in code)
        if it != text:
            with open(path, "w", encoding="utf-8") as f:
                f.write(it)


if __name__ == "__main__":
    main()
