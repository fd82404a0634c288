#!/usr/bin/env python3
"""Spells this repository's own definitions and lemmas as today's Rattle does, by respell.tsv beside this file.

usage: tools/respell.py [FOLDER]     at the top of a checkout that port.py has turned; run once

A row of the table is an old name, a tab, a new name. Whole words turn in specs/ and proofs/, and in the clauses and
'ghost use' items of src/; comments, strings and the code of src/ stay. In a file that imports a name of the table from a
library of the kit, that name stays. In the answers of a function the names that Rattle makes of the source's own names
get these names' underscores (write-front is write_front). The image of the table P of the worked examples is image_p.
"""

import os
import re
import sys

HERE = os.path.dirname(os.path.realpath(__file__))
WORD = re.compile(r"[^\s(){}.;,@\"«»]+")
USE = re.compile(r"use ([^\s;{]+)(?:\{([^}]*)\})?")
KIT = re.compile(r"(?!Rattle\.)|Rattle\.(core|std|std_alloc|std_collections|std_heap|std_io)\b")
MADE = "copy_from_slice from_be_bytes to_be_bytes saturating_add saturating_sub checked_add checked_mul from_str_radix is_empty split_at split_at_mut is_some is_none from_fn unwrap_or"


def table():
    with open(os.path.join(HERE, "respell.tsv"), encoding="utf-8") as f:
        return dict(line.rstrip("\n").split("\t") for line in f)


def files(top, suffix, folders):
    for crate in sorted(os.listdir(os.path.join(top, "crates"))):
        for part in folders:
            for folder, _, names in os.walk(os.path.join(top, "crates", crate, part)):
                for name in sorted(names):
                    if name.endswith(suffix):
                        yield crate, os.path.join(folder, name)


def of_kit(text):
    names = set()
    for path, items in USE.findall(text):
        if KIT.match(path):
            names.update(WORD.findall(items))
    return names


def source_names(top, crate):
    names = set(MADE.split())
    for _, path in files(top, ".rt", ["src"]):
        with open(path, encoding="utf-8") as f:
            names.update(re.findall(r"\b[A-Za-z0-9]+(?:_[A-Za-z0-9]+)+\b", f.read()))
    return sorted(names, key=lambda n: (-len(n), n))


def respell(text, rows, keep):
    return WORD.sub(lambda m: rows[m[0]] if m[0] in rows and m[0] not in keep else m[0], text)


def underscored(text, names):
    def turn(m):
        word = m[0]
        for name in names:
            dashed = name.replace("_", "-")
            if dashed in word:
                word = re.sub(rf"(?<![A-Za-z0-9_]){re.escape(dashed)}(?![A-Za-z0-9_])", name, word)
        return word

    return WORD.sub(turn, text)


def antt(text, rows, names):
    keep = of_kit(text)
    lines = []
    for line in text.split("\n"):
        code, mark, note = (line, "", "") if not re.search(r"(^|\s)-- ", line) else re.split(r"((?:^|(?<=\s))-- )", line, maxsplit=1)
        code = respell(code, rows, keep)
        if names and not code.startswith("use Rattle.std"):
            code = underscored(code, names)
        lines.append(code + mark + note)
    return "\n".join(lines)


def clauses(text, rows):
    """The clauses and 'ghost use' items of a source file: from the word to the brace that closes it."""
    keep = of_kit(text)
    out, at = [], 0
    head = re.compile(r"\bghost use [^;]*;|\b(?:requires|ensures)\*? *(?:\w+ *)?\{|\bghost \w+ *[:=] *\{")
    while True:
        m = head.search(text, at)
        if not m:
            return "".join(out) + text[at:]
        end = m.end()
        if m[0].endswith("{"):
            depth = 1
            while depth:
                depth += {"{": 1, "}": -1}.get(text[end], 0)
                end += 1
        out += [text[at : m.start()], respell(text[m.start() : end], rows, keep)]
        at = end


def main(top):
    rows = table()
    for crate, path in list(files(top, (".rt", ".antt"), ["src", "specs", "proofs"])):
        with open(path, encoding="utf-8") as f:
            old = f.read()
        own = rows | ({"P": "image_p"} if crate == "worked" else {})
        if path.endswith(".rt"):
            new = clauses(old, own)
        else:
            answers = re.search(r"/proofs/.*/(Answers|Invariants|Choices|Proof)\.antt$", path)
            new = antt(old, own, source_names(top, crate) if answers else None)
        if new != old:
            with open(path, "w", encoding="utf-8") as f:
                f.write(new)


if __name__ == "__main__":
    main(sys.argv[1] if len(sys.argv) > 1 else ".")
