#!/usr/bin/env python3
"""Lists the places of the older forms in crates/*/src, for docs/DESIGN-PASS.md.

    tools/places.py [FOLDER] [POINT]      FOLDER is a checkout (default: this one); POINT prints the places of one point
"""
import glob
import os
import re
import sys

LINES = {
    "1": [
        ("a value handed out beside a flag", r"row: &mut Row"),
        ("a refusal in an Option", r"Option<Refusal>"),
        ("a number for a kind, a form, a choice or a refusal",
         r"\b(form|phase|kind|choice|condition): u8\b(?!::)|fn (form|verdict)\b.*-> u8|const (KIND|GO_BACK): u8"),
        ("an arm or an else that only hands a None or an Err on",
         r"(None|Err\(\w+\)) => (None|Err\(|at,|0,|1,|false,|return )|else \{ return (None|Err)|Err\(_\) => self\.\w+ = None"),
    ],
    "3": [("a loop over a range, or a while", r"for \w+ in 0\.\.|\bwhile ")],
    "4": [
        ("a cast", r" as (u8|u16|u32|u64|usize|i32|i64)\b"),
        ("bytes of a number by arithmetic", r"/ 256|\* 256|% 256|% 65536"),
        ("a row of zeros by name, an emptiness by length", r"Row::EMPTY|\.len\(\) (==|>|!=) 0"),
        ("a kind or a refusal printed by hand", r"=> \"(row|busy|end)\"|fn (print_refusal|plain|naming)\b"),
    ],
}

# parameters that travel together: names that stand in one signature, or in one struct
GROUPS = [
    ("cell", "condition", "constant"),
    ("start", "step", "count"),
    ("form", "count"),
    ("back", "choices"),
    ("choices", "keepers"),
    ("buffer", "at"),
    ("outer_width", "inner_width"),
    ("width", "row"),
    ("size", "width"),
]


def files(root):
    return sorted(glob.glob(os.path.join(root, "crates/*/src/*.rt")))


def lines(root, pattern):
    for path in files(root):
        with open(path) as f:
            for number, line in enumerate(f, 1):
                if re.search(pattern, line) and not line.lstrip().startswith("//"):
                    yield f"{os.path.relpath(path, root)}:{number}: {line.strip()}"


def signatures(root):
    """Each function with its parameters, and each struct with its fields."""
    for path in files(root):
        with open(path) as f:
            text = f.read()
        for m in re.finditer(r"\bfn (\w+)[^(]*\(([^)]*)\)|\bstruct (\w+)[^{;(]*\{([^}]*)\}", text):
            name = m.group(1) or m.group(3)
            parts = m.group(2) or m.group(4) or ""
            yield os.path.relpath(path, root), name, parts, bool(m.group(3))


def travelling(root):
    for group in GROUPS:
        for path, name, parts, _ in signatures(root):
            names = re.findall(r"(\w+): ", parts)
            if all(n in names for n in group):
                yield f"{', '.join(group)}: {path} {name}"


def buffers(root):
    for path, name, parts, is_struct in signatures(root):
        if is_struct and re.search(r": \[[^\]]*;", parts) and re.search(r": usize", parts):
            yield f"{path} {name}"


def steps(root):
    return lines(root, r"=> \w+\.step\(")


def proof_lines(root):
    total = 0
    for folder in ("proofs", "specs"):
        for path in glob.glob(os.path.join(root, f"crates/*/{folder}/**/*.antt"), recursive=True):
            with open(path) as f:
                total += sum(1 for _ in f)
    return total


def main():
    root = sys.argv[1] if len(sys.argv) > 1 else os.path.join(os.path.dirname(__file__), "..")
    point = sys.argv[2] if len(sys.argv) > 2 else None
    found = [(p, what, list(lines(root, pattern))) for p, kinds in LINES.items() for what, pattern in kinds]
    found += [("5", "parameters or fields that travel together", list(travelling(root)))]
    found += [("6", "a struct of a fixed buffer and a length", list(buffers(root)))]
    found += [("7", "a match that chooses whose step to run", list(steps(root)))]
    for p, what, places in sorted(found):
        if point in (None, p):
            print(f"{p}  {len(places):3}  {what}")
            if point:
                print("".join(f"        {place}\n" for place in places), end="")
    if point in (None, "8"):
        print(f"8  {proof_lines(root):5} lines of specs/ and proofs/")


main()
