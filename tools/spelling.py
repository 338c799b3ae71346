#!/usr/bin/env python3
"""Brings the repository's own definitions and lemmas to snake case: a dash between two words becomes an underscore.

usage: python3 tools/spelling.py    at the top of the repository, once, after the toolchain's own port script

Turned are the dashed names that stand in the files of specs/ and the lemma files of proofs/ and that no import brings in
from outside the repository, wherever they stand in specs/, proofs/, src/ and the edits; and the capitals below. Names that
Rattle makes (`returns-in-Ok`) and the functions of src/ have no such names and stay, and so do inputs and outputs, which are
not read. It stops, and writes nothing, where two names would fall together, but for those below that lie apart.
"""

import glob
import re

# what a name is made of
PART = r"[\w'\u2032\u2080-\u209c-]"
NAME = re.compile(rf"(?<!{PART})[^\W\d_]{PART}*")
# names that are more than words joined by dashes, and those that would fall together with another name
OTHERS = {
    "getD-row": "get_or_row",
    "at-X0": "at_x0",
    "at-X0-X1": "at_x0_x1",
    "at-X1": "at_x1",
    "at-X0-a": "at_x0_a",
    "bit-xor": "bit_bit_xor",
    "hex-digit": "hex_digit_of",
    "hex-value": "hex_value_of",
}
# names of methods and clauses of src/, which lie apart from those of definitions and lemmas
APART = {"of_block", "of_constant", "of_name", "of_variable", "return_to_mark", "solved_or_none"}
# capitals that name no type, with the crate that defines them
CAPITALS = {"samples": {"X0": "x0", "X1": "x1"}, "solving": {"N": "normals"}, "tables": {"N": "normals"}}


def files(*patterns):
    return sorted(p for pattern in patterns for p in glob.glob(pattern, recursive=True) if "/out/" not in p)


def read(path):
    with open(path, encoding="utf-8") as f:
        return f.read()


def code_of(line):
    return re.split(r"(?:^|\s)--(?:\s|$)", line)[0]


def library_names():
    """Names that some file imports from outside the repository."""
    own = {p.split("/")[1] for p in files("crates/*/src/*.rt")}
    found = set()
    for p in files("crates/*/specs/**/*.antt", "crates/*/proofs/**/*.antt", "crates/*/src/**/*.rt"):
        for line in read(p).split("\n"):
            m = re.match(r"\s*(?:pub )?(?:ghost )?use ([\w.]+)\.\{(.*)\}", line)
            if m and not any(m.group(1).startswith(f"Rattle.{c}.") for c in own):
                found |= {x.split(" as ")[0].strip() for x in m.group(2).split(",")}
    return found


def own_names(library):
    """Dashed names in definitions and lemmas: files of specs/, and lemma files of proofs/."""
    found = set()
    for p in files("crates/*/specs/**/*.antt", "crates/*/proofs/*.antt"):
        for line in read(p).split("\n"):
            found |= {w for w in NAME.findall(code_of(line)) if re.search(r"[\w'\u2080-\u209c]-\w", w)}
    return found - library


def main():
    library = library_names()
    turned = {w: OTHERS.get(w, w.replace("-", "_")) for w in own_names(library)}
    standing = set()
    for p in files("crates/*/specs/**/*.antt", "crates/*/proofs/**/*.antt", "crates/*/src/**/*.rt"):
        for line in read(p).split("\n"):
            standing |= set(NAME.findall(code_of(line)))
    together = [f"{w} and {new}" for w, new in sorted(turned.items()) if (new in library or new in standing or list(turned.values()).count(new) > 1) and new not in APART]
    if together:
        print("these fall together: " + ", ".join(together))
        return 1
    for p in files("crates/*/specs/**/*.antt", "crates/*/proofs/**/*.antt", "crates/*/src/**/*.rt", "crates/*/must-fail/*.edit"):
        text = read(p)
        capitals = CAPITALS.get(p.split("/")[1], {}) if p.endswith(".antt") else {}

        def turn(m):
            w = m.group(0)
            head = text[text.rfind("\n", 0, m.start()) + 1 : m.start()]
            # in prose a capital is the subject's; in a list of definitions it is the name
            prose = head.lstrip().startswith("--") and head != "--   "
            return turned.get(w) or (w if prose else capitals.get(w, w))

        new = NAME.sub(turn, text)
        if new != text:
            with open(p, "w", encoding="utf-8") as f:
                f.write(new)
    return 0


if __name__ == "__main__":
    raise SystemExit(main())
