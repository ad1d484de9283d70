#!/usr/bin/env python3
"""Brings the repository's own names to the kit's spelling, once, right after the kit's port.py: definitions, laws, fields and variables in snake case.

    python3 tools/port/respell.py      at the top of the repository

names.txt has a line for each name: the old one, the new one. Where a law would get the name of the definition that it is about, it ends in _lem. What a file
takes from a library keeps its name there. Functions of src/, types, exported C names, strings, inputs and outputs are not in the list.
"""
import glob
import os
import re

HERE = os.path.dirname(os.path.abspath(__file__))
NAME = r"[A-Za-z_ℕℤ][\w'₀-₉?!]*(?:-[\w'₀-₉?!]+)*"
# laws that port.py itself had put into snake case, in the files that see them beside the definition
LAWS = [
    ("agreement/proofs/ReadNumbers.antt", "by_code"),
    ("agreement/proofs/ReadNumbers.antt", "to_end"),
    ("lines/proofs/IdsReadBack.antt", "is_digit"),
    ("command_bytes/proofs/Padded.antt", "no_test"),
    ("convert/proofs/command/convert_tests/Proof.antt", "no_test"),
    ("robot/proofs/", "not_written"),
    ("moving/proofs/OldReads.antt", "head_read"),
    ("matrix_records/proofs/ReadBack.antt", "head_read"),
    ("matrix_bytes/proofs/read/read_matrix_by_head/Proof.antt", "head_read"),
    ("model/proofs/HeldLaws.antt", "place_ok"),
    ("moving/proofs/Moving.antt", "there_and_back"),
]


def crates():
    lines = open("crates.txt", encoding="utf-8").read().split("\n")
    return {line.split(":")[0].split()[0] for line in lines if ":" in line and not line.startswith("#")}


def from_libraries(text, own):
    names = set()
    for path, group in re.findall(r"^\s*(?:ghost )?use ([^\s{;]+?)\.\{([^}]*)\}", text, re.M):
        parts = path.split(".")
        if not (parts[0] == "Rattle" and len(parts) > 1 and parts[1] in own):
            names |= {item.strip().split(" as ")[-1].strip() for item in group.split(",")}
    return names


def respelled(line, names, kept):
    def one(m):
        word = m.group(0)
        return word if word in kept else names.get(word, word)

    return re.sub(NAME, one, line)


def quoted(line, names, kept):
    return re.sub(r"`[^`]*`", lambda m: respelled(m.group(0), names, kept), line)


def turn_antt(path, names, own):
    text = open(path, encoding="utf-8").read()
    kept = from_libraries(text, own)
    laws = [law for at, law in LAWS if at in path]
    out = []
    for line in text.split("\n"):
        # a law first, by its present name, where it stands for itself and is no part of a path
        for law in laws:
            if not line.lstrip().startswith("--"):
                line = re.sub(r"(?<![\w.'-])" + law + r"(?![\w'-])", law + "_lem", line)
        comment = line.lstrip().startswith("--")
        out.append(quoted(line, names, kept) if comment else respelled(line, names, kept))
    write(path, text, "\n".join(out))


def turn_source(path, names):
    text = open(path, encoding="utf-8").read()
    out = []
    for line in text.split("\n"):
        if line.lstrip().startswith("//"):
            out.append(quoted(line, names, set()))
        else:
            parts = re.split(r'("(?:[^"\\]|\\.)*")', line)
            out.append("".join(p if i % 2 else respelled(p, names, set()) for i, p in enumerate(parts)))
    write(path, text, "\n".join(out))


def turn_edit(path, names):
    text = open(path, encoding="utf-8").read()
    out = []
    for line in text.split("\n"):
        out.append(respelled(line, names, set()) if re.match(r"(old|new): ", line) else quoted(line, names, set()))
    write(path, text, "\n".join(out))


def turn_page(path, names):
    text = open(path, encoding="utf-8").read()
    write(path, text, re.sub(r"`[^`\n]*`", lambda m: quoted(m.group(0), names, set()), text))


def write(path, old, new):
    if new != old:
        open(path, "w", encoding="utf-8").write(new)


def main():
    pairs = [line.split() for line in open(os.path.join(HERE, "names.txt"), encoding="utf-8") if line.strip()]
    names = dict(pairs)
    # only words that can't be meant otherwise are turned in source, edits and pages
    camel = {old: new for old, new in pairs if re.search("[a-z0-9][A-Z]", old)}
    own = crates()
    for path in sorted(glob.glob("crates/*/specs/**/*.antt", recursive=True) + glob.glob("crates/*/proofs/**/*.antt", recursive=True)):
        turn_antt(path, names, own)
    for path in sorted(glob.glob("crates/*/src/**/*.rt", recursive=True)):
        turn_source(path, camel)
    for path in sorted(glob.glob("crates/*/must-fail/*.edit")):
        turn_edit(path, camel if "file: src/" in open(path, encoding="utf-8").read() else names)
    for path in ["README.md"] + sorted(glob.glob("docs/**/*.md", recursive=True)):
        turn_page(path, camel)


main()
