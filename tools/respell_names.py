#!/usr/bin/env python3
"""Respells the repository's own definitions and lemmas: words in snake case, types in camel case.

usage: tools/respell_names.py [FOLDER]      (the top of the repository, this folder's parent if none is named)

It reads what specs/ and proofs/ declare, and turns each such name that holds a dash wherever it stands in an .antt or
an .rt file, in comments too: `open-job` becomes `open_job`, `Draft-of` becomes `DraftOf`. A prime becomes an apostrophe.
What the checker makes of the source, as a goal's name, stays, and so does a name that a file imports from the library.
It stops, and writes nothing, if two names would fall together.
Run it once, right after the kit's port.py: in proofs that were mended since, steps as `w.count-is` are the checker's own.
"""

import collections
import pathlib
import re
import sys

NAME = r"[A-Za-z_⊎Σ][A-Za-z0-9_'′⊎]*(?:-[A-Za-z0-9_'′*]+)*"
DECLARED = re.compile(rf"^\s*(?:(?:abbrev|unfoldable|pub) +)*({NAME}(?: +{NAME})*) +:(?=\s)", re.M)
SHAPE = re.compile(rf"\b(?:record|data) +({NAME})")
ALIAS = re.compile(rf" as ({NAME})")
BOUND = re.compile(rf"[(\{{λ] *({NAME}(?: {NAME})*) :")
NAMED = re.compile(rf"\b(?:let|λ) +({NAME}(?: {NAME})*)")
MADE = re.compile(r"(?:returns|then|else|in|loop|if|goal|invariant|decreases)-")
# variables of lemmas, in clauses that give them no type of their own
VARIABLES = "at-is best-is child-at entry-for heads-are count-is mid-are mid-count mid-heads early-not fits-as is-after is-link is-links is-new is-next is-place free-not".split()
# labels of clauses, which the source spells with an underscore
LABELS = re.compile(r"\b(?:requires|ensures|ghost)\s+([a-z]\w*_\w*)\s*[:{=]")


def files(top):
    for kind in ("*.antt", "*.rt"):
        for path in sorted(top.glob("crates/*/*/**/" + kind)):
            if "out" not in path.relative_to(top).parts[2:3]:
                yield path


def is_made(line):
    return re.search(r": +goal\.", line) is not None


def code_of(text):
    return "\n".join(line for line in text.split("\n") if not line.lstrip().startswith("--"))


def respelled(name):
    words = name.replace("′", "'").split("-")
    if name[0].isupper():
        return "".join(word[:1].upper() + word[1:] for word in words)
    return "_".join(words)


def library_names(text):
    names = set()
    for line in re.findall(r"(?m)^(?:ghost )?use (?:Rattle\.std|mathlib|lib|borrow|native|Prim|denote)\b[^\n]*", text):
        names.update(re.findall(NAME, line))
    return names


def table_of(texts):
    names = set(VARIABLES)
    for path, text in texts.items():
        if path.suffix == ".rt":
            names.update(label.replace("_", "-") for label in LABELS.findall(text))
            continue
        code = code_of(text)
        own = [line for line in code.split("\n") if not is_made(line) and not line.startswith("use ")]
        names.update(name for found in DECLARED.findall("\n".join(own)) for name in found.split())
        names.update(SHAPE.findall(code))
        free = ALIAS.findall(code) + [name for line in own for found in BOUND.findall(line) + NAMED.findall(line) for name in found.split()]
        names.update(name for name in free if not MADE.match(name))
    return {name: respelled(name) for name in names if respelled(name) != name}


def turned(text, table):
    keep = library_names(text)

    def one(found):
        name, before = found[0], text[: found.start()]
        if name not in table or name in keep or re.search(r"goal\.$", before):
            return name
        return table[name]

    return re.sub(rf"(?<![A-Za-z0-9_'′-]){NAME}", one, text)


def main():
    top = pathlib.Path(sys.argv[1] if len(sys.argv) > 1 else pathlib.Path(__file__).resolve().parent.parent)
    texts = {path: path.read_text() for path in files(top)}
    table = table_of(texts)
    together = collections.defaultdict(set)
    for old, new in table.items():
        together[new].add(old)
    clash = {new: olds for new, olds in together.items() if len(olds) > 1}
    if clash:
        sys.exit(f"these would fall together: {clash}")
    count = 0
    for path, text in texts.items():
        new = turned(text, table)
        if new != text:
            path.write_text(new)
            count += 1
    print(f"{len(table)} names, {count} files")


if __name__ == "__main__":
    main()
