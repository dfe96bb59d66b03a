#!/usr/bin/env python3
"""Respells this repository's own definitions and lemmas as today's Rattle spells them: words in snake case, a dash only where it joins two names.

usage: python3 tools/respell.py [ROOT]    once, after /opt/rattle/port/port.py; where no old name stands it changes nothing

respell.txt, beside this script, has the pairs of names. In .antt files each name is turned wherever it stands as a word or as a field;
in .rt files only in ghost lines and clauses. Functions of src/, strings and exported names keep theirs.
"""

import os
import re
import sys

HERE = os.path.dirname(os.path.realpath(__file__))
# lemmas that would fall together with a definition, in the crates that have them
ONLY_IN = {"code_lines": "listing", "item_in": "notation", "read_word": "ports"}
WORD = re.compile(r'"[^"\n]*"|[^\s(){};,."]+')
CLAUSE = re.compile(r"^\s*(ghost|requires|ensures|pub ghost)\b")


def pairs():
    with open(os.path.join(HERE, "respell.txt"), encoding="utf-8") as f:
        return dict(line.split() for line in f)


def respelled(text, names):
    return WORD.sub(lambda m: names.get(m.group(0), m.group(0)), text)


def antt(text, names):
    out = []
    for line in text.split("\n"):
        body, dash, comment = line.partition("-- ") if line.lstrip().startswith("-- ") else (line, "", "")
        out.append(respelled(body, names) + dash + comment)
    return "\n".join(out)


def rust(text, names):
    camel = {a: b for a, b in names.items() if re.fullmatch(r"[a-z][a-z0-9]*[A-Z]\w*", a)}
    out = []
    for line in text.split("\n"):
        if CLAUSE.match(line):
            line = respelled(line, names)
        elif not line.lstrip().startswith("//"):
            line = respelled(line, camel)
        out.append(line)
    return "\n".join(out)


def is_older(root, names):
    """Whether a definition in camel case still stands: a second run would turn some names again."""
    camel = {a for a in names if re.fullmatch(r"[a-z][a-z0-9]*[A-Z]\w*", a)}
    for folder, dirs, files in os.walk(os.path.join(root, "crates")):
        dirs[:] = [d for d in dirs if d != "out"]
        for name in files:
            if name.endswith(".antt"):
                with open(os.path.join(folder, name), encoding="utf-8") as f:
                    if camel & set(WORD.findall(f.read())):
                        return True
    return False


def main(argv):
    root = argv[0] if argv else "."
    names = pairs()
    if not is_older(root, names):
        print("respell: no old name stands here, nothing to do")
        return
    for crate in sorted(os.listdir(os.path.join(root, "crates"))):
        own = {a: b for a, b in names.items() if ONLY_IN.get(a, crate) == crate}
        for folder, dirs, files in os.walk(os.path.join(root, "crates", crate)):
            dirs[:] = [d for d in dirs if d != "out"]
            for name in files:
                turn = antt if name.endswith(".antt") else rust if name.endswith(".rt") else None
                if turn is None:
                    continue
                path = os.path.join(folder, name)
                with open(path, encoding="utf-8") as f:
                    old = f.read()
                new = turn(old, own)
                if new != old:
                    with open(path, "w", encoding="utf-8") as f:
                        f.write(new)


if __name__ == "__main__":
    main(sys.argv[1:])
