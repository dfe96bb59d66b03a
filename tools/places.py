#!/usr/bin/env python3
"""Counts the places in crates/*/src of the seven points of docs/DESIGN-PASS.md that concern code.

usage: tools/places.py [-v] [FOLDER]      FOLDER is a checkout (this one by default); -v lists the places

A count is of what a pattern finds and no judgement: the page says which of them are places, and what became of each."""

import collections
import os
import re
import sys

ITEM = r"(?:pub(?:\([a-z]+\))? )?"
INTEGER = r"(?:u8|u16|u32|usize)"

# What is looked for line by line, with comments cut off.
BY_LINE = [
    ("1 enums", rf"^{ITEM}enum [A-Z]"),
    ("1 numbers for a kind, a sort, a code, an end or a refusal", rf"\b(?:kind|sort|code|tag|refusal|end): u8\b"),
    ("1 match arms on number literals", r"^\s*\d+(?:\.\.=\d+)?(?: \| [\d.=]+)*(?: if .*)? =>"),
    ("1 truths as fields or parameters", r"\b[a-z_]+: bool\b"),
    ("3 loops", r"^\s*(?:while |loop \{|for [a-z_]+ in \S*\.\.)"),
    ("4 impls of printing and conversion", r"^impl.*\b(?:fmt::Display|From<|TryFrom<|PartialEq|Ord|Default|Debug)\b"),
    ("4 conversions, comparisons and names as functions", r"\bfn (?:[a-z]+_(?:of|in|words|name)|of|same|same_[a-z]+|to_bytes|number|opcode|operand|words?|name|status|done|told)\("),
    ("6 arrays", r": \[[A-Z][A-Za-z]*; [0-9A-Za-z]+\]"),
    ("6 lengths beside a buffer", rf"^\s*{ITEM}(?:count|used|height|bound|depth|at|left|len|size): (?:usize|u16)\b"),
    ("7 truths and enums that pick a step", r"\b(?:in_words|as_session|job|step|form): (?:bool|&J|&mut J|&Step|Form)\b"),
]


def sources(folder):
    """Each line of each source with its place, and without its comment."""
    root = os.path.join(folder, "crates")
    for base, _, names in sorted(os.walk(root)):
        if os.sep + "src" in base and os.sep + "out" + os.sep not in base:
            for name in sorted(names):
                if name.endswith(".rt"):
                    path = os.path.join(base, name)
                    for number, line in enumerate(open(path), 1):
                        yield os.path.relpath(path, root), number, line.split("//")[0].rstrip()


def functions(folder):
    """Each function's place, name and parameters."""
    text = collections.OrderedDict()
    for path, number, line in sources(folder):
        text.setdefault(path, []).append(line)
    for path, lines in text.items():
        whole = "\n".join(lines)
        for found in re.finditer(r"\bfn ([a-z_0-9]+)(?:<[^(]*>)?\(([^)]*)\)", whole):
            yield path, whole[: found.start()].count("\n") + 1, found[1], [p.split(":")[0].strip(" &\n") for p in found[2].split(",") if ":" in p]


def twins(folder):
    """Names of functions and types that stand in more than one crate, but for those of traits."""
    seen = collections.defaultdict(set)
    for path, number, name, _ in functions(folder):
        if name not in ("new", "main", "from", "fmt", "take", "put", "drop", "try_from", "run", "of", "read", "add"):
            seen[name].add((path.split("/")[0], path, number))
    for path, number, line in sources(folder):
        found = re.match(rf"\s*{ITEM}(?:struct|enum|trait) ([A-Za-z]+)", line)
        if found:
            seen[found[1]].add((path.split("/")[0], path, number))
    return sorted((name, sorted((p, n) for _, p, n in at)) for name, at in seen.items() if len({c for c, _, _ in at}) > 1)


def repeated(folder):
    """Preconditions that stand three times or more, and pairs of parameters that stand in four functions or more."""
    facts, pairs = collections.Counter(), collections.Counter()
    for _, _, line in sources(folder):
        found = re.match(r"\s*requires [a-z]* ?(\{.*\})", line)
        if found:
            facts[found[1]] += 1
    for _, _, _, names in functions(folder):
        for i, a in enumerate(names):
            for b in names[i + 1 :]:
                pairs[a, b] += 1
    return [f"{n} times {f}" for f, n in facts.most_common() if n >= 3], [f"{n} times ({a}, {b})" for (a, b), n in pairs.most_common() if n >= 4]


def main(arguments):
    wordy = "-v" in arguments
    folder = next((a for a in arguments if a != "-v"), os.path.join(os.path.dirname(__file__), ".."))

    def tell(title, places):
        print(f"{len(places):4}  {title}")
        if wordy:
            for place in places:
                print(f"          {place}")

    lines = list(sources(folder))
    counts = [(title, [f"{p}:{n}: {l.strip()}" for p, n, l in lines if re.search(pattern, l)]) for title, pattern in BY_LINE]
    facts, pairs = repeated(folder)
    counts.append(("2 names in more than one crate", [f"{name}: " + ", ".join(f"{p}:{n}" for p, n in at) for name, at in twins(folder)]))
    counts.append(("5 preconditions three times or more", facts))
    counts.append(("5 pairs of parameters in four functions or more", pairs))
    for title, places in sorted(counts):
        tell(title, places)


if __name__ == "__main__":
    main(sys.argv[1:])
