"""Writes the tables, the sheets and the session of examples/ anew."""

from pathlib import Path

from listing import page
from small import COUNTDOWN, READ, SEVEN, assemble, check, full_sheet, half_sheet, translate

EXAMPLES = Path(__file__).resolve().parent.parent / "examples"

MEAN = (
    "block",
    ("with", ("var", "n", READ), ("var", "left", "n"), ("var", "sum", 0)),
    (
        "do",
        ("while", ("<", 0, "left"), ("do", ("set", "sum", ("+", "sum", READ)), ("set", "left", ("-", "left", 1)))),
        ("out", ("/", "sum", "n")),
    ),
)

PEAK = (
    "block",
    (
        "with",
        ("const", "count", 8),
        ("var", "taken", 1),
        ("var", "best", READ),
        ("fun", "higher", "reading", ("choose", ("<", "best", "reading"), "reading", "best")),
    ),
    (
        "do",
        (
            "while",
            ("<", "taken", "count"),
            ("do", ("set", "best", ("apply", "higher", READ)), ("set", "taken", ("+", "taken", 1))),
        ),
        ("out", "best"),
    ),
)

ALARM = (
    "block",
    ("with", ("const", "limit", 50), ("proc", "judge", "reading", ("out", ("<", "limit", "reading")))),
    ("while", True, ("call", "judge", READ)),
)

HALVE = (
    "block",
    ("with", ("var", "gain", READ), ("proc", "halve", "what", ("set", "what", ("/", "what", 2)))),
    ("do", ("call", "halve", "gain"), ("call", "halve", "gain"), ("out", "gain")),
)

# What is called is a variable.
WRONG_NAME = ("block", ("var", "x", 1), ("call", "x", 2))

PROGRAMS = {"seven": SEVEN, "countdown": COUNTDOWN, "mean": MEAN, "peak": PEAK, "alarm": ALARM, "halve": HALVE}


def write(name, content):
    (EXAMPLES / name).write_bytes(content)


def main():
    for name, program in PROGRAMS.items():
        table = assemble(program)
        nodes = check(table)
        write(f"{name}.tbl", table)
        write(f"{name}.sheet", full_sheet(nodes, translate(nodes)))
        write(f"{name}.txt", f"Program: examples/{name}.tbl, a table\n\n{page(nodes, translate(nodes))}".encode())
    seven = assemble(SEVEN)
    nodes = check(seven)
    sheet = full_sheet(nodes, translate(nodes))
    write("refused/wrong-name.tbl", assemble(WRONG_NAME))
    write("refused/own-child.tbl", seven[:8] + bytes([2, 0, 1, 0, 0, 0, 0, 0]))
    write("refused/cut.tbl", seven[:15])
    write("refused/altered.sheet", sheet[:36] + bytes([8]) + sheet[37:])
    write("refused/half.sheet", half_sheet(nodes))
    write("refused/cut.sheet", sheet[:-8])
    calls = [f"load {assemble(COUNTDOWN).hex()}", "run 52", "report", "run 1", "rewind", "run 1000000", "run 1"]
    lines = ["# the countdown twice: once in two runs, once in one", "feed trace 5", "strip text 16", *calls]
    (EXAMPLES / "countdown.session").write_text("\n".join(lines) + "\n")


if __name__ == "__main__":
    main()
