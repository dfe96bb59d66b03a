"""Trials of large tables, deep trees and long takes."""

from small import READ, SEVEN, Node, RecordStrip, assemble, table_of
from writer import Trial, heading

MOST_NODES = 512


def nested(levels, leaf, wrap):
    program = leaf
    for level in range(levels):
        program = wrap(program, level)
    return program


def most_levels(leaf, wrap, finish=lambda program: program):
    """The program of the most levels that has at most 512 nodes."""
    levels = 0
    while len(assemble(finish(nested(levels + 1, leaf, wrap)))) <= 8 * MOST_NODES:
        levels += 1
    return finish(nested(levels, leaf, wrap))


def carried(name, program, feed=(), space=600, fuel=1_000_000):
    with Trial(name, feed, RecordStrip(space)) as trial:
        trial.load(program)
        trial.sum()
        trial.run(fuel)


def deep():
    heading("as deep as 512 nodes allow")
    one = ("out", 1)
    calls = ("block", ("fun", "f", "y", ("+", "y", 1)))
    chains = {
        "functions": (0, lambda inner, _: ("apply", "f", inner), lambda program: (*calls, ("out", program))),
        "operations-right": (0, lambda inner, _: ("+", 1, inner), lambda program: ("out", program)),
        "operations-left": (0, lambda inner, _: ("+", inner, 1), lambda program: ("out", program)),
        "choices-test": (True, lambda inner, level: ("choose", inner, level % 2 == 0, level % 2 == 1), lambda program: ("out", program)),
        "choices-then": (0, lambda inner, level: ("choose", True, inner, level), lambda program: ("out", program)),
        "choices-else": (0, lambda inner, level: ("choose", False, level, inner), lambda program: ("out", program)),
        "ifs-then": (one, lambda inner, _: ("if", True, inner, SEVEN), lambda program: program),
        "ifs-else": (one, lambda inner, _: ("if", False, SEVEN, inner), lambda program: program),
        "whiles": (one, lambda inner, _: ("while", False, inner), lambda program: program),
        "blocks": (("out", "x"), lambda inner, _: ("block", ("var", "x", ("+", READ, 1)), inner), lambda program: program),
        "blocks-of-names": (("out", ("name", 0)), lambda inner, level: ("block", ("const", level, level), inner), lambda program: program),
        "sequences-left": (one, lambda inner, level: ("do", inner, ("out", level)), lambda program: program),
        "sequences-right": (one, lambda inner, level: ("do", ("out", level), inner), lambda program: program),
        "pairs": (("var", "x", 1), lambda inner, _: ("with", inner, ("var", "x", ("+", "x", 1))), lambda program: ("block", program, ("out", "x"))),
        "pairs-right": (("const", "x", 1), lambda inner, level: ("with", ("const", level + 1, level), inner), lambda program: ("block", program, ("out", "x"))),
        "bodies": (one, lambda inner, level: ("block", ("proc", "p", "y", inner), ("call", "p", level)), lambda program: program),
    }
    for name, (leaf, wrap, finish) in chains.items():
        carried(f"deep-{name}", most_levels(leaf, wrap, finish), range(200))
    routines = lambda inner, level: ("with", inner, ("proc", f"p{level + 1}", "y", ("call", f"p{level}", ("+", "y", 1))))
    levels = 84
    chain = nested(levels, ("proc", "p0", "y", ("out", "y")), routines)
    carried("deep-calls", ("block", chain, ("call", f"p{levels}", 0)))
    framed = lambda inner, level: ("with", inner, ("proc", f"p{level + 1}", "y", ("block", ("var", "z", ("+", "y", 1)), ("call", f"p{level}", "z"))))
    levels = 50
    chain = nested(levels, ("proc", "p0", "y", ("set", "y", ("*", "y", 2))), framed)
    carried("deep-frames", ("block", ("with", ("var", "v", 5), chain), ("do", ("call", f"p{levels}", "v"), ("out", "v"))))
    out_of_scope = [Node(20)] + [Node(25, 1, place) for place in range(510)] + [Node(2, 0, 510)]
    with Trial("deep-refused") as trial:
        trial.refuse((8, 510), table_of(out_of_scope), "a chain of 510 calls, none visible")
        trial.refuse((8, 0), table_of([Node(23, 9)] + assembled_calls()), "a chain of calls, and at its end a name that is not visible")


def assembled_calls():
    """506 calls over the first node, below a block that declares their function."""
    calls = [Node(25, 1, place) for place in range(506)]
    return calls + [Node(2, 0, 506), Node(23, 2), Node(13, 1, 508, 0, 2), Node(5, 0, 509, 507)]


def wide():
    heading("512 nodes, side by side")
    carried("wide-outputs", ("do", *[SEVEN] * 171))
    carried("wide-constants", ("block", ("with", *(("const", place, place) for place in range(127))), ("out", ("+", ("name", 0), ("name", 126)))))
    carried("wide-hidden", ("block", ("with", ("const", "x", 5), *(("const", "y", 1) for _ in range(160))), ("out", ("*", "x", "y"))))


def rounds():
    heading("more rounds than any table has places: blocks and calls give back what they took")
    double = ("fun", "double", "u", ("+", "u", "u"))
    names = ("with", ("var", "z", ("apply", "double", "y")), ("const", "c", "z"))
    count = ("proc", "count", "y", ("block", names, ("do", ("set", "y", "c"), ("set", "sum", ("+", "sum", "z")))))
    # x is n, then by the procedure 2 n, so that n falls by 1
    fall = ("set", "n", ("-", "n", ("/", "x", ("+", "n", "n"))))
    one = ("block", ("var", "x", "n"), ("do", ("call", "count", "x"), fall))
    scope = ("with", ("var", "sum", 0), double, count, ("var", "n", 2000))
    with Trial("rounds") as trial:
        trial.load(("block", scope, ("do", ("while", ("<", 0, "n"), one), ("out", "sum"))))
        trial.run()
        assert trial.strip.held == [2000 * 2001]


def long():
    heading("the fuel of a take: a thousand million, reached and not passed")
    with Trial("thousand-million") as trial:
        trial.load(("while", True, ("while", False, SEVEN)))
        # listing the code keeps this trial, which takes seconds, from being tried as a session too
        trial.code()
        for _ in range(999):
            trial.run()
        for fuel in (999_999, 2, 1_000_000, 1, 0, 1, 1_000_000, 4_294_967_295):
            trial.run(fuel)
        trial.report()
        trial.rewind()
        trial.run(1)
        trial.report()


PARTS = [deep, wide, rounds, long]
