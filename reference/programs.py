"""Trials of accepted programs."""

from small import COUNTDOWN, LEAST, MOST, READ, SEVEN, Ended, Fault, RecordStrip, TextStrip, assemble, result_of
from writer import Trial, heading, whole

SKIP = ("while", False, ("out", 0))


# What the language has no word for.
def no(test):
    return ("choose", test, False, True)


def both(one, other):
    return ("choose", one, other, False)


def either(one, other):
    return ("choose", one, True, other)


def greater(left, right):
    return ("<", right, left)


def at_least(left, right):
    return no(("<", left, right))


def at_most(left, right):
    return no(("<", right, left))


def negative(value):
    return ("-", 0, value)


def documents():
    heading("the examples of the documents")
    whole("seven", SEVEN, held=[7], end=(0, 1, 0))
    whole("countdown", COUNTDOWN, held=[2, 1], end=(0, 14, 0))
    whole("quotient", ("out", ("/", -7, 2)), held=[-3])
    whole("quotient-beyond", ("out", ("/", LEAST, -1)), end=34)
    whole("divisor-0", ("out", ("/", 1, 0)), end=35)
    whole("no-location", ("set", 3, READ), [5], end=(31, 2, 0))
    whole("empty", ("out", READ), end=36)
    whole("text-short", SEVEN, strip=TextStrip(1), end=38)
    whole("text-enough", SEVEN, strip=TextStrip(2), held=[7])
    by_location = ("with", ("var", "v", 1), ("proc", "p", "y", ("set", "y", 5)))
    whole("by-location", ("block", by_location, ("do", ("call", "p", "v"), ("out", "v"))), held=[5])
    whole("sum-beyond", ("out", ("+", MOST, 1)), end=34)


def fuel():
    heading("fuel, runs and reports")
    with Trial("new") as trial:
        trial.report()
        trial.run(0)
        trial.run(1_000_001)
        trial.code()
        trial.sum()
    for name, fuels in {
        "fuel-0": [0, 0],
        "fuel-1": [1],
        "fuel-52": [52],
        "fuel-53": [53],
        "fuel-52-1": [52, 0, 1],
        "fuel-most": [1_000_000],
        "fuel-beyond": [1_000_001, 4_294_967_295, 53],
        "fuel-beyond-later": [20, 1_000_001, 33],
        "run-after-end": [53, 0, 1, 1_000_000, 1_000_001, 4_294_967_295],
        "fuel-by-ones": [1] * 54,
    }.items():
        with Trial(name) as trial:
            trial.load(COUNTDOWN)
            for amount in fuels:
                trial.run(amount)
            trial.report()
    with Trial("endless-3-million") as trial:
        trial.load(("while", True, SKIP))
        for amount in (1_000_000, 999_999, 1_000_000, 1):
            trial.run(amount)
        trial.report()


def loads():
    heading("a load begins a take; feed and strip go on; a refusal alters nothing")
    adder = ("out", ("+", READ, READ))
    with Trial("loads", [1, 2, 3, 4, 5, 6, 7], RecordStrip(3)) as trial:
        trial.load(adder)
        trial.run()
        trial.load(adder)
        trial.report()
        trial.run(3)
        trial.load(adder)
        trial.run()
        trial.load(adder)
        trial.run()
        trial.report()
    with Trial("refused-loads", [1, 2, 3]) as trial:
        trial.refuse((2, 0), b"")
        trial.report()
        trial.load(COUNTDOWN)
        trial.run(20)
        for table in (b"", bytes(8), assemble(("out", "x"))):
            trial.load(table)
            trial.report()
            trial.sum()
        trial.run(33)
        trial.load(b"")
        trial.report()
        trial.run(1)
    with Trial("refused-runs", [1, 2, 3]) as trial:
        trial.load(adder)
        trial.run(1_000_001)
        trial.report()
        trial.run(6)
        trial.run(5)
        trial.run(1)


VALUES = [LEAST, LEAST + 1, -65536, -46341, -7, -2, -1, 0, 1, 2, 7, 46340, 46341, 65536, MOST - 1, MOST]


def operators():
    heading("every operator on pairs of edge values: first all that have a result, in one run, then each that has none")
    for number, sign in enumerate("+-*/=<", 1):
        plain, ends = [], []
        for left in VALUES:
            for right in VALUES:
                try:
                    result_of(number, left, right, 0)
                    plain += [left, right]
                except Ended:
                    ends += [left, right]
        name = "sum difference product quotient equal less".split()[number - 1]
        with Trial(f"{name}-results", plain, TextStrip(6000)) as trial:
            trial.load(("while", True, ("out", (sign, READ, READ))))
            report = trial.run()
            assert report.end == 36
        if ends:
            with Trial(f"{name}-ends", ends) as trial:
                for _ in range(len(ends) // 2):
                    trial.load(("out", (sign, READ, READ)))
                    report = trial.run()
                    assert report.end in (34, 35)


def ends():
    heading("each end, in each place where it can come")
    truth, number = True, 1
    for sign in "+-*/=<":
        whole(f"33-left-{ord(sign)}", ("out", (sign, truth, number)), end=33)
        whole(f"33-right-{ord(sign)}", ("out", (sign, number, truth)), end=33)
        whole(f"33-both-{ord(sign)}", ("out", (sign, truth, False)), end=33)
    whole("33-before-35", ("out", ("/", True, 0)), end=33)
    whole("33-before-34", ("out", ("+", False, MOST)), end=33)
    whole("35-before-34", ("out", ("/", LEAST, 0)), end=35)
    whole("33-after-right-read", ("out", ("+", True, READ)), [4], end=33)
    whole("36-before-33", ("out", ("+", True, READ)), end=36)
    whole("33-truth-cell", ("block", ("var", "x", True), ("out", ("+", "x", 1))), end=33)
    for place, left in {
        "number": 3,
        "truth": True,
        "read": READ,
        "constant": "c",
        "operation": ("+", "v", 1),
        "function": ("apply", "f", 4),
        "choice": ("choose", True, 1, "v"),
    }.items():
        scope = ("with", ("const", "c", 1), ("var", "v", 2), ("fun", "f", "y", "y"))
        whole(f"31-{place}", ("block", scope, ("set", left, READ)), [8, 9], end=31)
    whole("31-parameter", ("block", ("proc", "p", "y", ("set", "y", READ)), ("call", "p", 5)), [8], end=31)
    whole("32-if", ("if", 1, SEVEN, SEVEN), end=(32, 5, 0))
    whole("32-if-else-only", ("if", 0, SEVEN, SEVEN), end=32)
    whole("32-while", ("while", 0, SEVEN), end=32)
    whole("32-choice", ("out", ("choose", 1, 2, 3)), end=32)
    second = ("block", ("var", "t", True), ("while", "t", ("do", SEVEN, ("set", "t", 0))))
    whole("32-second-test", second, held=[7], end=32)
    faults(36, [])
    faults(37, [Fault(3), 5])
    whole("37-code-1", ("out", READ), [Fault(1)], end=(37, 0, 1))
    whole("37-code-255", ("do", ("out", READ), ("out", READ)), [6, Fault(255), 7], end=(37, 2, 255))
    whole("38-no-space", SEVEN, strip=RecordStrip(0), end=(38, 1, 0))
    whole("38-later", ("while", True, ("out", READ)), [1, 2, 3, 4], RecordStrip(3), held=[1, 2, 3], end=38)
    whole("38-in-body", ("block", ("proc", "p", "y", ("out", "y")), ("do", ("call", "p", 1), ("call", "p", 2))), strip=RecordStrip(1), end=38)


def faults(end, feed):
    """A read that finds no reading, in every place of an expression."""
    routines = ("with", ("var", "v", 1), ("proc", "p", "y", ("out", "y")), ("fun", "f", "y", "y"))
    for place, command in {
        "output": ("out", READ),
        "left": ("set", READ, 1),
        "right": ("set", "v", READ),
        "if": ("if", READ, SEVEN, SEVEN),
        "while": ("while", READ, SEVEN),
        "operand-left": ("out", ("+", READ, 1)),
        "operand-right": ("out", ("+", 1, READ)),
        "procedure-argument": ("call", "p", READ),
        "function-argument": ("out", ("apply", "f", READ)),
        "test": ("out", ("choose", READ, 1, 2)),
        "then": ("out", ("choose", True, READ, 2)),
        "else": ("out", ("choose", False, 1, READ)),
        "constant": ("block", ("const", "c", READ), SEVEN),
        "variable": ("block", ("var", "w", READ), SEVEN),
    }.items():
        whole(f"{end}-{place}", ("block", routines, command), feed, end=end)


def forms():
    heading("every form, alone and together")
    whole("truths", ("do", ("out", True), ("out", False), ("out", ("=", 1, 1)), ("out", ("<", 1, 1))), held=[True, False, True, False])
    whole("truths-as-text", ("do", ("out", True), ("out", False)), strip=TextStrip(11))
    whole("reads", ("do", ("out", ("-", READ, READ)), ("out", READ)), [9, 4, -1, 6], held=[5, -1])
    whole("if-then", ("if", ("<", 1, 2), ("out", 1), ("out", 2)), held=[1])
    whole("if-else", ("if", ("<", 2, 1), ("out", 1), ("out", 2)), held=[2])
    whole("choice-then", ("out", ("choose", True, 1, READ)), held=[1])
    whole("choice-else", ("out", ("choose", False, READ, 2)), held=[2])
    whole("choice-nested", ("out", ("choose", ("choose", True, False, True), 1, ("choose", False, 2, 3))), held=[3])
    whole("while-never", ("while", False, SEVEN), held=[])
    whole("sequence-left", ("do", ("do", ("do", ("out", 1), ("out", 2)), ("out", 3)), ("out", 4)), held=[1, 2, 3, 4])
    whole("constant", ("block", ("const", "c", ("*", 6, 7)), ("out", "c")), held=[42])
    whole("constant-copies", ("block", ("with", ("var", "v", 1), ("const", "c", "v")), ("do", ("set", "v", 2), ("out", "c"), ("out", "v"))), held=[1, 2])
    whole("variable-copies", ("block", ("with", ("var", "v", 1), ("var", "w", "v")), ("do", ("set", "v", 2), ("out", "w"), ("out", "v"))), held=[1, 2])
    whole("variable-of-any-sort", ("block", ("var", "v", 1), ("do", ("set", "v", True), ("out", "v"), ("set", "v", ("-", 0, 3)), ("out", "v"))), held=[True, -3])
    whole("function", ("block", ("fun", "f", "y", ("*", "y", "y")), ("out", ("apply", "f", ("apply", "f", 3)))), held=[81])
    whole("function-reads", ("block", ("fun", "f", "y", ("+", "y", READ)), ("out", ("apply", "f", READ))), [10, 5, 1], held=[15])
    whole("procedure", ("block", ("proc", "p", "y", ("do", ("out", "y"), ("out", ("+", "y", 1)))), ("do", ("call", "p", 1), ("call", "p", 5))), held=[1, 2, 5, 6])
    whole("numbers", ("do", *(("out", value) for value in VALUES)), held=VALUES)
    whole("names-0-and-255", ("block", ("with", ("const", 0, 5), ("var", 255, 6)), ("do", ("out", ("name", 0)), ("out", ("name", 255)))), held=[5, 6])
    whole("parameter-255", ("block", ("fun", 0, 255, ("name", 255)), ("out", ("apply", 0, 3))), held=[3])


def locations():
    heading("arguments that are locations, and expressions that give one")
    swap = ("proc", "swap", "y", ("block", ("const", "old", "y"), ("do", ("set", "y", "v"), ("set", "v", "old"))))
    whole("swap", ("block", ("with", ("var", "v", 1), ("var", "w", 2), swap), ("do", ("call", "swap", "w"), ("out", "v"), ("out", "w"))), held=[2, 1])
    same = ("fun", "same", "y", "y")
    whole("function-as-left", ("block", ("with", ("var", "v", 1), same), ("do", ("set", ("apply", "same", "v"), 9), ("out", "v"))), held=[9])
    pick = ("choose", READ_TRUTH, "v", "w")
    both_cells = ("with", ("var", "v", 1), ("var", "w", 2))
    show = (("out", "v"), ("out", "w"))
    whole("choice-as-left", ("block", both_cells, ("do", ("set", pick, 7), ("set", pick, 8), *show)), [1, 0], held=[7, 8])
    chosen = ("fun", "chosen", "y", ("choose", ("=", "y", 0), "v", "y"))
    whole("function-of-two", ("block", ("with", *both_cells[1:], chosen), ("do", ("set", ("apply", "chosen", "w"), 5), ("set", "w", 0), ("set", ("apply", "chosen", "w"), 6), *show)), held=[6, 0])
    inner = ("proc", "q", "z", ("do", ("set", "z", ("+", "z", 1)), ("set", "z", ("*", "z", 2))))
    outer = ("proc", "p", "y", ("do", ("call", "q", "y"), ("call", "q", "y")))
    whole("handed-on", ("block", ("with", ("var", "v", 1), inner, outer), ("do", ("call", "p", "v"), ("out", "v"))), held=[10])
    whole("plain-argument", ("block", ("with", ("var", "v", 1), ("proc", "p", "y", ("do", ("set", "v", 9), ("out", "y")))), ("do", ("call", "p", ("+", "v", 0)), ("call", "p", "v"))), held=[1, 9])
    whole("right-side-first-no", ("block", ("var", "v", 1), ("do", ("set", "v", ("+", "v", ("*", "v", 4))), ("out", "v"))), held=[5])
    whole("parameter-of-function", ("block", ("with", ("var", "v", 3), ("fun", "f", "y", ("+", "y", "v"))), ("out", ("apply", "f", "v"))), held=[6])


READ_TRUTH = ("=", READ, 1)


def scopes():
    heading("which declaration a name means")
    whole("hidden", ("block", ("const", "x", 1), ("do", ("block", ("const", "x", 2), ("out", "x")), ("out", "x"))), held=[2, 1])
    whole("own-expression", ("block", ("const", "x", 1), ("block", ("const", "x", ("+", "x", 1)), ("out", "x"))), held=[2])
    whole("pair-of-one-name", ("block", ("with", ("const", "x", 1), ("const", "x", ("+", "x", 4))), ("out", "x")), held=[5])
    static = ("with", ("var", "a", 0), ("proc", "q", "y", ("set", "a", 5)))
    whole("static", ("block", static, ("do", ("block", ("var", "a", 3), ("call", "q", 0)), ("out", "a"))), held=[5])
    whole("later-hidden", ("block", ("with", ("const", "x", 1), ("fun", "f", "y", "x"), ("const", "x", 2)), ("do", ("out", ("apply", "f", 0)), ("out", "x"))), held=[1, 2])
    whole("parameter-hides", ("block", ("with", ("const", "x", 1), ("fun", "f", "x", ("+", "x", 10))), ("do", ("out", ("apply", "f", 5)), ("out", "x"))), held=[15, 1])
    whole("parameter-of-own-name", ("block", ("fun", "f", "f", ("+", "f", 1)), ("out", ("apply", "f", 5))), held=[6])
    whole("older-of-the-name", ("block", ("with", ("fun", "f", "y", ("+", "y", 1)), ("fun", "f", "y", ("*", ("apply", "f", "y"), 10))), ("out", ("apply", "f", 1))), held=[20])
    whole("other-role-hides", ("block", ("with", ("proc", "x", "y", ("out", "y")), ("const", "x", 3)), ("out", "x")), held=[3])
    whole("after-a-block", ("do", ("block", ("const", "x", 1), ("out", "x")), ("block", ("const", "y", 2), ("out", "y"))), held=[1, 2])
    nested = ("proc", "p", "y", ("block", ("with", ("const", "z", "y"), ("proc", "r", "w", ("do", ("out", "y"), ("out", "z"), ("out", "w")))), ("call", "r", ("+", "y", 100))))
    whole("routine-in-body", ("block", nested, ("do", ("call", "p", 1), ("call", "p", 2))), held=[1, 1, 101, 2, 2, 102])
    loop = ("while", ("<", "i", 3), ("do", ("block", ("var", "x", "i"), ("do", ("set", "x", ("*", "x", "x")), ("out", "x"))), ("set", "i", ("+", "i", 1))))
    whole("block-in-loop", ("block", ("var", "i", 0), loop), held=[0, 1, 4])
    step = ("with", ("var", "n", 10), ("proc", "less", "by", ("set", "n", ("-", "n", "by"))))
    whole("call-in-loop", ("block", step, ("while", ("<", 0, "n"), ("do", ("out", "n"), ("call", "less", 3)))), held=[10, 7, 4, 1])


def published():
    heading("published programs; what they put is known from print or worked out by hand")
    in_range = both(greater("num", 9), ("<", "num", 100))
    add = ("if", in_range, ("set", "sum", ("+", "sum", "num")), SKIP)
    start = (("set", "sum", 0), ("set", "num", READ))
    loop = ("while", at_least("num", 0), ("do", add, ("set", "num", READ)))
    sample = ("block", ("with", ("var", "sum", 0), ("var", "num", 0)), ("do", *start, loop, ("out", "sum")))
    whole("sum-until-negative", sample, [5, 22, -1], held=[22], end=0)

    divides = ("=", "num", ("*", "div", ("/", "num", "div")))
    search = ("while", both(at_most("div", ("/", "num", 2)), no("done")), ("do", ("set", "done", divides), ("set", "div", ("+", "div", 1))))
    one = ("do", ("set", "div", 2), ("set", "done", False), search, ("if", "done", ("out", 0), ("out", "num")), ("set", "num", READ))
    prime = ("block", ("with", ("var", "num", 0), ("var", "div", 0), ("var", "done", False)), ("do", ("set", "num", READ), ("while", greater("num", 0), one)))
    whole("primes", prime, [23, 79, 91, 129, 149, 177, 0], held=[23, 79, 0, 0, 149, 0], end=0)
    whole("primes-three", prime, [23, 91, 149, 0], held=[23, 0, 149], end=0)

    body = ("do", ("out", 5), ("if", no("a"), ("set", "b", no("b")), SKIP), ("if", "b", ("set", "a", no("a")), SKIP))
    truths = ("block", ("with", ("var", "a", True), ("var", "b", True)), ("while", either("a", "b"), body))
    whole("truths-in-loop", truths, [5, 22, -1], held=[5, 5], end=0)

    switch = ("do", ("set", "switch", no("switch")), ("if", "switch", ("set", "sum", ("+", "sum", "k")), SKIP), ("set", "k", ("+", "k", 1)))
    names = ("with", ("var", "switch", True), ("var", "sum", 0), ("var", "k", 1))
    whole("switch", ("block", names, ("do", ("while", ("<", "k", 4), switch), ("out", "switch"), ("out", "sum"), ("out", "k"))), held=[False, 2, 4])

    innermost = ("block", ("with", ("var", "x", False), ("var", "c", 0), ("var", "d", 0)), ("do", ("set", "x", no("b")), ("set", "c", ("+", "y", 5)), ("set", "d", 17), ("out", "x"), ("out", "c"), ("out", "d")))
    inner = ("block", ("with", ("const", "a", 0), ("var", "x", 0), ("var", "y", 0)), ("do", ("set", "x", "a"), ("set", "y", ("-", "c", 2)), innermost, ("set", "x", negative("c")), ("out", "x"), ("out", "y")))
    scope = ("block", ("with", ("const", "c", 9), ("var", "a", 0), ("var", "b", 0)), ("do", ("set", "a", 10), ("set", "b", greater("a", 0)), inner, ("set", "a", ("+", "a", 5)), ("out", "a"), ("out", "b")))
    whole("scope", scope, held=[False, 12, 17, -9, 7, 15, True], end=0)

    trace = ("with", ("var", "a", 0), ("proc", "q1", "u", ("set", "a", 5)), ("proc", "q2", "u", ("block", ("var", "a", 3), ("do", ("set", "a", 3), ("call", "q1", 0)))))
    whole("trace", ("block", trace, ("do", ("set", "a", 0), ("call", "q2", 0), ("out", "a"))), held=[5], end=0)

    summation = ("proc", "sum", "n", ("if", greater("n", 0), ("do", ("set", "s", ("+", "s", "n")), ("call", "sum", ("-", "n", 1))), SKIP))
    with Trial("summation-recursive") as trial:
        trial.refuse((8, 13), ("block", ("with", ("var", "s", 0), summation), ("do", ("set", "s", 0), ("call", "sum", 3), ("out", "s"))))
    by_loop = ("proc", "sum", "m", ("block", ("var", "n", "m"), ("while", greater("n", 0), ("do", ("set", "s", ("+", "s", "n")), ("set", "n", ("-", "n", 1))))))
    whole("summation-by-loop", ("block", ("with", ("var", "s", 0), by_loop), ("do", ("set", "s", 0), ("call", "sum", 3), ("out", "s"))), held=[6])

    factorial = ("while", at_least("n", 1), ("do", ("set", "f", ("*", "f", "n")), ("set", "n", ("-", "n", 1))))
    whole("factorial", ("block", ("with", ("var", "f", 1), ("var", "n", 6)), ("do", factorial, ("out", "f"))), held=[720])
    whole("factorial-13", ("block", ("with", ("var", "f", 1), ("var", "n", 13)), ("do", factorial, ("out", "f"))), end=34)
    whole("plus-three", ("block", ("var", "x", READ), ("do", ("set", "x", ("+", "x", 1)), ("out", ("+", ("+", "x", 1), 1)))), [39], held=[42])
    complement = ("block", ("with", ("const", "c", 99), ("var", "n", 0)), ("do", ("set", "n", READ), ("set", "n", ("-", "c", "n")), ("out", ("+", "c", 1)), ("out", "n")))
    whole("complement", complement, [9], held=[100, 90])
    with Trial("undeclared") as trial:
        trial.refuse((8, 14), ("block", ("with", ("var", "m", 0), ("var", "n", 0)), ("do", ("set", "m", READ), ("set", "n", ("/", "m", 5)), ("out", ("+", "n", "k")))))


PARTS = [documents, fuel, loads, operators, ends, forms, locations, scopes, published]
