"""Trials of tables that are refused, each fault by itself and several at once."""

import itertools

from small import COMMAND, DECLARATION, EXPRESSION, FORMS, NAME, OPERATOR, SEVEN, SORTS, TRUTH, ZERO, Node, assemble, table_of
from writer import Trial, heading

NUMBER = Node(20, 0, 0, 7)

# A node of each sort, to be named as children: an expression, a declaration and a command.
SPARE = [NUMBER, Node(10, 1, 0), Node(2, 0, 0)]
PLACE = {EXPRESSION: 0, DECLARATION: 1, COMMAND: 2}
UNDER_TEST = len(SPARE)

BROKEN = {ZERO: (1, 128), TRUTH: (2, 255), OPERATOR: (0, 7)}
BROKEN_FIELD = {ZERO: (1, 256), NAME: (256, 65535)}


def sound(kind):
    """A node of a kind that keeps all rules of fields, lower and sorts, if it stands behind the spare ones."""
    fields = [PLACE.get(rule, 1 if rule == OPERATOR else 0) for rule in FORMS[kind][2:]]
    return Node(kind, *fields)


def behind_spare(node):
    return table_of(SPARE + [node])


def fields():
    heading("every field of every kind, against its rule")
    for kind, form in FORMS.items():
        with Trial(f"fields-{form.word.replace(' ', '-')}") as trial:
            trial.refuse(6, behind_spare(sound(kind)), "only its children are wrong")
            for value in BROKEN.get(form.tag, ()):
                trial.refuse((3, UNDER_TEST), behind_spare(sound(kind)._replace(tag=value)), f"byte 1 is {value}")
            for field in "abc":
                for value in BROKEN_FIELD.get(getattr(form, field), ()):
                    node = sound(kind)._replace(**{field: value})
                    trial.refuse((3, UNDER_TEST), behind_spare(node), f"{field} is {value}")
    with Trial("kinds-unknown") as trial:
        for kind in range(256):
            if kind not in FORMS:
                trial.refuse((3, 0), Node(kind).bytes())


def child_fields():
    heading("every child field: the node itself, a higher one, and each wrong sort")
    for kind, form in FORMS.items():
        named = [field for field in "abc" if getattr(form, field) in SORTS]
        if not named:
            continue
        with Trial(f"children-{form.word.replace(' ', '-')}") as trial:
            for field in named:
                for child in (UNDER_TEST, UNDER_TEST + 1, 256, 65535):
                    trial.refuse((4, UNDER_TEST), behind_spare(sound(kind)._replace(**{field: child})), f"{field} is {child}")
                for sort in SORTS:
                    if sort != getattr(form, field):
                        node = sound(kind)._replace(**{field: PLACE[sort]})
                        trial.refuse((5, UNDER_TEST), behind_spare(node), f"{field} is a {sort}")


def lengths():
    heading("lengths")
    most = ("do", *[SEVEN] * 171)
    with Trial("lengths") as trial:
        for length in (0, 1, 7, 9, 15, 17):
            trial.refuse((2, 0), bytes(length), f"{length} bytes")
        table = assemble(most)
        assert len(table) == 4096
        trial.load(table, "4,096 bytes")
        trial.sum()
        trial.refuse((2, 0), table[:4095], "4,095 bytes")
        trial.refuse((2, 0), table + b"\0", "4,097 bytes")
        trial.refuse((2, 0), NUMBER.bytes() + table, "513 nodes")
        trial.report()
        trial.sum()


def parents():
    heading("a child exactly once, and the root")
    out = lambda child: Node(2, 0, child)
    add = lambda left, right: Node(24, 1, left, right)
    with Trial("parents") as trial:
        trial.refuse((6, 0), table_of([NUMBER, NUMBER, out(1)]), "the first is no child")
        trial.refuse((6, 1), table_of([NUMBER, NUMBER, out(0)]), "the second is no child")
        trial.refuse((6, 0), table_of([NUMBER, NUMBER, NUMBER, out(1)]), "the lowest of two")
        trial.refuse((6, 0), table_of([NUMBER, add(0, 0), out(1)]), "twice of one parent")
        trial.refuse((6, 0), table_of([NUMBER, out(0), out(0), Node(6, 0, 1, 2)]), "of two parents")
        trial.refuse((6, 0), table_of([NUMBER, Node(26, 0, 0, 0, 0), out(1)]), "three times")
        trial.refuse((6, 1), table_of([NUMBER, out(0), NUMBER, out(2)]), "a command that is no child")
        trial.refuse((6, 1), table_of([NUMBER, NUMBER, add(0, 1), Node(26, 0, 1, 2, 1), out(3)]), "once too often, higher up")
        trial.refuse((6, 0), table_of([NUMBER, NUMBER]), "no root either")
        trial.refuse((7, 0), table_of([NUMBER]), "a number as the root")
        trial.refuse((7, 2), table_of([NUMBER, NUMBER, add(0, 1)]), "an operation as the root")
        trial.refuse((7, 1), table_of([NUMBER, Node(11, 5, 0)]), "a declaration as the root")
        trial.refuse((7, 1), table_of([Node(23, 5), Node(11, 5, 0)]), "the root before names")


def order():
    heading("several faults at once: the first in the order is answered, and then the next once it is mended")
    wrong_sort, not_lower, unknown = Node(2, 0, 1), Node(2, 0, 600), Node(8)
    out = Node(2, 0, 0)
    with Trial("order-of-nodes") as trial:
        faults = {3: unknown, 4: not_lower, 5: wrong_sort}
        for row in itertools.permutations(faults):
            nodes = SPARE + [faults[number] for number in row] + [NUMBER]
            for place, number in enumerate(row, len(SPARE)):
                trial.refuse((number, place), table_of(nodes), f"{row} from node {place} on")
                nodes[place] = NUMBER
            trial.refuse((6, 0), table_of(nodes), "then the parents")
    with Trial("order-in-a-node") as trial:
        choice = Node(26, 1, 2, 9, 2)
        trial.refuse((3, 3), behind_spare(choice), "a rule, lower and sort")
        trial.refuse((4, 3), behind_spare(choice._replace(tag=0)), "lower and sort: b is higher, a and c are commands")
        trial.refuse((5, 3), behind_spare(choice._replace(tag=0, b=0)), "sort")
        trial.refuse((4, 3), behind_spare(Node(24, 1, 2, 3)), "a of the wrong sort, b the node itself")
    with Trial("order-over-all") as trial:
        nodes = [Node(23, 5), out, wrong_sort, not_lower, unknown, NUMBER]
        trial.refuse((2, 0), table_of(nodes) + b"\0")
        trial.refuse((5, 2), table_of(nodes))
        nodes[2] = Node(20, 0, 0, 1)
        trial.refuse((4, 3), table_of(nodes))
        nodes[3] = Node(10, 5, 2)
        trial.refuse((3, 4), table_of(nodes))
        nodes[4] = Node(5, 0, 3, 1)
        trial.refuse((6, 4), table_of(nodes))
        trial.refuse((6, 4), table_of(nodes + [Node(7, 8, 5)]))
        nodes += [Node(7, 8, 5), Node(6, 0, 4, 6)]
        trial.refuse((8, 6), table_of(nodes), "the block is sound: the call has no procedure 8")
        nodes[6] = Node(7, 5, 5)
        trial.refuse((8, 6), table_of(nodes), "name 5 is gone at the end of its block")


def invisible():
    heading("names that are not visible")
    with Trial("invisible") as trial:
        for note, program in {
            "output": ("out", "x"),
            "procedure call": ("call", "p", 1),
            "function call": ("out", ("apply", "f", 1)),
            "a constant's own expression": ("block", ("const", "x", "x"), SEVEN),
            "a variable's own expression": ("block", ("var", "x", ("+", 1, "x")), SEVEN),
            "a procedure's own body": ("block", ("proc", "p", "y", ("call", "p", "y")), SEVEN),
            "a function's own body": ("block", ("fun", "f", "y", ("apply", "f", "y")), SEVEN),
            "a parameter after its body": ("block", ("proc", "p", "y", ("out", "y")), ("out", "y")),
            "a parameter in the next declaration": ("block", ("with", ("fun", "f", "y", "y"), ("const", "c", "y")), SEVEN),
            "before its declaration": ("block", ("with", ("const", "x", "y"), ("const", "y", 1)), SEVEN),
            "a body before a declaration": ("block", ("with", ("fun", "f", "a", "y"), ("const", "y", 1)), SEVEN),
            "after its block": ("do", ("block", ("const", "x", 1), ("out", "x")), ("out", "x")),
            "after an inner block": ("block", ("const", "x", 1), ("do", ("block", ("const", "y", 1), SEVEN), ("out", ("+", "x", "y")))),
            "declared in a body": ("block", ("proc", "p", "y", ("block", ("const", "z", 1), ("out", "z"))), ("out", "z")),
            "another name": ("block", ("const", 5, 1), ("out", ("name", 6))),
            "name 0 of none": ("out", ("name", 0)),
        }.items():
            trial.refuse(8, program, note)


def roles():
    heading("names that stand for something else")
    value, proc, fun = ("const", "x", 1), ("proc", "x", "y", ("out", "y")), ("fun", "x", "y", "y")
    uses = {"value": ("out", "x"), "procedure": ("call", "x", 1), "function": ("out", ("apply", "x", 1))}
    declared = {"value": value, "variable": ("var", "x", 1), "procedure": proc, "function": fun}
    with Trial("roles") as trial:
        for role, declaration in declared.items():
            for use, command in uses.items():
                if use != ("value" if role == "variable" else role):
                    trial.refuse(9, ("block", declaration, command), f"a {role} used as a {use}")
        trial.load(("block", ("proc", "p", "x", ("out", "x")), ("call", "p", 1)), "a parameter used as a value")
        trial.refuse(9, ("block", ("proc", "p", "x", ("call", "x", 1)), SEVEN), "a parameter used as a procedure")
        trial.refuse(9, ("block", ("fun", "f", "x", ("apply", "x", 1)), SEVEN), "a parameter used as a function")
        for role, declaration in declared.items():
            for hidden, older in declared.items():
                want = "value" if hidden == "variable" else hidden
                if want != ("value" if role == "variable" else role):
                    trial.refuse(9, ("block", ("with", older, declaration), uses[want]), f"a {hidden}, hidden by a {role}")
        trial.refuse(9, ("block", proc, ("block", value, ("call", "x", 1))), "hidden in an inner block")
        trial.load(("block", proc, ("do", ("block", value, SEVEN), ("call", "x", 1))), "and seen again after it")
        trial.refuse(9, ("block", ("with", proc, ("proc", "q", "x", ("call", "x", 1))), SEVEN), "hidden by a parameter")
        trial.load(("block", ("with", proc, ("proc", "q", "x", SEVEN)), ("call", "x", 1)), "and seen again after the body")
        trial.refuse(9, ("block", ("proc", "p", "y", SEVEN), ("set", "p", 1)), "a procedure as the left side")


def walk():
    heading("the walk: node before children, a before b before c, whatever their numbers")
    x, y, z = Node(23, 1), Node(23, 2), Node(23, 3)
    out_x = [x, Node(2, 0, 0)]
    with Trial("walk") as trial:
        for note, at, nodes in [
            ("assign: a has the higher number", 1, [x, y, Node(1, 0, 1, 0)]),
            ("assign: a has the lower number", 0, [x, y, Node(1, 0, 0, 1)]),
            ("operation: left before right", 2, [x, NUMBER, y, Node(24, 1, 2, 0), Node(24, 1, 3, 1), Node(2, 0, 4)]),
            ("choice: a, b, c have falling numbers", 2, [x, y, z, Node(26, 0, 2, 1, 0), Node(2, 0, 3)]),
            ("choice: b before c", 1, [x, y, NUMBER, Node(26, 0, 2, 1, 0), Node(2, 0, 3)]),
            ("if: test first", 5, out_x + [y, Node(2, 0, 2), NUMBER, z, Node(24, 1, 5, 4), Node(3, 0, 6, 3, 1)]),
            ("if: b before c", 2, out_x + [y, Node(2, 0, 2), NUMBER, Node(3, 0, 4, 3, 1)]),
            ("while: test before body", 2, out_x + [y, Node(4, 0, 2, 1)]),
            ("block: declaration before command", 2, out_x + [y, Node(10, 1, 2), Node(5, 0, 3, 1)]),
            ("sequence: first before second", 2, out_x + [y, Node(2, 0, 2), Node(6, 0, 3, 1)]),
            ("a procedure call's name before its argument", 1, [x, Node(7, 9, 0)]),
            ("a function call's name before its argument", 1, [x, Node(25, 9, 0), Node(2, 0, 1)]),
        ]:
            trial.refuse((8, at), table_of(nodes), note)
        pair = [x, Node(10, 7, 0), y, Node(10, 8, 2), Node(14, 0, 3, 1), NUMBER, Node(2, 0, 5), Node(5, 0, 4, 6)]
        trial.refuse((8, 2), table_of(pair), "pair: first before second")
    with Trial("walk-8-and-9") as trial:
        proc = ("proc", "p", "y", ("out", "y"))
        trial.refuse(9, ("block", proc, ("do", ("out", "p"), ("out", "q"))), "9 comes first in the walk")
        trial.refuse(8, ("block", proc, ("do", ("out", "q"), ("out", "p"))), "8 comes first in the walk")
        trial.refuse(9, ("block", proc, ("out", ("apply", "p", "q"))), "the call's 9 before its argument's 8")
        trial.refuse(8, ("block", proc, ("call", "p", ("+", "q", "p"))), "left before right")
        trial.refuse(8, ("block", ("with", proc, ("const", "c", "d"), ("const", "e", "p")), SEVEN), "first of a pair before the second")
        trial.refuse(9, ("block", ("with", proc, ("fun", "f", "z", "p")), ("out", "q")), "a body before what comes after it")


PARTS = [fields, child_fields, lengths, parents, order, invisible, roles, walk]
