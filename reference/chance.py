"""Trials made by chance, from a fixed seed: programs that are accepted, trees with careless names, and tables spoilt in one
or two places."""

from small import LEAST, MOST, READ, Fault, RecordStrip, TextStrip, assemble, nodes_in, refusal_of, check, table_of
from writer import Trial, heading

NUMBER, TRUTH = "number", "truth"
NAMES = 6


class Dice:
    """Numbers that look like chance, the same on every machine."""

    def __init__(self, seed):
        self.state = seed

    def below(self, most):
        self.state = (self.state * 6364136223846793005 + 1442695040888963407) % 2**64
        return (self.state >> 33) % most

    def pick(self, things):
        return things[self.below(len(things))]

    def often(self, percent):
        return self.below(100) < percent


class Entry:
    """A visible name: what it stands for, and the sort of its value, of its argument or of its answer."""

    def __init__(self, name, role, sort, answer=None, cell=False):
        self.name, self.role, self.sort, self.answer, self.cell = name, role, sort, answer, cell


class Author:
    """Writes programs. Where it is careless, names are taken as they come, whether visible or not."""

    def __init__(self, dice, careless=False):
        self.dice, self.careless = dice, careless

    def sort(self):
        return NUMBER if self.dice.often(70) else TRUTH

    def seen(self, scope, role):
        """The visible entries of a role that no newer one hides."""
        newest = {entry.name: entry for entry in scope}
        return [entry for entry in newest.values() if entry.role == role]

    def name(self, scope, fits, role):
        if self.careless and self.dice.often(25):
            return self.dice.pick(scope).name if scope and self.dice.often(80) else self.dice.below(NAMES)
        fitting = [entry for entry in self.seen(scope, role) if fits(entry)]
        return self.dice.pick(fitting).name if fitting else None

    def literal(self, sort):
        if sort == TRUTH:
            return self.dice.often(50)
        return self.dice.pick([LEAST, MOST, 65535, -65536]) if self.dice.often(6) else self.dice.below(9) - 2

    def expression(self, scope, sort, depth):
        dice = self.dice
        if dice.often(3):
            sort = TRUTH if sort == NUMBER else NUMBER
        match dice.below(3 if depth <= 0 else 8):
            case 0 | 1:
                name = self.name(scope, lambda entry: entry.sort == sort, "value")
                if name is not None:
                    return ("name", name)
                return READ if sort == NUMBER and dice.often(30) else self.literal(sort)
            case 2:
                return self.literal(sort)
            case 3:
                name = self.name(scope, lambda entry: entry.answer == sort, "function")
                if name is not None:
                    return ("apply", name, self.expression(scope, self.argument(scope, name), depth - 1))
                return self.literal(sort)
            case 4:
                parts = (self.expression(scope, sort, depth - 1) for _ in range(2))
                return ("choose", self.expression(scope, TRUTH, depth - 1), *parts)
            case _:
                sign = dice.pick("+-*/+-*") if sort == NUMBER else dice.pick("=<")
                return (sign, *(self.expression(scope, NUMBER, depth - 1) for _ in range(2)))

    def argument(self, scope, name):
        return next((entry.sort for entry in reversed(scope) if entry.name == name), NUMBER)

    def command(self, scope, depth):
        dice = self.dice
        match dice.below(3 if depth <= 0 else 12):
            case 0 | 1:
                return ("out", self.expression(scope, self.sort(), depth))
            case 2:
                return self.assign(scope, depth)
            case 3:
                parts = (self.command(scope, depth - 1) for _ in range(2))
                return ("if", self.expression(scope, TRUTH, depth - 1), *parts)
            case 4:
                return self.loop(scope, depth)
            case 5:
                name = self.name(scope, lambda entry: True, "procedure")
                if name is not None:
                    return ("call", name, self.expression(scope, self.argument(scope, name), depth - 1))
                return ("out", self.literal(NUMBER))
            case 6 | 7 | 8:
                inner = list(scope)
                declaration = self.declarations(inner, depth - 1)
                return ("block", declaration, self.command(inner, depth - 1))
            case _:
                return ("do", *(self.command(scope, depth - 1) for _ in range(2 + dice.below(2))))

    def assign(self, scope, depth):
        name = self.name(scope, lambda entry: entry.cell, "value")
        sort = self.argument(scope, name)
        left = ("name", name) if name is not None else self.expression(scope, sort, 0)
        return ("set", left, self.expression(scope, sort, depth - 1))

    def loop(self, scope, depth):
        if self.dice.often(25):
            return ("while", self.expression(scope, TRUTH, depth - 1), self.command(scope, depth - 1))
        counter = self.dice.below(NAMES)
        inner = scope + [Entry(counter, "value", NUMBER)]
        count = ("set", ("name", counter), ("-", ("name", counter), 1))
        body = ("do", self.command(inner, depth - 2), count)
        return ("block", ("var", counter, self.dice.below(4)), ("while", ("<", 0, ("name", counter)), body))

    def declarations(self, scope, depth):
        made = [self.declaration(scope, depth) for _ in range(1 + self.dice.below(3))]
        return made[0] if len(made) == 1 else ("with", *made)

    def declaration(self, scope, depth):
        name, parameter, sort = self.dice.below(NAMES), self.dice.below(NAMES), self.sort()
        inner = scope + [Entry(parameter, "value", sort, cell=self.dice.often(60))]
        match self.dice.below(5):
            case 0:
                made = ("const", name, self.expression(scope, sort, depth))
                scope.append(Entry(name, "value", sort))
            case 1 | 2:
                made = ("var", name, self.expression(scope, sort, depth))
                scope.append(Entry(name, "value", sort, cell=True))
            case 3:
                made = ("proc", name, parameter, self.command(inner, depth - 1))
                scope.append(Entry(name, "procedure", sort))
            case 4:
                answer = self.sort()
                made = ("fun", name, parameter, self.expression(inner, answer, depth))
                scope.append(Entry(name, "function", sort, answer))
        return made

    def table(self, depth, least, most):
        """A program of between so many nodes, with a block on top."""
        while True:
            scope = []
            program = ("block", self.declarations(scope, depth), self.command(scope, depth))
            table = assemble(program)
            if least <= len(table) // 8 <= most:
                return table


def feed_of(dice):
    return [Fault(1 + dice.below(255)) if dice.often(5) else dice.below(21) - 5 for _ in range(dice.below(10))]


def strip_of(dice):
    space = dice.below(30)
    return RecordStrip(space) if dice.often(50) else TextStrip(2 * space)


def carried(trial, dice):
    """Runs with fuel in pieces."""
    for _ in range(1 + dice.below(4)):
        trial.run(dice.below(60))
    trial.run(dice.pick([40, 3000]))
    trial.report()


def accepted():
    heading("programs by chance")
    dice = Dice(1)
    author = Author(dice)
    ends = {}
    for number in range(150):
        with Trial(f"chance-{number}", feed_of(dice), strip_of(dice)) as trial:
            answer = trial.load(author.table(6, 15, 70))
            assert answer is None
            trial.sum()
            carried(trial, dice)
            report = trial.sequencer.report()
            ends[report.end if report.ended else None] = ends.get(report.end if report.ended else None, 0) + 1
    assert set(ends) == {None, 0, 31, 32, 33, 34, 35, 36, 37, 38}, ends


def careless():
    heading("trees by chance, with names as they come")
    dice = Dice(2)
    author = Author(dice, careless=True)
    verdicts = {}
    with Trial("careless") as trial:
        for _ in range(120):
            verdict = trial.load(author.table(4, 6, 24))
            verdicts[verdict and verdict[0]] = verdicts.get(verdict and verdict[0], 0) + 1
            trial.sum()
    assert min(verdicts.get(number, 0) for number in (None, 8, 9)) >= 15, verdicts


def spoilt_table(dice, table):
    nodes = nodes_in(table)
    at, other = dice.below(len(nodes)), dice.below(len(nodes))
    node = nodes[at]
    match dice.below(12):
        case 0:
            nodes[at], nodes[other] = nodes[other], node
        case 1:
            nodes[at] = nodes[other]
        case 2:
            del nodes[at]
        case 3:
            nodes.insert(at, nodes[other])
        case 4:
            nodes[at] = node._replace(kind=dice.below(28))
        case 5:
            nodes[at] = node._replace(tag=dice.below(9))
        case 6 | 7:
            field = dice.pick("abc")
            nodes[at] = node._replace(**{field: (getattr(node, field) + dice.below(5) - 2) % 65536})
        case 8:
            nodes[at] = node._replace(**{dice.pick("abc"): other})
        case _:
            named = [place for place, node in enumerate(nodes) if node.kind in (7, 10, 11, 12, 13, 23, 25)]
            if named:
                at = dice.pick(named)
                nodes[at] = nodes[at]._replace(tag=dice.below(NAMES))
    return table_of(nodes)


def spoilt():
    heading("tables spoilt by chance")
    dice = Dice(3)
    author = Author(dice)
    verdicts = {}
    with Trial("spoilt") as trial:
        for _ in range(1500):
            table = spoilt_table(dice, author.table(4, 5, 18))
            if dice.often(30) and table:
                table = spoilt_table(dice, table)
            refusal = refusal_of(check, table)
            verdict = refusal and refusal[0]
            # the commonest are cut short
            if verdicts.get(verdict, 0) < 30:
                verdicts[verdict] = verdicts.get(verdict, 0) + 1
                trial.load(table)
                trial.sum()
    assert set(verdicts) >= {None, 3, 4, 5, 6, 8, 9}, verdicts


PARTS = [accepted, careless, spoilt]
