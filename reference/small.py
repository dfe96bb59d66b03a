"""An independent implementation of the Small sequencer, written from docs/ alone.

It shares no code with the crates. It is slow and plain on purpose: it is what the program `trials` is compared with.

- check, translate, Machine: docs/LANGUAGE.md and docs/MACHINE.md
- Meaning: what a tree does, said without any instruction (docs/LANGUAGE.md, "Meaning")
- Trace, Ramp, RecordStrip, TextStrip: docs/PORTS.md
- full_sheet, half_sheet, open_sheet: docs/SHEET.md
- Sequencer: docs/CALLS.md. For every take it carries out both the machine and the meaning, and asserts that they agree.
- assemble: programs as nested Python tuples
"""

import struct
import sys
from typing import NamedTuple

sys.setrecursionlimit(20000)

LEAST, MOST = -(2**31), 2**31 - 1
MOST_NODES = 512
RUN_FUEL, TAKE_FUEL = 1_000_000, 1_000_000_000


class Refused(Exception):
    """A call is refused, with a number and a node."""

    def __init__(self, number, node=0):
        super().__init__(number, node)
        self.number, self.node = number, node


def refusal_of(call, *arguments):
    try:
        call(*arguments)
    except Refused as refusal:
        return refusal.number, refusal.node
    return None


# ---------------------------------------------------------------------------------------------- nodes and forms

COMMAND, DECLARATION, EXPRESSION = "command", "declaration", "expression"
SORTS = (COMMAND, DECLARATION, EXPRESSION)
ZERO, NAME, TRUTH, OPERATOR, HALF = "zero", "name", "truth", "operator", "half"


class Node(NamedTuple):
    kind: int
    tag: int = 0
    a: int = 0
    b: int = 0
    c: int = 0

    def bytes(self):
        return struct.pack("<BBHHH", *self)


class Form(NamedTuple):
    """A kind: what it is called, its sort, and what byte 1 and the fields a, b and c hold."""

    word: str
    sort: str
    tag: str
    a: str
    b: str
    c: str


FORMS = {
    1: Form("assign", COMMAND, ZERO, EXPRESSION, EXPRESSION, ZERO),
    2: Form("output", COMMAND, ZERO, EXPRESSION, ZERO, ZERO),
    3: Form("if", COMMAND, ZERO, EXPRESSION, COMMAND, COMMAND),
    4: Form("while", COMMAND, ZERO, EXPRESSION, COMMAND, ZERO),
    5: Form("block", COMMAND, ZERO, DECLARATION, COMMAND, ZERO),
    6: Form("sequence", COMMAND, ZERO, COMMAND, COMMAND, ZERO),
    7: Form("procedure call", COMMAND, NAME, EXPRESSION, ZERO, ZERO),
    10: Form("constant", DECLARATION, NAME, EXPRESSION, ZERO, ZERO),
    11: Form("variable", DECLARATION, NAME, EXPRESSION, ZERO, ZERO),
    12: Form("procedure", DECLARATION, NAME, COMMAND, ZERO, NAME),
    13: Form("function", DECLARATION, NAME, EXPRESSION, ZERO, NAME),
    14: Form("pair", DECLARATION, ZERO, DECLARATION, DECLARATION, ZERO),
    20: Form("number", EXPRESSION, ZERO, ZERO, HALF, HALF),
    21: Form("truth", EXPRESSION, TRUTH, ZERO, ZERO, ZERO),
    22: Form("read", EXPRESSION, ZERO, ZERO, ZERO, ZERO),
    23: Form("name", EXPRESSION, NAME, ZERO, ZERO, ZERO),
    24: Form("operation", EXPRESSION, OPERATOR, EXPRESSION, EXPRESSION, ZERO),
    25: Form("function call", EXPRESSION, NAME, EXPRESSION, ZERO, ZERO),
    26: Form("choice", EXPRESSION, ZERO, EXPRESSION, EXPRESSION, EXPRESSION),
}

ALLOWED = {
    ZERO: range(0, 1),
    NAME: range(0, 256),
    TRUTH: range(0, 2),
    OPERATOR: range(1, 7),
    HALF: range(0, 65536),
    COMMAND: range(0, 65536),
    DECLARATION: range(0, 65536),
    EXPRESSION: range(0, 65536),
}


def nodes_in(table):
    return [Node(*fields) for fields in struct.iter_unpack("<BBHHH", table)]


def table_of(nodes):
    return b"".join(node.bytes() for node in nodes)


def children(node):
    """The child fields of a node of a known kind: (number of the child, sort that is wanted)."""
    form = FORMS[node.kind]
    return [(field, rule) for field, rule in zip(node[2:], form[3:]) if rule in SORTS]


def number_in(node):
    return struct.unpack("<i", struct.pack("<HH", node.b, node.c))[0]


# ---------------------------------------------------------------------------------------------- the check of a table

VALUE, PROCEDURE, FUNCTION = "value", "procedure", "function"


def check(table):
    """The nodes of an accepted table; else the first fault is raised."""
    if not table or len(table) % 8 != 0 or len(table) > 8 * MOST_NODES:
        raise Refused(2)
    nodes = nodes_in(table)
    for at, node in enumerate(nodes):
        form = FORMS.get(node.kind)
        if form is None or any(field not in ALLOWED[rule] for field, rule in zip(node[1:], form[2:])):
            raise Refused(3, at)
        if any(child >= at for child, _ in children(node)):
            raise Refused(4, at)
        if any(FORMS[nodes[child].kind].sort != sort for child, sort in children(node)):
            raise Refused(5, at)
    named = [child for node in nodes for child, _ in children(node)]
    for at in range(len(nodes) - 1):
        if named.count(at) != 1:
            raise Refused(6, at)
    root = len(nodes) - 1
    if FORMS[nodes[root].kind].sort != COMMAND:
        raise Refused(7, root)
    check_names(nodes, root, [])
    return nodes


def role_in(scope, name):
    for entry, role in reversed(scope):
        if entry == name:
            return role
    return None


def check_names(nodes, at, scope):
    """Walks the tree at a node; `scope` has the visible names, newest last, and a declaration adds to it."""
    node = nodes[at]
    word = FORMS[node.kind].word
    wanted = {"name": VALUE, "procedure call": PROCEDURE, "function call": FUNCTION}.get(word)
    if wanted:
        role = role_in(scope, node.tag)
        if role is None:
            raise Refused(8, at)
        if role != wanted:
            raise Refused(9, at)
    if word in ("procedure", "function"):
        check_names(nodes, node.a, scope + [(node.c, VALUE)])
    elif word == "block":
        inner = list(scope)
        check_names(nodes, node.a, inner)
        check_names(nodes, node.b, inner)
    else:
        for child, _ in children(node):
            check_names(nodes, child, scope)
    added = {"constant": VALUE, "variable": VALUE, "procedure": PROCEDURE, "function": FUNCTION}.get(word)
    if added:
        scope.append((node.tag, added))


# ---------------------------------------------------------------------------------------------- translation

OPCODES = "NUM TRUTH READ LOOK DEREF OP JF JMP CALL RET ISLOC STORE PUT ENTER LEAVE BIND NEW CLOS HALT".split()
OPCODE = {name: 1 + place for place, name in enumerate(OPCODES)}


class Word(NamedTuple):
    opcode: int
    node: int
    operand: int

    def bytes(self):
        return struct.pack("<BBHi", self.opcode, 0, self.node, self.operand)


class Translator:
    """The code of an accepted tree. `scope` has the visible names, newest last."""

    def __init__(self, nodes):
        self.nodes = nodes
        self.code = []
        self.scope = []

    def emit(self, name, node, operand=0):
        self.code.append(Word(OPCODE[name], node, operand))
        return len(self.code) - 1

    def here(self):
        return len(self.code)

    def aim(self, position):
        """Lets the jump at `position` lead to the present position."""
        self.code[position] = self.code[position]._replace(operand=self.here())

    def newer(self, name):
        """How many entries are newer than the newest one of this name."""
        return next(count for count, entry in enumerate(reversed(self.scope)) if entry == name)

    def plain(self, at):
        self.expression(at)
        self.emit("DEREF", at)

    def expression(self, at):
        node = self.nodes[at]
        match FORMS[node.kind].word:
            case "number":
                self.emit("NUM", at, number_in(node))
            case "truth":
                self.emit("TRUTH", at, node.tag)
            case "read":
                self.emit("READ", at)
            case "name":
                self.emit("LOOK", at, self.newer(node.tag))
            case "operation":
                self.plain(node.a)
                self.plain(node.b)
                self.emit("OP", at, node.tag)
            case "function call":
                self.expression(node.a)
                self.emit("CALL", at, self.newer(node.tag))
            case "choice":
                self.two_ways(at, self.expression)

    def two_ways(self, at, part):
        node = self.nodes[at]
        self.plain(node.a)
        to_else = self.emit("JF", at)
        part(node.b)
        to_end = self.emit("JMP", at)
        self.aim(to_else)
        part(node.c)
        self.aim(to_end)

    def command(self, at):
        node = self.nodes[at]
        match FORMS[node.kind].word:
            case "assign":
                self.expression(node.a)
                self.emit("ISLOC", at)
                self.plain(node.b)
                self.emit("STORE", at)
            case "output":
                self.plain(node.a)
                self.emit("PUT", at)
            case "if":
                self.two_ways(at, self.command)
            case "while":
                again = self.here()
                self.plain(node.a)
                to_end = self.emit("JF", at)
                self.command(node.b)
                self.emit("JMP", at, again)
                self.aim(to_end)
            case "block":
                before = len(self.scope)
                self.emit("ENTER", at)
                self.declaration(node.a)
                self.command(node.b)
                self.emit("LEAVE", at)
                del self.scope[before:]
            case "sequence":
                self.command(node.a)
                self.command(node.b)
            case "procedure call":
                self.expression(node.a)
                self.emit("CALL", at, self.newer(node.tag))

    def declaration(self, at):
        node = self.nodes[at]
        match FORMS[node.kind].word:
            case "constant":
                self.plain(node.a)
                self.emit("BIND", at)
                self.scope.append(node.tag)
            case "variable":
                self.plain(node.a)
                self.emit("NEW", at)
                self.scope.append(node.tag)
            case "procedure":
                self.routine(at, self.command)
            case "function":
                self.routine(at, self.expression)
            case "pair":
                self.declaration(node.a)
                self.declaration(node.b)

    def routine(self, at, body):
        node = self.nodes[at]
        self.emit("CLOS", at, self.here() + 2)
        behind = self.emit("JMP", at)
        self.scope.append(node.c)
        body(node.a)
        self.scope.pop()
        self.emit("RET", at)
        self.aim(behind)
        self.scope.append(node.tag)


def translate(nodes):
    translator = Translator(nodes)
    root = len(nodes) - 1
    translator.command(root)
    translator.emit("HALT", root)
    code = translator.code
    assert len(code) <= 3 * len(nodes) + 1
    return code


# ---------------------------------------------------------------------------------------------- feeds and strips


class Fault(NamedTuple):
    code: int


class Trace:
    """A feed of readings (numbers) and faults."""

    def __init__(self, items):
        self.items = list(items)
        assert all(1 <= item.code <= 255 if isinstance(item, Fault) else LEAST <= item <= MOST for item in self.items)

    def take(self):
        return self.items.pop(0) if self.items else None

    def copy(self):
        return Trace(self.items)


def ramp(start, step, count):
    items = [start + k * step for k in range(count)]
    if any(not LEAST <= item <= MOST for item in items):
        raise Refused(16)
    return Trace(items)


class Strip:
    def __init__(self, space, held=()):
        self.space = space
        self.held = list(held)

    def put(self, value):
        price = self.price(value)
        if price > self.space:
            return False
        self.held.append(value)
        self.space -= price
        return True

    def copy(self):
        return type(self)(self.space, self.held)


class RecordStrip(Strip):
    def price(self, value):
        return 1


class TextStrip(Strip):
    @staticmethod
    def line(value):
        return (str(value) if type(value) is int else "true" if value else "false").encode() + b"\n"

    def price(self, value):
        return len(self.line(value))

    def text(self):
        return b"".join(self.line(value) for value in self.held)


# ---------------------------------------------------------------------------------------------- what both have


def typed(values):
    """Values with their types, so that 1 and true differ."""
    return [(type(value), value) for value in values]


class End(NamedTuple):
    """How a take ended: the number of the end, the node and the code of a fault."""

    end: int
    node: int
    code: int = 0


class Ended(Exception):
    def __init__(self, end, node, code=0):
        super().__init__(end, node, code)
        self.end = End(end, node, code)


def is_number(value):
    return type(value) is int


def is_truth(value):
    return type(value) is bool


def result_of(operator, left, right, node):
    if not is_number(left) or not is_number(right):
        raise Ended(33, node)
    match operator:
        case 1:
            result = left + right
        case 2:
            result = left - right
        case 3:
            result = left * right
        case 4:
            if right == 0:
                raise Ended(35, node)
            size = abs(left) // abs(right)
            result = size if (left < 0) == (right < 0) else -size
        case 5:
            return left == right
        case 6:
            return left < right
    if not LEAST <= result <= MOST:
        raise Ended(34, node)
    return result


def reading_from(feed, node):
    item = feed.take()
    if item is None:
        raise Ended(36, node)
    if isinstance(item, Fault):
        raise Ended(37, node, item.code)
    return item


# ---------------------------------------------------------------------------------------------- the source meaning


class Cell:
    """A cell of the meaning; `live` until its block is done."""

    def __init__(self, value):
        self.value, self.live = value, True


class Routine(NamedTuple):
    """A procedure or function: its node, and the bindings present where it was declared."""

    node: Node
    bindings: dict


class OutOfVisits(Exception):
    pass


class Meaning:
    """What the tree of `nodes` does between a feed and a strip. Bindings are a dictionary by name, as it stands at a place
    of the text; a declaration answers the dictionary after it."""

    def __init__(self, nodes, feed, strip):
        self.nodes, self.feed, self.strip = nodes, feed, strip
        self.visits = 0
        self.cells = []

    def run(self, most):
        """Goes on for at most so many visits in all; `end` stays None where it does not end within them."""
        self.most, self.end = most, None
        root = len(self.nodes) - 1
        try:
            self.do(root, {})
            self.end = End(0, root)
        except Ended as stop:
            self.end = stop.end
        except OutOfVisits:
            pass

    def visit(self, at):
        if self.visits == self.most:
            raise OutOfVisits
        self.visits += 1
        return self.nodes[at]

    def plain(self, at, bindings):
        value = self.find(at, bindings)
        if isinstance(value, Cell):
            assert value.live
            return value.value
        return value

    def truth(self, at, bindings, owner):
        value = self.plain(at, bindings)
        if not is_truth(value):
            raise Ended(32, owner)
        return value

    def find(self, at, bindings):
        """The value of an expression."""
        node = self.visit(at)
        match FORMS[node.kind].word:
            case "number":
                return number_in(node)
            case "truth":
                return node.tag == 1
            case "read":
                return reading_from(self.feed, at)
            case "name":
                return bindings[node.tag]
            case "operation":
                left = self.plain(node.a, bindings)
                right = self.plain(node.b, bindings)
                return result_of(node.tag, left, right, at)
            case "function call":
                routine, inner = self.called(node, bindings)
                return self.find(routine.node.a, inner)
            case "choice":
                part = node.b if self.truth(node.a, bindings, at) else node.c
                return self.find(part, bindings)

    def called(self, call, bindings):
        """The routine of a call, and the bindings of its body."""
        routine = bindings[call.tag]
        argument = self.find(call.a, bindings)
        return routine, {**routine.bindings, routine.node.c: argument}

    def do(self, at, bindings):
        node = self.nodes[at]
        if FORMS[node.kind].word == "while":
            self.repeat(at, bindings)
            return
        self.visit(at)
        match FORMS[node.kind].word:
            case "assign":
                cell = self.find(node.a, bindings)
                if not isinstance(cell, Cell):
                    raise Ended(31, at)
                value = self.plain(node.b, bindings)
                assert cell.live
                cell.value = value
            case "output":
                if not self.strip.put(self.plain(node.a, bindings)):
                    raise Ended(38, at)
            case "if":
                part = node.b if self.truth(node.a, bindings, at) else node.c
                self.do(part, bindings)
            case "block":
                before = len(self.cells)
                self.do(node.b, self.declare(node.a, bindings))
                for cell in self.cells[before:]:
                    cell.live = False
                del self.cells[before:]
            case "sequence":
                self.do(node.a, bindings)
                self.do(node.b, bindings)
            case "procedure call":
                routine, inner = self.called(node, bindings)
                self.do(routine.node.a, inner)

    def repeat(self, at, bindings):
        while True:
            node = self.visit(at)
            if not self.truth(node.a, bindings, at):
                return
            self.do(node.b, bindings)

    def declare(self, at, bindings):
        node = self.visit(at)
        match FORMS[node.kind].word:
            case "constant":
                return {**bindings, node.tag: self.plain(node.a, bindings)}
            case "variable":
                cell = Cell(self.plain(node.a, bindings))
                self.cells.append(cell)
                return {**bindings, node.tag: cell}
            case "procedure" | "function":
                return {**bindings, node.tag: Routine(node, bindings)}
            case "pair":
                return self.declare(node.b, self.declare(node.a, bindings))


# ---------------------------------------------------------------------------------------------- the machine


class Location(NamedTuple):
    """A location, by the number of its cell."""

    cell: int


class Binding(NamedTuple):
    """A binding and the environment behind it. What is bound is a value, or the position of a body."""

    body: bool
    what: object
    behind: object


class Machine:
    """The stack machine. It asserts that none of its tables ever exceeds the number of nodes."""

    def __init__(self, code, most):
        self.code, self.most = code, most
        self.position = 0
        self.values, self.cells, self.dump = [], [], []
        self.environment, self.in_use = None, 0
        self.steps = 0
        self.end = None
        self.acts = [None] + [getattr(self, name.lower()) for name in OPCODES]

    def run(self, fuel, feed, strip):
        self.feed, self.strip = feed, strip
        try:
            if self.steps >= 1_000_000:
                fuel -= self.leap(fuel)
            for _ in range(fuel):
                self.step()
        except Ended as stop:
            self.end = stop.end

    def step(self):
        word = self.code[self.position]
        self.position += 1
        self.steps += 1
        self.acts[word.opcode](word.operand, word.node)
        assert len(self.values) <= self.most

    def leap(self, fuel):
        """Passes over rounds of an endless loop in a long take, and answers the steps that they have. A round comes back to
        the very state that it began with, and has neither taken nor put anything, so every further round is like it."""
        before, began = self.state(), self.steps
        while self.steps - began < min(fuel, 100):
            self.step()
            if self.state() == before:
                rounds = (fuel - (self.steps - began)) // (self.steps - began)
                self.steps += rounds * (self.steps - began)
                break
        return self.steps - began

    def state(self):
        ports = len(self.feed.items), len(self.strip.held)
        return self.position, typed(self.values), typed(self.cells), self.dump[:], self.environment, self.in_use, ports

    def binding(self, newer):
        entry = self.environment
        for _ in range(newer):
            entry = entry.behind
        return entry

    def bind(self, operand, node):
        self.put_binding(Binding(False, self.values.pop(), self.environment))

    def put_binding(self, binding):
        self.environment = binding
        self.in_use += 1
        assert self.in_use <= self.most

    def put_frame(self, frame):
        self.dump.append(frame)
        assert len(self.dump) <= self.most

    def num(self, operand, node):
        self.values.append(operand)

    def truth(self, operand, node):
        self.values.append(operand == 1)

    def read(self, operand, node):
        self.values.append(reading_from(self.feed, node))

    def look(self, operand, node):
        entry = self.binding(operand)
        assert not entry.body
        self.values.append(entry.what)

    def deref(self, operand, node):
        if isinstance(self.values[-1], Location):
            self.values[-1] = self.cells[self.values[-1].cell]

    def op(self, operand, node):
        right = self.values.pop()
        left = self.values.pop()
        self.values.append(result_of(operand, left, right, node))

    def jf(self, operand, node):
        test = self.values.pop()
        if not is_truth(test):
            raise Ended(32, node)
        if not test:
            self.position = operand

    def jmp(self, operand, node):
        self.position = operand

    def call(self, operand, node):
        argument = self.values.pop()
        entry = self.binding(operand)
        assert entry.body
        self.put_frame((self.environment, self.position, self.in_use))
        self.put_binding(Binding(False, argument, entry.behind))
        self.position = entry.what

    def ret(self, operand, node):
        self.environment, self.position, self.in_use = self.dump.pop()

    def isloc(self, operand, node):
        if not isinstance(self.values[-1], Location):
            raise Ended(31, node)

    def store(self, operand, node):
        value = self.values.pop()
        self.cells[self.values.pop().cell] = value

    def put(self, operand, node):
        if not self.strip.put(self.values.pop()):
            raise Ended(38, node)

    def enter(self, operand, node):
        self.put_frame((self.environment, len(self.cells), self.in_use))

    def leave(self, operand, node):
        self.environment, count, self.in_use = self.dump.pop()
        del self.cells[count:]

    def new(self, operand, node):
        self.cells.append(self.values.pop())
        assert len(self.cells) <= self.most
        self.put_binding(Binding(False, Location(len(self.cells) - 1), self.environment))

    def clos(self, operand, node):
        self.put_binding(Binding(True, operand, self.environment))

    def halt(self, operand, node):
        assert not self.values and not self.cells and not self.dump and self.in_use == 0
        raise Ended(0, node)


# ---------------------------------------------------------------------------------------------- the sheet


def header(*fields):
    return struct.pack("<8H", *fields)


def full_sheet(nodes, code):
    n, m = len(nodes), len(code)
    words = b"".join(word.bytes() for word in code)
    return header(1, n, m, 16, 16 + 8 * n, 16 + 8 * n + 8 * m, 0, 0) + table_of(nodes) + words


def half_sheet(nodes):
    return header(1, len(nodes), 0, 16, 0, 0, 0, 0) + table_of(nodes)


def open_sheet(sheet):
    """The nodes of an accepted sheet; else the first fault is raised."""
    if len(sheet) < 16:
        raise Refused(14)
    fields = struct.unpack("<8H", sheet[:16])
    n, m = fields[1], fields[2]
    total = 16 + 8 * n + 8 * m
    if fields != (1, n, m, 16, 16 + 8 * n, total, 0, 0) or len(sheet) != total:
        raise Refused(14)
    nodes = check(sheet[16 : 16 + 8 * n])
    if sheet != full_sheet(nodes, translate(nodes)):
        raise Refused(15)
    return nodes


# ---------------------------------------------------------------------------------------------- the calls


class HalfSheet(NamedTuple):
    """What start hands to finish: how many nodes it wrote."""

    count: int


class Report(NamedTuple):
    ended: bool
    end: int
    node: int
    code: int
    steps: int


class Sequencer:
    def __init__(self):
        self.nodes = None

    def load(self, table):
        self.begin(check(table))

    def open(self, sheet):
        self.begin(open_sheet(sheet))

    def rewind(self):
        self.need_program()
        self.begin(self.nodes)

    def begin(self, nodes):
        if self.nodes is not None:
            self.agree()
        self.nodes, self.code = nodes, translate(nodes)
        self.machine = Machine(self.code, len(nodes))
        self.granted = 0
        self.found = None

    def need_program(self):
        if self.nodes is None:
            raise Refused(1)

    def run(self, fuel, feed, strip):
        self.need_program()
        if self.machine.end is not None:
            raise Refused(11)
        if fuel > RUN_FUEL or self.granted + fuel > TAKE_FUEL:
            raise Refused(10)
        if self.found is None:
            self.found = feed.copy(), strip.copy()
        self.granted += fuel
        self.machine.run(fuel, feed, strip)
        if self.machine.end is not None:
            self.agree()
        return self.report()

    def report(self):
        self.need_program()
        machine = self.machine
        return Report(machine.end is not None, *(machine.end or End(0, 0)), machine.steps)

    def start(self, memory):
        self.need_program()
        if len(memory) < len(full_sheet(self.nodes, self.code)):
            raise Refused(12)
        half = half_sheet(self.nodes)
        memory[: len(half)] = half
        return HalfSheet(len(self.nodes))

    def archive(self, memory):
        return self.finish(memory, self.start(memory))

    def finish(self, memory, started):
        self.need_program()
        sheet, half = full_sheet(self.nodes, self.code), half_sheet(self.nodes)
        if len(memory) < len(sheet):
            raise Refused(12)
        if started.count != len(self.nodes) or memory[: len(half)] != half:
            raise Refused(13)
        memory[: len(sheet)] = sheet
        return len(sheet)

    def agree(self):
        """Asserts that the meaning agrees with what the machine did in this take so far."""
        if self.found is None:
            return
        machine = self.machine
        if machine.end is None:
            # A visit costs at most 3 steps, and no more than about 2 visits go by without a step.
            # Of a long take only the beginning is compared.
            assert machine.steps == self.granted
            steps, n = machine.steps, len(self.nodes)
            assert is_first_part(self.meant(min(steps // 3, 1_000_000)), machine)
            assert steps > 1_000_000 or is_first_part(machine, self.meant(2 * steps + n))
            return
        meaning = self.meant(2 * machine.steps + len(self.nodes))
        assert meaning.end == machine.end, (meaning.end, machine.end)
        assert machine.steps <= 3 * meaning.visits + 1
        assert machine.steps <= self.granted
        assert is_first_part(meaning, machine) and is_first_part(machine, meaning)
        assert meaning.strip.space == machine.strip.space
        self.visits = meaning.visits

    def meant(self, most):
        """The meaning of this take within so many visits."""
        meaning = Meaning(self.nodes, *(port.copy() for port in self.found))
        meaning.run(most)
        return meaning


def is_first_part(less, more):
    """Whether what one has taken and put is a first part of what the other has."""
    held, others = (typed(side.strip.held) for side in (less, more))
    left, rest = less.feed.items, more.feed.items
    return held == others[: len(held)] and len(left) >= len(rest) and left[len(left) - len(rest) :] == rest


# ---------------------------------------------------------------------------------------------- the assembler

OPERATORS = {"+": 1, "-": 2, "*": 3, "/": 4, "=": 5, "<": 6}
READ = ("read",)


class Assembler:
    """Writes a program of nested tuples as nodes, children before parents, a before b before c.

    Commands:     ("set", left, right), ("out", e), ("if", test, c, d), ("while", test, c), ("block", declaration, c),
                  ("do", c, d, ...) in sequence, ("call", name, argument)
    Declarations: ("const", name, e), ("var", name, e), ("proc", name, parameter, c), ("fun", name, parameter, e),
                  ("with", d, e, ...) in pairs
    Expressions:  an int, a bool, READ, a name (str, or ("name", number)), ("+", l, r) and the other operators,
                  ("apply", name, argument), ("choose", test, e, f)

    Names are strings, numbered from 0 as they come up, or numbers.
    """

    def __init__(self):
        self.nodes, self.names = [], {}

    def name(self, name):
        return name if type(name) is int else self.names.setdefault(name, len(self.names))

    def put(self, *fields):
        self.nodes.append(Node(*fields))
        return len(self.nodes) - 1

    def chain(self, kind, parts):
        """The parts bracketed to the right: a; (b; c)."""
        numbers = [self.tree(part) for part in parts]
        last = numbers.pop()
        while numbers:
            last = self.put(kind, 0, numbers.pop(), last)
        return last

    def tree(self, program):
        match program:
            case bool():
                return self.put(21, int(program))
            case int():
                return self.put(20, 0, 0, program & 0xFFFF, program >> 16 & 0xFFFF)
            case str() | ("name", _):
                return self.put(23, self.name(program if type(program) is str else program[1]))
            case ("read",):
                return self.put(22)
            case ("+" | "-" | "*" | "/" | "=" | "<" as operator, left, right):
                return self.put(24, OPERATORS[operator], self.tree(left), self.tree(right))
            case ("apply", name, argument):
                return self.put(25, self.name(name), self.tree(argument))
            case ("choose", test, one, other):
                return self.put(26, 0, self.tree(test), self.tree(one), self.tree(other))
            case ("set", left, right):
                return self.put(1, 0, self.tree(left), self.tree(right))
            case ("out", value):
                return self.put(2, 0, self.tree(value))
            case ("if", test, one, other):
                return self.put(3, 0, self.tree(test), self.tree(one), self.tree(other))
            case ("while", test, body):
                return self.put(4, 0, self.tree(test), self.tree(body))
            case ("block", declaration, body):
                return self.put(5, 0, self.tree(declaration), self.tree(body))
            case ("do", *commands):
                return self.chain(6, commands)
            case ("call", name, argument):
                return self.put(7, self.name(name), self.tree(argument))
            case ("const", name, value):
                return self.put(10, self.name(name), self.tree(value))
            case ("var", name, value):
                return self.put(11, self.name(name), self.tree(value))
            case ("proc", name, parameter, body):
                return self.put(12, self.name(name), self.tree(body), 0, self.name(parameter))
            case ("fun", name, parameter, body):
                return self.put(13, self.name(name), self.tree(body), 0, self.name(parameter))
            case ("with", *declarations):
                return self.chain(14, declarations)
        raise ValueError(program)


def assemble(program):
    """The table of a program."""
    assembler = Assembler()
    assembler.tree(program)
    return table_of(assembler.nodes)


# The two programs that the documents carry through.
SEVEN = ("out", 7)
COUNTDOWN = ("block", ("var", "x", 2), ("while", ("<", 0, "x"), ("do", ("out", "x"), ("set", "x", ("-", "x", 1)))))
