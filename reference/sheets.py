"""Trials of sheets: writing them in two parts or in one, and opening them."""

from small import COUNTDOWN, READ, SEVEN, Node, assemble, check, full_sheet, half_sheet, header, nodes_in, table_of, translate
from writer import Trial, heading

MOST = ("do", *[SEVEN] * 171)


def sheet_of(program):
    nodes = check(assemble(program))
    return full_sheet(nodes, translate(nodes))


def changed(sheet, at, value):
    return sheet[:at] + bytes([value]) + sheet[at + 1 :]


def writing():
    heading("writing sheets")
    with Trial("half-and-full") as trial:
        trial.paper(70)
        trial.start()
        trial.archive()
        trial.load(SEVEN)
        trial.look()
        trial.start()
        trial.look()
        trial.finish()
        trial.look()
        trial.start()
        trial.look()
    with Trial("memory-short") as trial:
        trial.load(SEVEN)
        for size in (0, 15, 16, 32, 63):
            trial.paper(size)
            trial.start()
            trial.archive()
            trial.look()
        trial.paper(64)
        trial.start()
        trial.paper(63)
        trial.finish()
        trial.paper(64)
        trial.finish()
        trial.start()
        trial.finish()
        trial.look()
    with Trial("not-this-half") as trial:
        trial.load(SEVEN)
        trial.paper(64)
        trial.start()
        memory = bytes(trial.memory)
        for at in range(32):
            trial.poke(at, memory[at] ^ 1)
            trial.finish()
            trial.poke(at, memory[at])
        trial.look()
        trial.poke(33, 0)
        trial.poke(63, 0)
        trial.finish()
        trial.look()
    with Trial("another-program") as trial:
        trial.load(SEVEN)
        trial.paper(400)
        trial.start()
        trial.load(COUNTDOWN)
        trial.finish()
        trial.load(("out", 8))
        trial.finish()
        trial.load(SEVEN)
        trial.finish()
        trial.look()
        trial.load(COUNTDOWN)
        trial.start()
        trial.run(20)
        trial.report()
        trial.finish()
        trial.look()
        trial.run()
    with Trial("half-of-another-program") as trial:
        trial.load(SEVEN)
        trial.paper(200)
        trial.start()
        trial.load(("set", 3, READ))
        for at, value in enumerate(half_sheet(trial.sequencer.nodes)):
            trial.poke(at, value)
        trial.finish()
        trial.look()
        trial.load(("out", 8))
        trial.paper(64)
        for at, value in enumerate(half_sheet(trial.sequencer.nodes)):
            trial.poke(at, value)
        trial.finish()
        trial.look()
    with Trial("archives") as trial:
        for program in (SEVEN, COUNTDOWN, ("out", -7), ("while", True, ("out", READ))):
            trial.load(program)
            trial.paper(len(sheet_of(program)) + 1)
            trial.archive()
            trial.look()
        trial.load(MOST)
        trial.paper(len(sheet_of(MOST)))
        trial.archive()
        trial.look()


def opening():
    heading("opening sheets")
    seven, countdown = sheet_of(SEVEN), sheet_of(COUNTDOWN)
    with Trial("open-and-run") as trial:
        trial.open(countdown)
        trial.sum()
        trial.run(20)
        trial.open(seven[:63])
        trial.report()
        trial.run()
        trial.open(seven)
        trial.code()
        trial.run()
        trial.rewind()
        trial.report()
        trial.run(2)
        trial.rewind()
        trial.run()
        trial.open(sheet_of(MOST))
        trial.sum()
    with Trial("one-byte-changed") as trial:
        for sheet in (seven, countdown):
            trial.flips(sheet)
        trial.report()
    with Trial("rewind-when-new") as trial:
        trial.rewind()
    with Trial("header") as trial:
        for length in (0, 1, 15, 16, 63):
            trial.refuse_sheet((14, 0), seven[:length], f"{length} bytes")
        trial.refuse_sheet((14, 0), seven + b"\0", "a byte too long")
        trial.refuse_sheet((14, 0), half_sheet(check(assemble(SEVEN))), "a half sheet")
        for at in range(16):
            trial.refuse_sheet((14, 0), changed(seven, at, seven[at] ^ 1), f"byte {at} changed")
        trial.refuse_sheet((14, 0), header(1, 2, 5, 16, 32, 72, 0, 0) + seven[16:], "a word too few")
        trial.refuse_sheet((14, 0), header(1, 8194, 4, 16, 32, 64, 0, 0) + seven[16:], "offsets that would wrap at 16 bits")
        trial.refuse_sheet((14, 0), header(1, 2, 8196, 16, 32, 64, 0, 0) + seven[16:], "a total that would wrap at 16 bits")
    with Trial("sheet-tables") as trial:
        trial.refuse_sheet((2, 0), header(1, 0, 0, 16, 16, 16, 0, 0), "no nodes")
        trial.refuse_sheet((2, 0), header(1, 0, 1, 16, 16, 24, 0, 0) + bytes(8), "no nodes, a word")
        trial.refuse_sheet((2, 0), header(1, 513, 0, 16, 4120, 4120, 0, 0) + bytes(4104), "513 nodes")
        number, out = Node(20, 0, 0, 7), Node(2)
        for refusal, nodes in [
            ((3, 0), [Node(8), out]),
            ((4, 1), [number, Node(2, 0, 1)]),
            ((5, 2), [number, out, Node(2, 0, 1)]),
            ((6, 0), [number, number, Node(2, 0, 1)]),
            ((7, 0), [number]),
            ((8, 0), [Node(23, 5), out]),
            ((9, 3), nodes_in(assemble(("block", ("proc", "p", "y", ("out", "y")), ("out", "p"))))),
        ]:
            n = len(nodes)
            trial.refuse_sheet(refusal, header(1, n, 1, 16, 16 + 8 * n, 24 + 8 * n, 0, 0) + table_of(nodes) + bytes(8), f"refusal {refusal[0]}, and no code of it")
    with Trial("sheet-code") as trial:
        for at in range(32, 64):
            trial.refuse_sheet((15, 0), changed(seven, at, seven[at] ^ 1), f"byte {at} changed")
        n = 2
        for words in (0, 3, 5):
            sheet = header(1, n, words, 16, 32, 32 + 8 * words, 0, 0) + seven[16:32] + (seven[32:] + seven[56:])[: 8 * words]
            trial.refuse_sheet((15, 0), sheet, f"{words} words")
        trial.refuse_sheet((15, 0), changed(countdown, 16 + 8 * 15 + 8 * 7 + 4, 99), "another operand")
        trial.report()


PARTS = [writing, opening]
