"""The examples that the documents give, checked against the reference itself."""

from small import COUNTDOWN, LEAST, MOST, READ, RUN_FUEL, SEVEN, Node, RecordStrip, Sequencer, TextStrip, Trace, assemble
from small import check, full_sheet, half_sheet, header, open_sheet, ramp, refusal_of, table_of


def carried_out(table, items=(), strip=None, fuel=RUN_FUEL):
    """The sequencer, feed and strip after one run of a table."""
    sequencer, feed, strip = Sequencer(), Trace(items), strip or RecordStrip(100)
    sequencer.load(table)
    sequencer.run(fuel, feed, strip)
    return sequencer, feed, strip


def examples():
    seven = assemble(SEVEN)
    sequencer, _, strip = carried_out(seven)
    assert strip.held == [7] and sequencer.visits == 2 and sequencer.report() == (True, 0, 1, 0, 4)
    sheet = full_sheet(sequencer.nodes, sequencer.code)
    by_hand = """1 0 2 0 4 0 16 0 32 0 64 0 0 0 0 0  20 0 0 0 7 0 0 0  2 0 0 0 0 0 0 0
        1 0 0 0 7 0 0 0  5 0 0 0 0 0 0 0  13 0 1 0 0 0 0 0  19 0 1 0 0 0 0 0"""
    assert sheet == bytes(map(int, by_hand.split()))
    assert half_sheet(sequencer.nodes) == header(1, 2, 0, 16, 0, 0, 0, 0) + sheet[16:32]

    countdown = assemble(COUNTDOWN)
    sequencer, _, strip = carried_out(countdown, fuel=52)
    assert len(sequencer.nodes) == 15 and len(sequencer.code) == 26
    assert sequencer.report() == (False, 0, 0, 0, 52)
    sequencer.run(1, Trace([]), strip)
    assert sequencer.report() == (True, 0, 14, 0, 53) and strip.held == [2, 1] and sequencer.visits == 31

    assert carried_out(assemble(("out", ("/", -7, 2))))[2].held == [-3]
    for program, end in [
        (("out", ("/", LEAST, -1)), 34),
        (("out", ("/", 1, 0)), 35),
        (("out", ("+", MOST, 1)), 34),
        (("out", READ), 36),
    ]:
        assert carried_out(assemble(program))[0].report().end == end
    sequencer, feed, _ = carried_out(assemble(("set", 3, READ)), [5])
    assert sequencer.report()[:3] == (True, 31, 2) and feed.items == [5]
    assert carried_out(seven, strip=TextStrip(1))[0].report().end == 38
    assert carried_out(seven, strip=TextStrip(2))[2].text() == b"7\n"
    by_location = ("block", ("with", ("var", "v", 1), ("proc", "p", "y", ("set", "y", 5))), ("do", ("call", "p", "v"), ("out", "v")))
    assert carried_out(assemble(by_location))[2].held == [5]


def refusals():
    number, output = Node(20, 0, 0, 7), Node(2)
    procedure = ("block", ("proc", "p", "y", ("out", "y")), ("out", "p"))
    for table, refusal in [
        (bytes(7), (2, 0)),
        (bytes([8, 0, 0, 0, 0, 0, 0, 0]), (3, 0)),
        (table_of([output]), (4, 0)),
        (table_of([number, output, Node(2, 0, 1)]), (5, 2)),
        (table_of([Node(20, 0, 0, 1), number, Node(2, 0, 1)]), (6, 0)),
        (table_of([number]), (7, 0)),
        (table_of([Node(23, 5), output]), (8, 0)),
        (assemble(procedure), (9, 3)),
    ]:
        assert refusal_of(check, table) == refusal, (table, refusal)
    new = Sequencer()
    assert refusal_of(new.run, 1, Trace([]), RecordStrip(1)) == (1, 0) and refusal_of(new.report) == (1, 0)
    ended = carried_out(assemble(SEVEN))[0]
    assert refusal_of(ended.run, 1, Trace([]), RecordStrip(1)) == (11, 0)
    ended.rewind()
    assert refusal_of(ended.run, 1_000_001, Trace([]), RecordStrip(1)) == (10, 0)
    assert refusal_of(ramp, MOST, 1, 2) == (16, 0) and ramp(MOST, 1, 1).items == [MOST]


def sheets():
    sequencer = carried_out(assemble(SEVEN))[0]
    sheet = full_sheet(sequencer.nodes, sequencer.code)
    assert open_sheet(sheet) == sequencer.nodes
    assert refusal_of(open_sheet, sheet[:15]) == (14, 0)
    assert refusal_of(open_sheet, half_sheet(sequencer.nodes)) == (14, 0)
    assert refusal_of(open_sheet, sheet + b"\0") == (14, 0)
    assert refusal_of(open_sheet, header(1, 0, 0, 16, 16, 16, 0, 0)) == (2, 0)
    assert refusal_of(open_sheet, header(1, 513, 0, 16, 4120, 4120, 0, 0) + bytes(4104)) == (2, 0)
    assert refusal_of(open_sheet, sheet[:16] + bytes([8]) + sheet[17:]) == (3, 0)
    assert refusal_of(open_sheet, sheet[:36] + bytes([8]) + sheet[37:]) == (15, 0)
    for at in range(16):
        changed = bytearray(sheet)
        changed[at] ^= 1
        assert refusal_of(open_sheet, bytes(changed)) == (14, 0)
    memory = bytearray(b"\xff" * 70)
    assert refusal_of(sequencer.start, bytearray(63)) == (12, 0)
    half = sequencer.start(bytearray(64))
    assert refusal_of(sequencer.finish, memory, half) == (13, 0)
    half = sequencer.start(memory)
    assert memory == half_sheet(sequencer.nodes) + b"\xff" * 38
    memory[20] ^= 1
    assert refusal_of(sequencer.finish, memory, half) == (13, 0)
    memory[20] ^= 1
    length = sequencer.finish(memory, half)
    assert length == 64 and memory == sheet + b"\xff" * 6


def main():
    examples()
    refusals()
    sheets()


if __name__ == "__main__":
    main()
    print("the reference agrees with the documents")
