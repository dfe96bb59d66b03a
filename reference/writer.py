"""Writing trials down: each call of a trial as a line of input, with what the reference answers as a line of output."""

from small import Fault, HalfSheet, RecordStrip, Refused, Sequencer, TextStrip, Trace, assemble, is_truth, ramp, table_of, typed

RUN_FUEL = 1_000_000

asked, answered = [], []


def word_of(value):
    if isinstance(value, Fault):
        return f"fault:{value.code}"
    return str(value).lower() if is_truth(value) else str(value)


def line_of(*words):
    return " ".join(words)


def heading(text):
    asked.append(f"# {text}")


def fnv(data):
    """The 32-bit FNV-1a sum."""
    total = 2166136261
    for byte in data:
        total = (total ^ byte) * 16777619 & 0xFFFFFFFF
    return total


def spelled(answer):
    if answer is None:
        return "done"
    if isinstance(answer, HalfSheet):
        return "half"
    if isinstance(answer, int):
        return f"length {answer}"
    return line_of("status", *(str(int(field)) for field in answer))


class Trial:
    """A trial of a new sequencer, between one feed and one strip."""

    def __init__(self, name, feed=(), strip=None, feed_line=None):
        self.sequencer, self.memory, self.half = Sequencer(), bytearray(), None
        self.feed = feed if isinstance(feed, Trace) else Trace(feed)
        self.strip = RecordStrip(64) if strip is None else strip
        begin(name, feed_line or line_of("feed trace", *map(word_of, self.feed.items)), self.strip)

    def __enter__(self):
        return self

    def __exit__(self, kind, value, trace):
        if kind:
            return
        if self.sequencer.nodes is not None:
            self.sequencer.agree()
        answered.append(line_of("feed", *map(word_of, self.feed.items)))
        answered.append(line_of("held", *map(word_of, self.strip.held)))
        answered.append(f"space {self.strip.space}")
        if isinstance(self.strip, TextStrip):
            answered.append(line_of("text", *filter(None, [self.strip.text().hex()])))

    def call(self, words, call, *arguments):
        asked.append(words)
        try:
            answer = call(*arguments)
        except Refused as refusal:
            answered.append(f"refused {refusal.number} {refusal.node}")
            return refusal.number, refusal.node
        answered.append(spelled(answer))
        return answer

    def load(self, program, note=None):
        """Loads a table, or a program that is assembled first."""
        table = program if isinstance(program, bytes) else assemble(program)
        words = f"load {table.hex() or '-'}"
        return self.call(f"{words} # {note}" if note else words, self.sequencer.load, table)

    def refuse(self, refusal, program, note=None):
        """Loads what has to be refused so; `refusal` is a number, or a number and a node."""
        answer = self.load(program, note)
        assert refusal in (answer, answer and answer[0]), (note, answer, refusal)

    def run(self, fuel=RUN_FUEL):
        return self.call(f"run {fuel}", self.sequencer.run, fuel, self.feed, self.strip)

    def report(self):
        return self.call("report", self.sequencer.report)

    def open(self, sheet, note=None):
        words = f"open {sheet.hex() or '-'}"
        return self.call(f"{words} # {note}" if note else words, self.sequencer.open, sheet)

    def refuse_sheet(self, refusal, sheet, note):
        answer = self.open(sheet, note)
        assert answer == refusal, (note, answer, refusal)

    def rewind(self):
        return self.call("rewind", self.sequencer.rewind)

    def paper(self, size):
        """Fresh memory for a sheet."""
        asked.append(f"memory {size}")
        self.memory = bytearray(b"\xff" * size)

    def poke(self, at, value):
        asked.append(f"poke {at} {value}")
        self.memory[at] = value

    def look(self):
        asked.append("look")
        answered.append(line_of("memory", *filter(None, [self.memory.hex()])))

    def flips(self, sheet):
        """Opens each sheet that differs from this one in one byte: how many are refused, and how many there are."""
        refused = tried = 0
        for at in range(len(sheet)):
            for change in range(1, 256):
                tried += 1
                try:
                    self.sequencer.open(sheet[:at] + bytes([sheet[at] ^ change]) + sheet[at + 1 :])
                except Refused:
                    refused += 1
        assert refused == tried == 255 * len(sheet)
        asked.append(f"flips {sheet.hex()}")
        answered.append(f"flips {refused} {tried}")

    def start(self):
        answer = self.call("start", self.sequencer.start, self.memory)
        self.half = answer if isinstance(answer, HalfSheet) else self.half

    def finish(self):
        """Spends the half sheet; a refusal hands it back."""
        answer = self.call("finish", self.sequencer.finish, self.memory, self.half)
        self.half = None if isinstance(answer, int) else self.half

    def archive(self):
        self.call("archive", self.sequencer.archive, self.memory)

    def program(self):
        return (self.sequencer.nodes, self.sequencer.code) if self.sequencer.nodes else ([], [])

    def code(self):
        """Lists the code."""
        _, code = self.program()
        asked.append("code")
        answered.append(line_of("code", *(f"{word.opcode}:{word.node}:{word.operand}" for word in code)))

    def sum(self):
        """Counts of nodes and words, and a sum over both."""
        nodes, code = self.program()
        total = fnv(table_of(nodes) + b"".join(word.bytes() for word in code))
        asked.append("sum")
        answered.append(f"sum {len(nodes)} {len(code)} {total}")


def begin(name, feed_line, strip):
    asked.append(f"trial {name}")
    asked.append(feed_line)
    asked.append(f"strip {'records' if isinstance(strip, RecordStrip) else 'text'} {strip.space}")
    answered.append(f"trial {name}")


def over_ramp(name, start, step, count, strip=None):
    return Trial(name, ramp(start, step, count), strip, f"feed ramp {start} {step} {count}")


def refused_ramp(name, start, step, count):
    """A trial whose feed is refused: none of its calls is carried out."""
    try:
        ramp(start, step, count)
    except Refused as refusal:
        begin(name, f"feed ramp {start} {step} {count}", RecordStrip(1))
        asked.extend(["run 1", "report"])
        answered.append(f"refused {refusal.number} {refusal.node}")
        return
    raise AssertionError((start, step, count))


def whole(name, program, feed=(), strip=None, held=None, end=None):
    """One program, listed and run to its end; `held` and `end` are what is known of it beforehand."""
    with Trial(name, feed, strip) as trial:
        trial.load(program)
        trial.code()
        report = trial.run()
        assert report.ended and end in (None, report.end, report[1:4]), (name, report)
        assert held is None or typed(trial.strip.held) == typed(held), (name, trial.strip.held)


CALLS = ("feed", "strip", "load", "open", "rewind", "run", "report")


def blocks(lines):
    """The trials among lines, each with the line that begins it; comments between trials are left out."""
    parts = []
    for line in lines:
        if line.startswith("trial "):
            parts.append([])
        if parts and not line.startswith("#"):
            parts[-1].append(line)
    return parts


def sessions():
    """Each trial of nothing but a session's calls once more, as one session: its answers are the same."""
    for questions, answers in zip(blocks(list(asked)), blocks(list(answered)), strict=True):
        if all(line.split()[0] in CALLS for line in questions[1:]):
            name = questions[0].removeprefix("trial ")
            asked.extend([f"session {name}", *questions[1:]])
            answered.extend([f"session {name}", *answers[1:]])
