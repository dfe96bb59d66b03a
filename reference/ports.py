"""Trials of feeds and strips at their edges."""

from small import LEAST, MOST, READ, SEVEN, Fault, RecordStrip, TextStrip
from writer import Trial, heading, over_ramp, refused_ramp, whole

COPY = ("while", True, ("out", READ))
LENGTHS = [value for digits in range(1, 11) for value in (10 ** (digits - 1), min(10**digits - 1, MOST))]
PRICED = [0, *LENGTHS, *(-value for value in LENGTHS), LEAST]


def strips():
    heading("exactly enough space, and one too little")
    for value in dict.fromkeys(PRICED):
        line = len(str(value)) + 1
        for space in (line, line - 1):
            with Trial(f"text-{value}-in-{space}", [value], TextStrip(space)) as trial:
                trial.load(("out", READ))
                report = trial.run()
                assert report.end == (0 if space == line else 38)
    for truth, line in ((True, 5), (False, 6)):
        for space in (line, line - 1):
            whole(f"text-{str(truth).lower()}-in-{space}", ("out", truth), strip=TextStrip(space), end=0 if space == line else 38)
    # a full strip keeps its space, so that a shorter line may still go onto it by another take
    with Trial("text-shorter-later", [123, 4, 56, 7, 8], TextStrip(5)) as trial:
        trial.load(COPY)
        trial.run()
        trial.load(COPY)
        trial.run()
        trial.load(COPY)
        trial.run()
    for space in (0, 1, 3, 4):
        with Trial(f"records-{space}", [1, 2, 3, 4, 5], RecordStrip(space)) as trial:
            trial.load(COPY)
            trial.run()
            trial.load(SEVEN)
            trial.run()


def feeds():
    heading("traces and ramps")
    whole("faults-and-readings", ("do", ("out", READ), ("out", READ)), [Fault(9), 1, 2], end=37)
    with Trial("after-a-fault", [1, Fault(1), 2, Fault(255), Fault(7), 3]) as trial:
        for _ in range(5):
            trial.load(COPY)
            trial.run()
            trial.report()
    for name, start, step, count in [
        ("ramp-none", 5, 5, 0),
        ("ramp-none-beyond", MOST, MOST, 0),
        ("ramp-one", MOST, MOST, 1),
        ("ramp-one-least", LEAST, LEAST, 1),
        ("ramp-flat", 3, 0, 4),
        ("ramp-up", -3, 2, 5),
        ("ramp-down", 7, -4, 5),
        ("ramp-to-most", MOST - 2, 1, 3),
        ("ramp-to-least", LEAST + 2, -1, 3),
        ("ramp-whole-range", LEAST, MOST, 3),
        ("ramp-least-step", 0, LEAST, 2),
        ("ramp-most-step", -1, MOST, 2),
        ("ramp-from-most", MOST, LEAST, 2),
    ]:
        with over_ramp(name, start, step, count) as trial:
            trial.load(COPY)
            report = trial.run()
            assert report.end == 36 and len(trial.strip.held) == count
    with over_ramp("ramp-left", 10, 10, 6) as trial:
        trial.load(("do", ("out", READ), ("out", ("+", READ, READ))))
        trial.run()
    longest = ("block", ("var", "last", 0), ("while", True, ("set", "last", READ)))
    for name, start, step in (("ramp-longest", LEAST, 65538), ("ramp-longest-down", MOST, -65538)):
        with over_ramp(name, start, step, 65535) as trial:
            trial.load(longest)
            trial.run()
            trial.load(SEVEN)
            trial.run()
    for name, start, step, count in [
        ("ramp-refused-up", MOST, 1, 2),
        ("ramp-refused-down", LEAST, -1, 2),
        ("ramp-refused-third", 0, MOST, 3),
        ("ramp-refused-third-down", 0, LEAST, 3),
        ("ramp-refused-at-once", -1, LEAST, 2),
        ("ramp-refused-last", MOST - 2, 1, 4),
        ("ramp-refused-longest", LEAST, 65539, 65535),
        ("ramp-refused-longest-down", MOST, -65539, 65535),
    ]:
        refused_ramp(name, start, step, count)


PARTS = [strips, feeds]
