"""Writes crates/trials/stdin and crates/trials/stdout: trials, and what has to come out of them by reference/small.py.

Nothing here looks at what the crates do. What is known of an output from elsewhere is asserted beside the trial.
"""

import pathlib

import chance
import documents
import large
import ports
import programs
import refusals
import sheets
import writer


def main():
    documents.main()
    for module in (programs, refusals, sheets, ports, chance, large):
        for part in module.PARTS:
            part()
    writer.sessions()
    folder = pathlib.Path(__file__).resolve().parent.parent / "crates" / "trials"
    for name, lines in (("stdin", writer.asked), ("stdout", writer.answered)):
        (folder / name).write_text("".join(line + "\n" for line in lines))
    trials = sum(line.startswith(("trial ", "session ")) for line in writer.asked)
    print(f"{trials} trials, {len(writer.asked)} lines of input, {len(writer.answered)} answers")


if __name__ == "__main__":
    main()
