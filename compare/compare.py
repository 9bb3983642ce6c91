"""Compares a program of this repository with the second engine, on fixed and random inputs.

    python3 compare/compare.py bench_session|sheet_tables SECONDS SEED

All fixed inputs are compared, then random ones until SECONDS have passed since the beginning. The
outputs have to be the same to the last character. At the first difference the input is made
smaller and shown with both outputs, and the exit status is 1. An input on which the engine gives
up, since it would take too long, is counted as left out.
"""

import argparse
import collections
import pathlib
import subprocess
import sys
import tempfile
import time

# The folder keeps nothing but its sources.
sys.dont_write_bytecode = True

import engine
import inputs

CRATES = pathlib.Path(__file__).resolve().parent.parent / "crates"
ANSWER_SECONDS = 60
SHRINKING_SECONDS = 15
SHOWN_CHARACTERS = 2000


def built(program):
    """Where a built program lies."""
    return CRATES / program / "out" / program


class Comparison:
    """A program beside the engine; a sheet is handed over as a file of a temporary folder."""

    def __init__(self, program, folder):
        self.program = program
        self.path = built(program)
        self.sheet = pathlib.Path(folder) / "input.sheet"

    def expected(self, case):
        """What the engine says that the program prints, or None where it gives up."""
        if self.program == "sheet_tables":
            return engine.sheet_output(case.data, case.kind)
        try:
            return engine.bench_output(case.data)
        except engine.TooLaborious:
            return None

    def printed(self, case):
        """What the program prints; a status other than 0 and a missing answer are told behind it."""
        command = [self.path]
        if self.program == "sheet_tables":
            self.sheet.write_bytes(case.data)
            command += [case.kind, self.sheet]
        try:
            done = subprocess.run(command, input=case.data, capture_output=True, timeout=ANSWER_SECONDS)
        except subprocess.TimeoutExpired:
            return b"(no answer)\n"
        if done.returncode != 0:
            return done.stdout + b"(exit status %d)\n" % done.returncode
        return done.stdout

    def differs(self, case):
        expected = self.expected(case)
        return expected is not None and expected != self.printed(case)

    def shrunk(self, case):
        """A smaller input on which the outputs differ still, found by leaving out lines, then parts."""
        until = time.monotonic() + SHRINKING_SECONDS
        lines = case.data.split(b"\n")
        lines = self.shrunk_list(lines, until, lambda kept: case._replace(data=b"\n".join(kept)))
        codes = list(b"\n".join(lines))
        codes = self.shrunk_list(codes, until, lambda kept: case._replace(data=bytes(kept)))
        return case._replace(data=bytes(codes))

    def shrunk_list(self, items, until, case_of):
        """Leaves out ever smaller parts of a list, as long as the outputs differ and time is left."""
        size = max(1, len(items) // 2)
        while size > 0:
            place = 0
            while place < len(items) and time.monotonic() < until:
                kept = items[:place] + items[place + size :]
                if self.differs(case_of(kept)):
                    items = kept
                else:
                    place += size
            size //= 2
        return items


def result_of(output):
    """What came of an input in a word or two: `ok`, `refused 4`, `STOP 0`."""
    for row in output.decode().split("\n"):
        words = row.split(" ")
        if words[0] in ("refused", "STOP"):
            return " ".join(words[:2])
        if words[0] == "ok":
            return "ok"
    return "nothing"


def run(comparison, cases, seconds):
    """Compares until the time is up or outputs differ.

    Gives how many inputs of each sort there were, what came of them, and the input that differs.
    """
    until = time.monotonic() + seconds
    sorts, results = collections.Counter(), collections.Counter()
    for case in cases:
        if case.sort != "fixed" and time.monotonic() > until:
            return sorts, results, None
        expected = comparison.expected(case)
        if expected is None:
            results["left out"] += 1
            continue
        sorts[f"{case.sort} {case.kind}"] += 1
        results[result_of(expected)] += 1
        if expected != comparison.printed(case):
            return sorts, results, case


def show_counts(title, counts):
    by_number = sorted(counts.items(), key=lambda entry: (len(entry[0]), entry[0]))
    print(title + ": " + ", ".join(f"{name} {count}" for name, count in by_number))


def show_output(title, output):
    print(f"--- {title}")
    print(output.decode("latin-1")[-SHOWN_CHARACTERS:], end="")


def show_difference(comparison, case):
    small = comparison.shrunk(case)
    print(f"difference, {small.sort} {small.kind}, {len(small.data)} characters:")
    print(repr(small.data))
    show_output("engine", comparison.expected(small))
    show_output("program", comparison.printed(small))


def main():
    parser = argparse.ArgumentParser(description="Compare a program with the second engine.")
    parser.add_argument("program", choices=["bench_session", "sheet_tables"])
    parser.add_argument("seconds", type=float)
    parser.add_argument("seed", type=int)
    arguments = parser.parse_args()
    if not built(arguments.program).exists():
        parser.error(f"{arguments.program} is not built; ./run {arguments.program} builds it")
    streams = {"bench_session": inputs.bench_inputs, "sheet_tables": inputs.sheet_inputs}
    with tempfile.TemporaryDirectory() as folder:
        comparison = Comparison(arguments.program, folder)
        cases = streams[arguments.program](arguments.seed)
        sorts, results, different = run(comparison, cases, arguments.seconds)
        print(f"{sum(sorts.values())} inputs compared, seed {arguments.seed}")
        show_counts("sorts", sorts)
        show_counts("results", results)
        if different is not None:
            show_difference(comparison, different)
            return 1
    print("no difference")
    return 0


if __name__ == "__main__":
    sys.exit(main())
