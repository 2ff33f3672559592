#!/usr/bin/env python3
"""Measures hint files: runs that write them beside runs that do not, proofs of paths beside proofs of runs, and files that
are costly for a naive reader.

    bench/hints.py [PROGRAM] [--scale F] [--only NAME] [--keep FOLDER]

Each line of the first table has the steps of a run, the bytes of its hints, the seconds of `run`, of `run --hints`, of
`run --hints --proof` and of `prove` on these hints, the ratio of the last two, and the megabytes that `prove` takes. Each
line of the second has the bytes of the smallest file, the seconds of `prove` at the sizes n, 2n and 4n, and how they grow:
about 2 is linear, about 4 is quadratic. What `prove` prints has to be as expected. Not part of the gate."""
import argparse
import os
import sys
import tempfile

from kore_texts import INT, PROGRAM, applied, definition, hook, nested, ran, rule, symbol, value, written

A, B = "a{}()", "b{}()"
TURNING = definition(*(symbol(name, [], "T") for name in "ab"), rule(A, B), rule(B, A))
PAIRS = definition(symbol("p", ["T", "T"], "T"), symbol("a", [], "T"), rule("X:T{}", "X:T{}"))
FIRST = "kore-hints 1\n"


def counting():
    """A rule with a condition and two operations on integers."""
    n, one = f"N:{INT}{{}}", value("1")
    left, right = applied("t", n), applied("t", applied("add", n, one))
    test = applied("le", n, value("1000000"))
    lines = [symbol("t", [INT], "T"), hook("add", "INT.add"), hook("le", "INT.le", "SortBool"), rule(left, right, test)]
    return definition(*lines), applied("t", value("0"))


def byte_of(definition_text, number):
    """The byte of the rule with this number."""
    at = -1
    for _ in range(number + 1):
        at = definition_text.index("axiom{} ", at + 1)
    return at


def large(n):
    """A configuration of about n bytes in canonical text."""
    return nested("p", [A] * (n // 10))


def one_long_line(n):
    """A step to a configuration of about n bytes."""
    term = large(n)
    return PAIRS, f"{FIRST}{term}\n{byte_of(PAIRS, 0)} {term}\n", "proved 1"


def long_line_that_differs(n):
    """A line of n bytes that is not the configuration after the step."""
    return PAIRS, f"{FIRST}{A}\n{byte_of(PAIRS, 0)} {'a' * n}\n", "kore_prove: hints refused 5 at line 3"


def no_line_end(n):
    """A file of n bytes without LF."""
    return PAIRS, "k" * n, "kore_prove: hints refused 1 at line 1"


def last_line_not_ended(n):
    """A step whose line of n bytes has no LF."""
    return PAIRS, f"{FIRST}{A}\n{byte_of(PAIRS, 0)} {'a' * n}", "kore_prove: hints refused 1 at line 3"


def empty_lines(n):
    """n empty lines after the initial term."""
    newlines = "\n" * n
    return PAIRS, f"{FIRST}{A}\n{newlines}", "kore_prove: hints refused 1 at line 3"


def many_steps(n):
    """n steps from a to b and back, the last of which is not one."""
    steps = f"{byte_of(TURNING, 0)} {B}\n{byte_of(TURNING, 1)} {A}\n" * (n // 2)
    return TURNING, f"{FIRST}{A}\n{steps}1 {A}\n", f"kore_prove: hints refused 2 at line {n // 2 * 2 + 3}"


RUNS = {"turning": (lambda: (TURNING, A), 100_000), "counting": (counting, 10_000)}
FILES = {
    "one_long_line": (one_long_line, 12_500),
    "long_line_that_differs": (long_line_that_differs, 1_000_000),
    "no_line_end": (no_line_end, 10_000_000),
    "last_line_not_ended": (last_line_not_ended, 10_000_000),
    "empty_lines": (empty_lines, 10_000_000),
    "many_steps": (many_steps, 100_000),
}


def run_row(program, folder, name, make, steps):
    """Prints the line of a run, and says whether all printed what they should."""
    given, term = make()
    files = [written(folder, "d.kore", given), written(folder, "t.kore", term)]
    words, hints, proof = [program, "run", *files, "--limit", str(steps)], f"{folder}/h", f"{folder}/p.mm"
    plain, hinted = ran(words, folder), ran([*words, "--hints", hints], folder)
    proved = ran([*words, "--hints", hints, "--proof", proof], folder)
    path = ran([program, "prove", files[0], hints, "--proof", f"{folder}/q.mm", "--calls", "10000000"], folder)
    said = [f"limit {steps}", f"limit {steps}", f"limit {steps}", f"proved {steps}"]
    good = [run.out[:1] == [line] for run, line in zip((plain, hinted, proved, path), said)]
    times = " ".join(f"{run.seconds:8.3f}" for run in (plain, hinted, proved, path))
    line = f"{name:24} {steps:8} {os.path.getsize(hints):10} {times} {path.seconds / proved.seconds:5.2f} {path.megabytes:6.0f}"
    print(line + ("" if all(good) else f"  WRONG: {path.out[:1]} {path.err[:1]}"), flush=True)
    return all(good)


def file_row(program, folder, name, make, n):
    """Prints the line of a file at three sizes, and says whether all printed what they should."""
    seconds, sizes, wrong = [], [], []
    for size in (n, 2 * n, 4 * n):
        given, text, said = make(size)
        files = [written(folder, "d.kore", given), written(folder, "h", text)]
        run = ran([program, "prove", *files, "--proof", f"{folder}/p.mm"], folder)
        first = (run.out or run.err or [f"code {run.code}"])[0]
        wrong += [] if first == said else [first]
        seconds.append(run.seconds)
        sizes.append(len(text))
    growth = " ".join(f"x{after / max(before, 0.01):.1f}" for before, after in zip(seconds, seconds[1:]))
    line = f"{name:24} {sizes[0]:10} {' '.join(f'{s:8.3f}' for s in seconds)} {growth}"
    print(line + (f"  WRONG: {wrong[0][:80]}" if wrong else ""), flush=True)
    return not wrong


def main():
    words = argparse.ArgumentParser()
    words.add_argument("program", nargs="?", default=PROGRAM)
    words.add_argument("--scale", type=float, default=1)
    words.add_argument("--only", default="")
    words.add_argument("--keep")
    given = words.parse_args()
    good = True
    with tempfile.TemporaryDirectory() as temporary:
        folder = given.keep or temporary
        os.makedirs(folder, exist_ok=True)
        for name, (make, steps) in RUNS.items():
            if given.only in name:
                good &= run_row(given.program, folder, name, make, int(steps * given.scale))
        for name, (make, n) in FILES.items():
            if given.only in name:
                good &= file_row(given.program, folder, name, make, int(n * given.scale))
    return 0 if good else 1


if __name__ == "__main__":
    sys.exit(main())
