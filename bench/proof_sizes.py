#!/usr/bin/env python3
"""Runs definitions for which sizes of proofs are compared, and prints what a step costs.

    bench/proof_sizes.py [PROGRAM] [--only NAME] [--all] [--keep FOLDER]

Each line has the nodes of the configuration after j steps and after k steps, the bytes of proof that a step takes (the file
with `--limit k` less that with `--limit j`, divided by k - j), the microseconds of processor time that a step takes with
and without a proof, by the same differences, the bytes of the whole proof, and the most megabytes. The lemmas of rules that
are first used after j steps count with the steps. Not part of the gate."""
import argparse
import collections
import contextlib
import itertools
import os
import sys
import tempfile

import loop_language
from kompiled import Kompiled, cell, item, kseq, label, variable
from kore_texts import (
    BOOL, INJECTION, INT, PROGRAM, TOP, applied, definition, hook, injected, ran, rule, sort, subsort, symbol, value,
    written,
)

Case = collections.namedtuple("Case", "name definition term first last", defaults=(2, 12))


def example(folder, name, term, first, last):
    """A definition and a term of examples/."""
    at = TOP / "examples" / folder
    return Case(name, (at / "definition.kore").read_text(), (at / f"{term}.kore").read_text(), first, last)


def constants():
    """(a) A rule from a to b and one from b to a."""
    symbols = [symbol(name, [], "T") for name in "ab"]
    yield Case("constants", definition(*symbols, rule("a{}()", "b{}()"), rule("b{}()", "a{}()")), "a{}()", 2, 10002)


def turning():
    """(b) A rule with three variables, on a configuration of ten nodes."""
    yield example("turning", "three variables, ten nodes", "thousand", 3, 1003)


def counting():
    """(c) A rule with a condition, a test and an addition of whole numbers."""
    number = f"N:{INT}{{}}"
    lines = [hook("add", "INT.add"), hook("lt", "INT.lt", BOOL), symbol("t", [INT], "T")]
    more = rule(applied("t", number), applied("t", applied("add", number, value(1))), applied("lt", number, value(10**6)))
    yield Case("condition, two operations", definition(*lines, more), applied("t", value(1000)), 2, 1002)


def numbers(n, name="cons", last="nil{}()"):
    """A list of n numbers, injected as items."""
    for i in range(n, 0, -1):
        last = applied(name, injected(INT, "Item", value(i % 10)), last)
    return last


def lists(*more):
    """A definition with lists of items, among which are numbers."""
    lines = [*map(sort, ["Exp", "Item", "List", "State", "W"]), INJECTION, subsort(INT, "Exp"), subsort("Exp", "Item")]
    return definition(*lines, symbol("nil", [], "List"), symbol("cons", ["Item", "List"], "List"), *more)


def taking_apart():
    """(d) A rule takes the number at the front from a list, and another one puts it back. A step is half of these two."""
    head, tail = f"N:{INT}{{}}", "L:List{}"
    whole, apart = applied("t", applied("cons", injected(INT, "Item", head), tail)), applied("u", head, tail)
    lines = [symbol("t", ["List"], "T"), symbol("u", [INT, "List"], "T"), rule(whole, apart), rule(apart, whole)]
    for n in (10, 100, 400):
        yield Case(f"list of {n} taken apart", lists(*lines), applied("t", numbers(n)))


def meeting():
    """(e) Two rules on a configuration with a list. In either side two injections meet, below five symbols."""
    def around(pattern):
        return "w{}(" * 5 + pattern + ")" * 5

    both = around(applied("e", injected("Exp", "Item", "X:Exp{}"), "L:List{}"))
    ping, pong = (applied("t", applied(state), both) for state in ("ping", "pong"))
    lines = [
        symbol("ping", [], "State"), symbol("pong", [], "State"), symbol("e", ["Item", "List"], "W"),
        symbol("w", ["W"], "W"), symbol("t", ["State", "W"], "T"), rule(ping, pong), rule(pong, ping),
    ]
    for n in (10, 100, 400):
        part = around(applied("e", injected(INT, "Item", value(5)), numbers(n)))
        yield Case(f"injections meet, list of {n}", lists(*lines), applied("t", "ping{}()", part))


def growing():
    """(f) A term that grows by one symbol in each step, up to the height of 500."""
    for first, last in ((2, 499), (2, 12), (240, 250), (489, 499)):
        yield example("growing", f"growing, steps {first} to {last}", "twenty", first, last)


def imp():
    """(g) The small imperative language of examples/, as it is."""
    runs = [("sum", 0, 67), ("sum", 47, 67), ("greatest_common_divisor", 0, 31), ("collatz", 400, 700)]
    for term, first, last in [*runs, ("forever", 100, 200)]:
        yield example("imp", f"imp {term[:12]}, steps {first} to {last}", term, first, last)


def language():
    """(h) A language with cells, 48 rules with conditions, and functions, in the form of kompile."""
    text, term = loop_language.definition_and_terms()
    for variables, later in ((3, 0), (6, 2), (10, 5)):
        yield Case(f"language, {variables} variables", text, term(variables, later), 300, 500)


def wide_symbols():
    """(i) A symbol of 64 arguments in a cell. A step replaces three of them, by two operations each."""
    made = Kompiled("BROAD")
    add, sub, less, row = (label(it) for it in ("_+Int_", "_-Int_", "_<Int_", "row"))
    made.sort("Row")
    made.below("Row", "KItem")
    for name, hooked, result in ((add, "INT.add", "Int"), (sub, "INT.sub", "Int"), (less, "INT.lt", "Bool")):
        made.hooked(name, hooked, result)
    made.constructor(row, ["Int"] * 64, "Row")
    configuration = made.cells(("left", "Int"))
    names, n = [variable(f"A{i}", "Int") for i in range(64)], variable("N", "Int")
    after = list(names)
    for i in (5, 30, 60):
        after[i] = applied(sub, applied(add, names[i], names[i + 1]), n)
    before, then = (kseq(item("Row", applied(row, *some))) for some in (names, after))
    made.rule("turn", configuration(before, n), configuration(then, applied(sub, n, value(1))), applied(less, value(0), n))
    start = kseq(item("Row", applied(row, *(value(7 * i) for i in range(64)))), rest="dotk{}()")
    term = configuration(start, value(1000), counter=cell("generatedCounter", value(0)))
    yield Case("64 arguments, three replaced", made.text(), term, 1, 11)


def nested_numbers():
    """A definition that reverses a list of numbers by a function, and then by a rule for each number."""
    made = Kompiled("NESTED")
    names = (".Numbers", "_:_", "turn(_)", "move(_,_)", "turned(_,_)", "_<Int_")
    none, some, turn, move, turned, less = (label(name, "NESTED") for name in names)
    made.sort("Numbers", "Task")
    made.below("Task", "KItem")
    made.hooked(less, "INT.lt", "Bool")
    for name, sorts, result in ((none, [], "Numbers"), (some, ["Int", "Numbers"], "Numbers"), (turn, ["Numbers"], "Task")):
        made.constructor(name, sorts, result)
    made.constructor(move, ["Numbers", "Numbers"], "Task")
    made.function(turned, ["Numbers", "Numbers"], "Numbers")
    configuration, end = made.cells(("left", "Int")), applied(none)
    x, n, rest, done = variable("X", "Int"), variable("N", "Int"), variable("L", "Numbers"), variable("M", "Numbers")

    def task(name, *arguments, rest=variable("Rest", "K")):
        return kseq(item("Task", applied(name, *arguments)), rest=rest)

    all_turned = configuration(task(move, applied(turned, rest, end), end), value(0))
    made.rule("all", configuration(task(turn, rest), n), all_turned, applied(less, value(0), n))
    before, after = task(move, applied(some, x, rest), done), task(move, rest, applied(some, x, done))
    made.rule("one", configuration(before), configuration(after))
    made.rule("end", configuration(task(move, end, done)), configuration(task(turn, done)))
    made.equation(turned, [(end, "Numbers"), (done, "Numbers")], "Numbers", done)
    more = applied(turned, rest, applied(some, x, done))
    made.equation(turned, [(applied(some, x, rest), "Numbers"), (done, "Numbers")], "Numbers", more)
    term = end
    for i in range(492):
        term = applied(some, value(3 * i - 700), term)
    start = task(turn, term, rest="dotk{}()")
    return made.text(), configuration(start, value(1), counter=cell("generatedCounter", value(0)))


def deep(all_steps):
    """(j) 492 nested symbols and 494 steps: one calls a function 493 times, and 492 move one number each."""
    for first, last in ((0, 1), (2, 6), *([(1, 494)] if all_steps else [])):
        yield Case(f"492 nested, steps {first} to {last}", *nested_numbers(), first, last)


def nodes(run):
    """The nodes of the configuration that a run printed. Each has one bracket."""
    return run.out[1].count("(") if len(run.out) > 1 else 0


def measured(program, folder, case):
    """Prints the line of a case, and says whether its runs ended as they should."""
    files = [written(folder, "d.kore", case.definition), written(folder, "t.kore", case.term)]
    plain, proved, sizes, good = [], [], [], True
    for limit in (case.first, case.last):
        words = [program, "run", *files, "--limit", str(limit), "--calls", "10000000"]
        plain.append(ran(words, folder))
        proved.append(ran([*words, "--proof", f"{folder}/proof.mm"], folder))
        for run in (plain[-1], proved[-1]):
            good &= run.out[:1] in ([f"limit {limit}"], [f"stuck {limit}"])
        good = good and plain[-1].out == proved[-1].out
        sizes.append(os.path.getsize(f"{folder}/proof.mm") if os.path.exists(f"{folder}/proof.mm") else 0)
    steps = case.last - case.first
    said = (proved[1].out or proved[1].err or [f"code {proved[1].code}"])[0]
    numbers = [
        f"{case.name:35} {steps:6}", *(f"{nodes(run):6}" for run in proved), f"{(sizes[1] - sizes[0]) / steps:11,.0f}",
        *(f"{(runs[1].seconds - runs[0].seconds) / steps * 10**6:10,.1f}" for runs in (proved, plain)),
        f"{sizes[1]:12,}", *(f"{runs[1].megabytes:6.1f}" for runs in (proved, plain)),
    ]
    print(*numbers, "" if good else f" WRONG: {said[:80]}", flush=True)
    return good


def main():
    parser = argparse.ArgumentParser(description=__doc__, formatter_class=argparse.RawDescriptionHelpFormatter)
    parser.add_argument("program", nargs="?", default=PROGRAM, metavar="PROGRAM")
    parser.add_argument("--only", help="the cases whose names have this text")
    parser.add_argument("--all", action="store_true", help="all steps of the deepest configuration too")
    parser.add_argument("--keep", help="a folder in which the files of the last case are left")
    words = parser.parse_args()
    if not os.access(words.program, os.X_OK):
        parser.error(f"no program {words.program}")
    good = True
    for titles in (
        ("", "", "nodes", "nodes", "bytes", "us a step", "us a step", "bytes", "MB", "MB"),
        ("case", "steps", "j", "k", "a step", "proof", "plain", "in all", "proof", "plain"),
    ):
        widths = (-35, 6, 6, 6, 11, 10, 10, 12, 6, 6)
        print(*(title.rjust(width) if width > 0 else title.ljust(-width) for title, width in zip(titles, widths)))
    every = [constants(), turning(), counting(), taking_apart(), meeting(), growing(), imp(), language(), wide_symbols()]
    with contextlib.nullcontext(words.keep) if words.keep else tempfile.TemporaryDirectory() as folder:
        os.makedirs(folder, exist_ok=True)
        for case in itertools.chain(*every, deep(words.all)):
            if not words.only or words.only in case.name:
                good &= measured(os.path.abspath(words.program), folder, case)
    return 0 if good else 1


if __name__ == "__main__":
    sys.exit(main())
