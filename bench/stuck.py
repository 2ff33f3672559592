#!/usr/bin/env python3
"""Measures what the proof that a run is stuck costs: bytes and time a rule, for programs of more and more rules.

    bench/stuck.py PROGRAM [N ..]

PROGRAM is the built program. For each kind of rules and each N it runs a term that is stuck at once, with `--proof` and
with `--proof --stuck`. It prints what the second one has more, a rule: bytes of the file, and microseconds of processor
time."""
import os
import resource
import subprocess
import sys
import tempfile

from kore_texts import INT, applied, definition, hook, rule, sort, symbol, value

ELEMENTS = (sort("S"), symbol("a", [], "S"), symbol("b", [], "S"))


def heads(n):
    """Rules without variables, each with a head of its own."""
    symbols = [symbol(f"c{i}", [], "T") for i in range(n + 1)]
    return definition(*symbols, *(rule(f"c{i}{{}}()", f"c{n}{{}}()") for i in range(n))), f"c{n}{{}}()"


def variables(n):
    """Rules with two variables, each with a head of its own."""
    symbols = [symbol(f"f{i}", ["S", "S"], "T") for i in range(n + 1)]
    rules = [rule(applied(f"f{i}", "X:S{}", "Y:S{}"), applied(f"f{i}", "Y:S{}", "X:S{}")) for i in range(n)]
    return definition(*ELEMENTS, *symbols, *rules), f"f{n}{{}}(a{{}}(),b{{}}())"


def repeated(n):
    """Rules with one head and a repeated variable, which would have to be two terms."""
    pair = applied("f", "X:S{}", "X:S{}")
    return definition(*ELEMENTS, symbol("f", ["S", "S"], "T"), *([rule(pair, pair)] * n)), "f{}(a{}(),b{}())"


def conditions(n):
    """Rules that match, each with a condition that is false."""
    number = f"N:{INT}{{}}"
    left = applied("t", number)
    rules = [rule(left, left, applied("gt", number, value(str(i)))) for i in range(n)]
    return definition(symbol("t", [INT], "T"), hook("gt", "INT.gt", "SortBool"), *rules), applied("t", value("0"))


def measured(program, folder, *more):
    """The bytes of the proof file and the processor seconds of a run, the least of three."""
    proof, seconds = f"{folder}/p.mm", []
    for _ in range(3):
        before = resource.getrusage(resource.RUSAGE_CHILDREN)
        words = ["run", f"{folder}/d.kore", f"{folder}/t.kore", "--limit=5", f"--proof={proof}", *more]
        subprocess.run([program, *words], check=True, stdout=subprocess.DEVNULL)
        after = resource.getrusage(resource.RUSAGE_CHILDREN)
        seconds.append(after.ru_utime + after.ru_stime - before.ru_utime - before.ru_stime)
    return os.path.getsize(proof), min(seconds)


def main():
    program = os.path.abspath(sys.argv[1])
    numbers = [int(it) for it in sys.argv[2:]] or [100, 1000, 2000]
    with tempfile.TemporaryDirectory() as folder:
        for kind in (heads, variables, repeated, conditions):
            print(f"{kind.__name__}: {kind.__doc__}")
            for n in numbers:
                definition, term = kind(n)
                with open(f"{folder}/d.kore", "w") as it:
                    it.write(definition)
                with open(f"{folder}/t.kore", "w") as it:
                    it.write(term)
                bytes_without, without = measured(program, folder)
                bytes_with, seconds = measured(program, folder, "--stuck")
                size, time = (bytes_with - bytes_without) / n, (seconds - without) / n * 1e6
                print(f"  {n:6} rules: {size:9.1f} bytes a rule, {time:9.1f} us a rule")


main()
