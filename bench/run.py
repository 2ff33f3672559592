#!/usr/bin/env python3
"""Prints how long runs and readings take, and how long Maude takes if the machine has it. Not part of the gate.

Each measurement has a line: seconds of processor time and the peak of memory, the best of three runs; for a run the steps
or calls per second, for a reading the megabytes per second; and the ratio to Maude's time for the same rules."""
import os
import pathlib
import resource
import shutil
import subprocess
import tempfile

TOP = pathlib.Path(__file__).resolve().parent.parent
PROGRAM = TOP / "crates/kore_prove/out/kore_prove"
TRUTHS = 'hooked-sort SortBool{} [hook{}("BOOL.Bool")]'
NUMBERS = 'hooked-sort SortInt{} [hook{}("INT.Int")]'


def hook(name, result, row):
    return f'hooked-symbol {name}{{}}(SortInt{{}},SortInt{{}}) : {result}{{}} [function{{}}(),hook{{}}("{row}")]'


def value(n):
    return f'\\dv{{SortInt{{}}}}("{n}")'


def rule(left, right, condition="\\top{T{}}()", sort="T"):
    parts = [f"\\and{{{sort}{{}}}}({left},{condition})", f"\\and{{{sort}{{}}}}({right},\\top{{{sort}{{}}}}())"]
    return f"axiom{{}} \\rewrites{{{sort}{{}}}}({','.join(parts)}) []"


def holds(test):
    return f'\\equals{{SortBool{{}},T{{}}}}({test},\\dv{{SortBool{{}}}}("true"))'


def module(*lines):
    return "\n".join(["[]", "module M", *lines, "endmodule []", ""])


def counting(steps):
    """A rule with a condition, used again and again."""
    last = value(steps)
    return (
        module(
            NUMBERS, TRUTHS, "sort T{} []",
            hook("add", "SortInt", "INT.add"), hook("lt", "SortBool", "INT.lt"),
            "symbol t{}(SortInt{}) : T{} [constructor{}()]",
            rule("t{}(N:SortInt{})", f"t{{}}(add{{}}(N:SortInt{{}},{value(1)}))", holds(f"lt{{}}(N:SortInt{{}},{last})")),
        ),
        f"t{{}}({value(0)})",
        f"mod M is protecting INT . sort T . op t : Int -> T . var N : Int . "
        f"crl t(N) => t(N + 1) if N < {steps} . endm\nrew t(0) .\n",
    )


def fibonacci(n):
    """A function of two calls."""
    def equation(argument, condition, right):
        return (
            "axiom{R} \\implies{R}("
            + (f'\\equals{{SortBool{{}},R}}({condition},\\dv{{SortBool{{}}}}("true"))' if condition else "\\top{R}()")
            + f",\\equals{{SortInt{{}},R}}(fib{{}}({argument}),\\and{{SortInt{{}}}}({right},\\top{{SortInt{{}}}}()))) []"
        )

    def before(k):
        return f"fib{{}}(sub{{}}(N:SortInt{{}},{value(k)}))"

    return (
        module(
            NUMBERS, TRUTHS, "sort T{} []",
            hook("add", "SortInt", "INT.add"), hook("sub", "SortInt", "INT.sub"), hook("ge", "SortBool", "INT.ge"),
            "symbol fib{}(SortInt{}) : SortInt{} [function{}()]",
            "symbol t{}(SortInt{}) : T{} [constructor{}()]",
            equation(value(0), "", value(0)), equation(value(1), "", value(1)),
            equation("N:SortInt{}", f"ge{{}}(N:SortInt{{}},{value(2)})", f"add{{}}({before(1)},{before(2)})"),
        ),
        f"t{{}}(fib{{}}({value(n)}))",
        f"fmod M is protecting INT . op fib : Int -> Int . var N : Int . eq fib(0) = 0 . eq fib(1) = 1 . "
        f"ceq fib(N) = fib(N - 1) + fib(N - 2) if N >= 2 . endfm\nred fib({n}) .\n",
    )


def many(count):
    """As many rules, each from one constructor to the next."""
    symbols = [f"symbol c{i}{{}}() : T{{}} [constructor{{}}()]" for i in range(count + 1)]
    rules = [rule(f"c{i}{{}}()", f"c{i + 1}{{}}()") for i in range(count)]
    return module("sort T{} []", *symbols, *rules), "c0{}()"


def measured(command, **more):
    """The least seconds of processor time of three runs, and the most megabytes."""
    seconds, most = None, 0
    for _ in range(3):
        before = resource.getrusage(resource.RUSAGE_CHILDREN)
        ran = subprocess.run(["/usr/bin/time", "-f", "%M", *command], capture_output=True, text=True, check=False, **more)
        after = resource.getrusage(resource.RUSAGE_CHILDREN)
        taken = after.ru_utime + after.ru_stime - before.ru_utime - before.ru_stime
        seconds = taken if seconds is None else min(seconds, taken)
        most = max(most, int(ran.stderr.split()[-1]) / 1024)
    return seconds, most, ran.stdout


def main():
    if not PROGRAM.exists():
        subprocess.run([TOP / "kore_prove"], check=False, stdout=subprocess.DEVNULL)
    with tempfile.TemporaryDirectory() as at:
        definition, term, maude = (os.path.join(at, name) for name in ("d.kore", "t.kore", "m.maude"))

        def run(name, texts, limit, units, unit):
            pathlib.Path(definition).write_text(texts[0])
            pathlib.Path(term).write_text(texts[1])
            seconds, most, said = measured([PROGRAM, "run", definition, term, "--limit", str(limit), "--calls", "10000000"])
            line = f"{name}: {seconds:.2f} s, {most:.0f} MB, {units / max(seconds, 0.001):,.0f} {unit} a second"
            if len(texts) > 2 and shutil.which("maude"):
                pathlib.Path(maude).write_text(texts[2] + "quit\n")
                other = measured(["maude", "-no-banner", maude])[0]
                line += f"; Maude {other:.2f} s, ratio {seconds / other:.2f}"
            print(f"{line}; {said.splitlines()[0] if said else 'nothing printed'}", flush=True)

        run("1,000,000 steps under a condition", counting(1_000_000), 1_000_000, 1_000_000, "steps")
        run("fib(27), 3,000,000 calls and hooks", fibonacci(27), 1, 3_000_000, "calls")
        for count in (1_000, 10_000, 100_000):
            texts = many(count)
            run(f"{count:,} symbols and rules, one step", texts, 1, len(texts[0]), "bytes")


main()
