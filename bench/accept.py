#!/usr/bin/env python3
"""Writes definitions that are costly for a naive reader, accepts or refuses each at sizes n, 10n and 100n, and prints how
time grows.

    bench/accept.py [--program FILE] [--only NAME] [--size N]

Each line has the bytes of the largest definition, the seconds of processor time and the megabytes at each size, and the
growth of the seconds per byte from one size to the next: about 1 is linear, about 10 is quadratic. The term is not a term,
so that nothing is run. Not part of the gate."""
import argparse
import os
import pathlib
import subprocess
import tempfile

TOP = pathlib.Path(__file__).resolve().parent.parent
PROGRAM = TOP / "crates/kore_prove/out/kore_prove"
HEAD = ["sort T{} []", 'hooked-sort B{} [hook{}("BOOL.Bool")]', 'hooked-sort I{} [hook{}("INT.Int")]']
LESS = 'hooked-symbol lt{}(I{},I{}) : B{} [function{}(),hook{}("INT.lt")]'


def module(*lines, name="M"):
    return "\n".join([f"module {name}", *lines, "endmodule []", ""])


def definition(*lines):
    return "[]\n" + module(*HEAD, *lines)


def rule(left, right, condition="\\top{T{}}()"):
    return f"axiom{{}} \\rewrites{{T{{}}}}(\\and{{T{{}}}}({left},{condition}),\\and{{T{{}}}}({right},\\top{{T{{}}}}())) []"


def rules(n):
    """n constructors and n rules from one to the next."""
    symbols = [f"symbol c{i}{{}}() : T{{}} [constructor{{}}()]" for i in range(n + 1)]
    return definition(*symbols, *(rule(f"c{i}{{}}()", f"c{i + 1}{{}}()") for i in range(n)))


def conditions(n):
    """n rules of one constructor with eight variables and a condition, each with a priority of its own."""
    given = ",".join(f"V{i}:I{{}}" for i in range(8))
    lines = []
    for i in range(n):
        test = f'\\equals{{B{{}},T{{}}}}(lt{{}}(V0:I{{}},\\dv{{I{{}}}}("{i}")),\\dv{{B{{}}}}("true"))'
        lines.append(rule(f"t{{}}({given})", f"t{{}}({given})", test)[:-2] + f'[priority{{}}("{n - i}")]')
    return definition(LESS, f"symbol t{{}}({','.join(['I{}'] * 8)}) : T{{}} [constructor{{}}()]", *lines)


def equation(function, argument, right):
    return (
        f"axiom{{R}} \\implies{{R}}(\\and{{R}}(\\top{{R}}(),\\and{{R}}(\\in{{I{{}},R}}(X0:I{{}},{argument}),\\top{{R}}())),"
        f"\\equals{{T{{}},R}}({function}{{}}(X0:I{{}}),\\and{{T{{}}}}({right},\\top{{T{{}}}}()))) []"
    )


def equations(n):
    """One function with n equations."""
    lines = [equation("f", f'\\dv{{I{{}}}}("{n - i}")', "c{}()") for i in range(n)]
    return definition("symbol c{}() : T{} [constructor{}()]", "symbol f{}(I{}) : T{} [function{}()]", *lines)


def functions(n):
    """n functions with an equation each."""
    symbols = [f"symbol f{i}{{}}(I{{}}) : T{{}} [function{{}}()]" for i in range(n)]
    lines = [equation(f"f{i}", "N:I{}", "c{}()") for i in range(n)]
    return definition("symbol c{}() : T{} [constructor{}()]", *symbols, *lines)


def said_ac(n):
    """n symbols that axioms declare to be associative."""
    symbols = [f"symbol c{i}{{}}(T{{}},T{{}}) : T{{}} [constructor{{}}()]" for i in range(n)]
    lines = [f"axiom{{R}} \\equals{{T{{}},R}}(c{i}{{}}(X:T{{}},Y:T{{}}),c{i}{{}}(Y:T{{}},X:T{{}})) [comm{{}}()]" for i in range(n)]
    return definition(*symbols, *lines)


def variables(n):
    """One rule with n variables."""
    def nested(names):
        while len(names) > 1:
            names = [f"t{len(part)}{{}}({','.join(part)})" for part in (names[i : i + 64] for i in range(0, len(names), 64))]
        return names[0]

    symbols = [f"symbol t{i}{{}}({','.join(['T{}'] * i)}) : T{{}} [constructor{{}}()]" for i in range(1, 65)]
    names = [f"V{i}:T{{}}" for i in range(n)]
    return definition(*symbols, rule(nested(names), nested(names[::-1])))


def fold(n):
    """A fold of n arguments, which is too high."""
    names = ",".join(["c{}()"] * n)
    return definition(
        "symbol c{}() : T{} [constructor{}()]", "symbol p{}(T{},T{}) : T{} [constructor{}()]",
        rule(f"\\left-assoc{{}}(p{{}}({names}))", f"\\right-assoc{{}}(p{{}}({names}))"),
    )


def modules(n):
    """n modules, each of which imports the one before it."""
    texts = [module(f"sort S{i}{{}} []", *([f"import M{i - 1} []"] if i else []), name=f"M{i}") for i in range(n)]
    return "[]\n" + "".join(texts)


def imports(n):
    """n modules, all of which the last one imports."""
    texts = [module(f"sort S{i}{{}} []", name=f"M{i}") for i in range(n)]
    return "[]\n" + "".join(texts) + module(*(f"import M{i} []" for i in range(n)), name="LAST")


def sorts(n):
    """n sorts with a constructor each."""
    declared = [f"sort S{i}{{}} []" for i in range(n)]
    return definition(*declared, *(f"symbol c{i}{{}}() : S{i}{{}} [constructor{{}}()]" for i in range(n)))


def chain(n):
    """n // 10 sorts, each right below the next one. What is kept of them grows with the square of their number."""
    count = n // 10
    declared = [f"sort S{i}{{}} []" for i in range(count + 1)]
    return definition(*declared, *(f"axiom{{}} \\top{{T{{}}}}() [subsort{{S{i}{{}},S{i + 1}{{}}}}()]" for i in range(count)))


def attributes(n):
    """A symbol with n attributes, and n claims and aliases that are passed over."""
    given = ",".join(f'a{i}{{}}("x")' for i in range(n))
    passed = [f"claim{{}} \\top{{T{{}}}}() [a{i}{{}}()]" for i in range(n)]
    return definition(f"symbol c{{}}() : T{{}} [constructor{{}}(),{given}]", *passed)


SHAPES = [rules, conditions, equations, functions, said_ac, variables, fold, modules, imports, sorts, chain, attributes]


def measured(program, at, text):
    at.joinpath("d.kore").write_text(text)
    at.joinpath("t.kore").write_text("(")
    ran = subprocess.run(
        ["/usr/bin/time", "-f", "%U %S %M", *program, at / "d.kore", *([at / "t.kore", "--limit", "0"] if "run" in program else [])],
        capture_output=True, text=True, check=False,
    )
    lines = (ran.stdout + ran.stderr).splitlines()
    user, system, kilobytes = lines[-1].split()
    return max(float(user) + float(system), 0.01), int(kilobytes) / 1024, lines[0]


def main():
    parser = argparse.ArgumentParser(description=__doc__, formatter_class=argparse.RawDescriptionHelpFormatter)
    parser.add_argument("--program", help="a program that accepts the file that it is given, in place of kore_prove")
    parser.add_argument("--only", help="the one shape with this name")
    parser.add_argument("--size", type=int, default=1_000, help="the smallest size")
    words = parser.parse_args()
    program = [os.path.abspath(words.program)] if words.program else [PROGRAM, "run"]
    with tempfile.TemporaryDirectory() as folder:
        for shape in SHAPES:
            if words.only and shape.__name__ != words.only:
                continue
            rows, said, size = [], "", 0
            for n in (words.size, 10 * words.size, 100 * words.size):
                text = shape(n)
                size = len(text)
                seconds, most, said = measured(program, pathlib.Path(folder), text)
                rows.append((seconds, most, size))
            growth = [(b[0] / b[2]) / (a[0] / a[2]) for a, b in zip(rows, rows[1:])]
            each = ", ".join(f"{s:.2f} s {m:.0f} MB" for s, m, _ in rows)
            print(f"{shape.__name__}: {size:,} bytes; {each}; growth {', '.join(f'{g:.1f}' for g in growth)}; {said}", flush=True)


main()
