#!/usr/bin/env python3
"""Measures `check` beside `verify`, on proofs of runs and on databases that are costly for a naive check.

    bench/check.py [PROGRAM] [--scale F] [--only NAME] [--keep FOLDER]

Each line of the first table has the bytes of a proof, the seconds of `verify` and of `check`, their ratio, and the megabytes
that `check` takes. Each line of the second has the bytes of the smallest database, the seconds of `check` at the sizes n, 2n
and 4n, and how they grow: about 2 is linear, about 4 is quadratic. What `check` prints has to be as expected. Not part of
the gate."""
import argparse
import sys
import tempfile

from kore_texts import INT, PROGRAM, TOP, applied, definition, hook, ran, rule, symbol, value, written

HEADER = (TOP / "crates/print_header/stdout").read_text()


def turning():
    """Rules from a to b and back."""
    symbols = [symbol(name, [], "T") for name in "ab"]
    return definition(*symbols, rule("a{}()", "b{}()"), rule("b{}()", "a{}()")), "a{}()", 100_000


def counting():
    """A rule with a condition and two operations on integers."""
    n, one = f"N:{INT}{{}}", value("1")
    left, right = applied("t", n), applied("t", applied("add", n, one))
    test = applied("le", n, value("1000000"))
    lines = [symbol("t", [INT], "T"), hook("add", "INT.add"), hook("le", "INT.le", "SortBool"), rule(left, right, test)]
    return definition(*lines), applied("t", value("0")), 10_000


def nearly_rows(n):
    """n copies of a rule of the header with an `$e` that the rule does not have."""
    rule_of = "${{ e{0} $e |- own $. f{0} $e |- ( \\imp own own ) $. g{0} $e |- own $. a{0} $a |- own $. $}}\n"
    lines = "$v own $. ow $f #Pattern own $.\n" + "".join(rule_of.format(f"x{i}") for i in range(n))
    return symbols(1), HEADER + lines, "unjustified 3 at"


def long_axiom(n):
    """One `$a` of n symbols."""
    return symbols(1), HEADER + f"ax $a |- {'( ' * n}$.\n", "unjustified 3 at"


def deep_axiom(n):
    """One `$a` that is nested n deep on the right."""
    begun, ended = "( \\imp \\top " * n, " )" * n
    return symbols(1), HEADER + f"ax $a |- {begun}\\top{ended} $.\n", "unjustified 3 at"


def value_declarations(n):
    """Declarations of n values."""
    lines = "".join(f"$c d:{INT}:{text} $. n{i} $a #Pattern d:{INT}:{text} $.\n" for i, text in enumerate(values(n)))
    return symbols(1), HEADER + lines, "unjustified 1 at"


def values(n):
    """The texts of values in tokens: each byte in two hexadecimal digits."""
    return ["".join(f"{ord(digit):02x}" for digit in str(i)) for i in range(n)]


def axioms_of_rules(n):
    """Declarations of n symbols, and the axioms of n rules."""
    names = [f"c{i}" for i in range(n)]
    declared = "".join(f"$c f:{name} $. n{i} $a #Pattern f:{name} $.\n" for i, name in enumerate(names))
    ends = [(names[i], names[(i + 1) % n]) for i in range(n)]
    lines = "".join(
        f"a{i} $a |- ( \\imp ( \\and f:{a} \\top ) ( \\next f:{b} ) ) $.\n" for i, (a, b) in enumerate(ends))
    return symbols(n), HEADER + declared + lines, "unjustified 1 at"


def symbols(n):
    """A definition of n symbols, with a rule from each to the next."""
    names = [f"c{i}" for i in range(n)]
    rules = [rule(f"{names[i]}{{}}()", f"{names[(i + 1) % n]}{{}}()") for i in range(n)]
    return definition(*(symbol(name, [], "T") for name in names), *rules)


PROOFS = {"turning": turning, "counting": counting}
HOSTILE = {
    "nearly_rows": (nearly_rows, 5_000),
    "long_axiom": (long_axiom, 250_000),
    "deep_axiom": (deep_axiom, 100_000),
    "value_declarations": (value_declarations, 2_500),
    "axioms_of_rules": (axioms_of_rules, 5_000),
}


def proof_line(program, folder, name, scale):
    """Runs, verifies and checks; prints the line, and returns whether all ended as they should."""
    text, term, steps = PROOFS[name]()
    files = [written(folder, f"{name}.kore", text), written(folder, f"{name}.term", term)]
    proof = f"{folder}/{name}.mm"
    ran([program, "run", *files, "--limit", str(int(steps * scale)), "--proof", proof], folder)
    verified, checked = ran([program, "verify", proof], folder), ran([program, "check", files[0], proof], folder)
    size = len(open(proof, "rb").read())
    ratio = checked.seconds / max(verified.seconds, 0.001)
    print(f"{name:20} {size:12,} {verified.seconds:8.2f} {checked.seconds:8.2f} {ratio:6.1f} {checked.megabytes:8.0f}")
    return verified.code == 0 and checked.code == 0


def hostile_line(program, folder, name, scale):
    """Checks at three sizes; prints the line, and returns whether each ended as it should."""
    make, n = HOSTILE[name]
    seconds, first, good = [], 0, True
    for factor in (1, 2, 4):
        text, database, wanted = make(int(n * scale) * factor)
        files = [written(folder, f"{name}{factor}.kore", text), written(folder, f"{name}{factor}.mm", database)]
        first = first or len(database)
        checked = ran([program, "check", *files], folder)
        seconds.append(checked.seconds)
        said = checked.out[0] if checked.out else f"code {checked.code}"
        if not said.startswith(wanted):
            print(f"{name}: {said}, not {wanted}")
            good = False
    growth = [b / max(a, 0.001) for a, b in zip(seconds, seconds[1:])]
    print(f"{name:20} {first:12,} " + " ".join(f"{s:8.2f}" for s in seconds) + "  " + " ".join(f"x{g:.1f}" for g in growth))
    return good


def main():
    parser = argparse.ArgumentParser()
    parser.add_argument("program", nargs="?", default=PROGRAM)
    parser.add_argument("--scale", type=float, default=1)
    parser.add_argument("--only")
    parser.add_argument("--keep")
    asked = parser.parse_args()
    good = True
    with tempfile.TemporaryDirectory() as made:
        folder = asked.keep or made
        for name in PROOFS:
            if asked.only in (None, name):
                good &= proof_line(asked.program, folder, name, asked.scale)
        for name in HOSTILE:
            if asked.only in (None, name):
                good &= hostile_line(asked.program, folder, name, asked.scale)
    sys.exit(0 if good else 1)


if __name__ == "__main__":
    main()
