#!/usr/bin/env python3
"""Prints how long steps and calls take that choose among many rules or equations, and how long Maude takes for the same rules
if the machine has it. Not part of the gate.

Usage: bench/matching.py [PROGRAM]

Each measurement has a line: the time of one step or call in microseconds, without that of reading the definition; the time of
reading; the peak of memory; and the ratio to Maude's time. The first table has n rules, for some n: rules that differ at the
root (`heads`), equations of one function that differ there (`equations`), rules of which each is an instance of the next
(`overlap`), rules that differ only eight levels deep (`deep`), and rules with a variable that occurs twice (`repeated`). The
second has small languages."""
import shutil
import subprocess
import sys
import tempfile
import time

from kore_texts import PROGRAM, applied, definition, equation, ran, rule, symbol, written

STEPS = 100_000


def heads(n):
    """The constructors c0 to c(n - 1), each of which becomes the next."""
    names = [f"c{i}" for i in range(n)]
    rules = [rule(applied(name), applied(names[(i + 1) % n])) for i, name in enumerate(names)]
    peer = "mod M is sort T . ops " + " ".join(names) + " : -> T . "
    peer += " ".join(f"rl {name} => {names[(i + 1) % n]} ." for i, name in enumerate(names)) + f" endm\nrew [{STEPS}] c0 .\n"
    return definition(*(symbol(name, [], "T") for name in names), *rules), "c0{}()", peer


def equations(n):
    """A function from each of n constructors to the next, which is called in each step."""
    names = [f"c{i}" for i in range(n)]
    lines = [symbol(name, [], "T") for name in names] + [symbol("f", ["T"], "T", "function{}()"), symbol("t", ["T"], "T")]
    lines += [equation("f", [(applied(name), "T")], "T", applied(names[(i + 1) % n])) for i, name in enumerate(names)]
    lines.append(rule("t{}(X:T{})", "t{}(f{}(X:T{}))"))
    peer = "mod M is sort T . ops " + " ".join(names) + " : -> T . op f : T -> T . op t : T -> T [frozen] . var X : T . "
    peer += " ".join(f"eq f({name}) = {names[(i + 1) % n]} ." for i, name in enumerate(names))
    return definition(*lines), "t{}(c0{}())", peer + f" rl t(X) => t(f(X)) . endm\nrew [{STEPS}] t(c0) .\n"


def high(name, levels, inside):
    for _ in range(levels):
        inside = applied(name, inside)
    return inside


def overlap(n):
    """Rule i takes n - i levels off and puts as many on again, so the last rule matches whatever an earlier one matches."""
    lines = [symbol("z", [], "T"), symbol("s", ["T"], "T"), symbol("t", ["T"], "T")]
    lines += [rule(f"t{{}}({high('s', n - i, 'X:T{}')})", f"t{{}}({high('s', n - i - 1, 'X:T{}')})") for i in range(n - 1)]
    lines.append(rule("t{}(s{}(X:T{}))", f"t{{}}({high('s', n, 'X:T{}')})"))
    return definition(*lines), f"t{{}}({high('s', n, 'z{}()')})", None


def deep(n):
    """As `heads`, below eight other constructors."""
    names = [f"c{i}" for i in range(n)]
    lines = [symbol(name, [], "T") for name in names] + [symbol("s", ["T"], "T")]
    lines += [rule(high("s", 8, applied(name)), high("s", 8, applied(names[(i + 1) % n]))) for i, name in enumerate(names)]
    return definition(*lines), high("s", 8, "c0{}()"), None


def repeated(n):
    """As `heads`, beside two arguments that each rule asks to be equal."""
    names = [f"c{i}" for i in range(n)]
    lines = [symbol(name, [], "T") for name in names] + [symbol("p", ["T"] * 3, "T")]
    for i, name in enumerate(names):
        lines.append(rule(f"p{{}}({name}{{}}(),X:T{{}},X:T{{}})", f"p{{}}({names[(i + 1) % n]}{{}}(),X:T{{}},X:T{{}})"))
    return definition(*lines), "p{}(c0{}(),c0{}(),c0{}())", None


# The bits of the tape are written behind the end marker. In the state `up` the machine adds one and goes left while there is a
# carry; in the state `back` it goes right to the end.
TAPE = {
    ("up", "i"): ("up", "o", "left"), ("up", "o"): ("back", "i", "right"), ("up", "b"): ("back", "i", "right"),
    ("back", "o"): ("back", "o", "right"), ("back", "i"): ("back", "i", "right"), ("back", "b"): ("up", "b", "left"),
}


def tape():
    """A machine that counts in binary digits, with its tape as two lists and the digit between them."""
    lines = [symbol("tape", ["T"] * 4, "T"), symbol("e", [], "T"), symbol("l", ["T", "T"], "T")]
    lines += [symbol(name, [], "T") for name in ("up", "back", "i", "o", "b")]
    peer = ["mod M is sort T . op tape : T T T T -> T . op l : T T -> T . ops e up back i o b : -> T . vars A X Y : T ."]
    for (state, digit), (after, put, way) in TAPE.items():
        for far in ("e", "l(A,X)"):
            head, rest = ("b", "e") if far == "e" else ("A", "X")
            if way == "left":
                sides = (state, far, digit, "Y"), (after, rest, head, f"l({put},Y)")
            else:
                sides = (state, "X" if far == "e" else "Y", digit, far), (after, f"l({put},{'X' if far == 'e' else 'Y'})", head, rest)
            plain = ["tape(" + ",".join(side) + ")" for side in sides]
            lines.append(rule(*map(in_kore, plain)))
            peer.append(f"rl {plain[0]} => {plain[1]} .")
    start = "tape(up,e,b,e)"
    return definition(*lines), in_kore(start), " ".join(peer) + f" endm\nrew [{STEPS}] {start} .\n"


def in_kore(text):
    """A plain term, in which capital letters are variables, as a Kore pattern of the sort T."""
    out, name = "", ""
    for letter in text + " ":
        if letter.isalnum():
            name += letter
            continue
        if name:
            out += f"{name}:T{{}}" if name.isupper() else name + "{}" + ("" if letter == "(" else "()")
            name = ""
        out += letter.strip()
    return out


# Numbers in binary digits, the lowest first: `z` is nothing, `d` doubles, and `u` doubles and adds one.
ARITHMETIC = [
    ("next", "z", "u(z)"), ("next", "d(X)", "u(X)"), ("next", "u(X)", "d(next(X))"),
    ("plus", "z,Y", "Y"), ("plus", "X,z", "X"), ("plus", "d(X),d(Y)", "d(plus(X,Y))"), ("plus", "u(X),d(Y)", "u(plus(X,Y))"),
    ("plus", "d(X),u(Y)", "u(plus(X,Y))"), ("plus", "u(X),u(Y)", "d(next(plus(X,Y)))"),
    ("times", "z,Y", "z"), ("times", "d(X),Y", "d(times(X,Y))"), ("times", "u(X),Y", "plus(Y,d(times(X,Y)))"),
]


def arithmetic():
    """The squares of the numbers from zero on, by functions of several equations. Each step computes one."""
    lines = [symbol("z", [], "T"), symbol("d", ["T"], "T"), symbol("u", ["T"], "T"), symbol("t", ["T", "T"], "T")]
    lines += [symbol("next", ["T"], "T", "function{}()")] + [symbol(name, ["T", "T"], "T", "function{}()") for name in ("plus", "times")]
    peer = ["mod M is sort T . op z : -> T . ops d u next : T -> T . ops plus times : T T -> T . op t : T T -> T . vars X Y : T ."]
    for function, arguments, value in ARITHMETIC:
        parts = arguments.split(",")
        lines.append(equation(function, [(in_kore(part), "T") for part in parts], "T", in_kore(value)))
        peer.append(f"eq {function}({arguments}) = {value} .")
    step = "t(X,Y)", "t(next(X),times(X,X))"
    lines.append(rule(*map(in_kore, step)))
    steps = STEPS // 20
    peer.append(f"rl {step[0]} => {step[1]} . endm\nrew [{steps}] t(z,z) .\n")
    return definition(*lines), in_kore("t(z,z)"), " ".join(peer), steps


def seconds_of(words, text):
    """The seconds that Maude takes, the least of three."""
    best = None
    for _ in range(3):
        begun = time.monotonic()
        subprocess.run(words, input=text, capture_output=True, text=True, check=False)
        taken = time.monotonic() - begun
        best = taken if best is None else min(best, taken)
    return best


def measured(program, folder, name, made, steps):
    """One line of a table."""
    text, term, peer = made
    files = [written(folder, "d.kore", text), written(folder, "t.kore", term)]
    read, run = (ran([program, "run", *files, "--limit", str(limit), "--calls", "10000000"], folder) for limit in (0, steps))
    each = (run.seconds - read.seconds) / steps * 1e6
    line = f"{name}: {each:.3f} us a step, {read.seconds:.2f} s to read {len(text):,} bytes, {run.megabytes:.0f} MB"
    if peer and shutil.which("maude"):
        words = ["maude", "-no-banner", "-no-advise"]
        bare = peer[: peer.index("\nrew")] + "\nquit\n"
        other = (seconds_of(words, peer + "quit\n") - seconds_of(words, bare)) / steps * 1e6
        line += f"; Maude {other:.3f} us, ratio {each / max(other, 1e-9):.2f}"
    print(f"{line}; {run.out[0] if run.out else run.err}", flush=True)


def main():
    program = sys.argv[1] if len(sys.argv) > 1 else PROGRAM
    with tempfile.TemporaryDirectory() as folder:
        for make, sizes in (
            (heads, (10, 1_000, 10_000, 49_000)), (equations, (10, 1_000, 10_000, 49_000)), (overlap, (10, 100, 400)),
            (deep, (10, 1_000, 10_000)), (repeated, (10, 1_000, 10_000)),
        ):
            for n in sizes:
                measured(program, folder, f"{make.__name__} {n:,}", make(n), STEPS)
        measured(program, folder, "tape", tape(), STEPS)
        *made, steps = arithmetic()
        measured(program, folder, "arithmetic", made, steps)


if __name__ == "__main__":
    main()
