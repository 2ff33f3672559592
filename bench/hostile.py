#!/usr/bin/env python3
"""Writes databases that are costly for a naive verifier, verifies each at sizes n, 2n and 4n, and prints how time grows.

    bench/hostile.py [--program FILE] [--only NAME] [--scale F] [--limit MEGABYTES] [--keep FOLDER]

Each line has the bytes of the smallest database, the seconds and megabytes at each size, and the growth of the seconds
from one size to the next: about 2 is linear, about 4 is quadratic. Each database is valid, except that `doubling` has to
end as out of memory. Not part of the gate."""
import argparse
import os
import resource
import subprocess
import sys
import tempfile
import time

TOP = os.path.join(os.path.dirname(os.path.abspath(__file__)), "..")
HEAD = "$c t u $. $v x y $. fx $f t x $. fy $f t y $. "


def number(n):
    """The letters of a compressed proof that stand for the number n, from 1."""
    n -= 1
    letters = chr(ord("A") + n % 20)
    n //= 20
    while n > 0:
        n -= 1
        letters = chr(ord("U") + n % 5) + letters
        n //= 5
    return letters


def variables(n, name="v"):
    """The declarations of n variables, with their types."""
    names = [f"{name}{i}" for i in range(n)]
    return names, "$v " + " ".join(names) + " $.\n" + "".join(f"f{v} $f t {v} $.\n" for v in names)


def long_texts(n):
    """Two texts of n symbols, each of one variable, that have to stay apart."""
    steps = n.bit_length() - 1
    double = "dx $a t x x $. ${ $d x y $. ax $a u x y $. $}\n"
    text = " ".join(["x"] * 2**steps + ["y"] * 2**steps)
    return HEAD + double + f"$d x y $. th $p u {text} $= ( dx ax ) A{'C' * steps}B{'C' * steps}D $.\n"


def many_premises(n):
    """n active `$e`, and n axioms under them."""
    premises = "".join(f"e{i} $e t u $.\n" for i in range(n))
    return HEAD + "${\n" + premises + "".join(f"a{i} $a t u $.\n" for i in range(n)) + "$}\n"


def premises_between(n):
    """n active `$e`, each with an axiom after it."""
    return HEAD + "${\n" + "".join(f"e{i} $e t u $. a{i} $a t u $.\n" for i in range(n)) + "$}\n"


def premises_between_with_variables(n):
    """n active `$e`, each of a variable of its own, with an axiom after each."""
    names, declared = variables(n)
    return HEAD + declared + "${\n" + "".join(f"e{i} $e t {v} $. a{i} $a t u $.\n" for i, v in enumerate(names)) + "$}\n"


def variables_under_premises(n):
    """n active `$e`, and n axioms under them, each with a typed variable of its own, every other one in a block."""
    names, declared = variables(n)
    premises = "".join(f"e{i} $e t u $.\n" for i in range(n))
    axioms = (f"a{i} $a t {v} $.\n" if i % 2 else f"${{ b{i} $e t x $. a{i} $a t {v} $. $}}\n" for i, v in enumerate(names))
    return HEAD + declared + "${\n" + premises + "".join(axioms) + "$}\n"


def declarations_between(n):
    """n active `$e`, and n axioms, with a constant, a typed variable, a `$d` or a block before each."""
    between = ["$c c{i} $. ", "$v v{i} $. f{i} $f t v{i} $. ", "$d x y $. $d y x $. ", "${{ b{i} $a t u $. $}} "]
    premises = "".join(f"e{i} $e t u $.\n" for i in range(n))
    return HEAD + premises + "".join(f"{between[i % 4].format(i=i)}a{i} $a t u $.\n" for i in range(n))


def pair_in_many_groups(n):
    """Two texts of √n variables, kept apart by n groups of one axiom."""
    many = max(int(n**0.5), 2)
    (xs, declared), (ys, others), (zs, rest) = variables(many, "a"), variables(many, "b"), variables(n, "z")
    groups = "".join(f"$d x y {z} $.\n" for z in zs)
    rules = f"jo $a t x y $. no $a t $. ${{ {groups} ax $a u x y {' '.join(zs)} $. $}}\n"
    one, two = (f"f{names[0]} " + "".join(f"f{name} jo " for name in names[1:]) for names in (xs, ys))
    text = " ".join(xs + ys)
    return HEAD + declared + others + rest + rules + f"$d {text} $. th $p u {text} $= {one} {two} {'no ' * n} ax $.\n"


def empty_texts(n):
    """An `$e` of n symbols that are replaced by nothing, and n / 8 citations that compare it."""
    long = " ".join(["x"] * n)
    rules = f"no $a t $. ${{ e $e t {long} $. go $a t {long} $. $}}\n"
    return HEAD + rules + f"th $p t $= ( no go ) A{'AB' * (n // 8)} $.\n"


def empty_statement(n):
    """A statement of n symbols that are replaced by nothing, and n / 8 citations that conclude it."""
    rules = f"no $a t $. go $a t {' '.join(['x'] * n)} $.\n"
    return HEAD + rules + f"th $p t $= ( no go ) A{'B' * (n // 8)} $.\n"


def empty_texts_of_many(n):
    """An `$e` of n symbols that are replaced by nothing, and n / 16 axioms under it, each cited once."""
    long, many = " ".join(["x"] * n), max(n // 16, 2)
    rules = f"no $a t $. ${{ e $e t {long} $. " + "".join(f"go{i} $a t x $.\n" for i in range(many)) + "$}\n"
    labels = " ".join(f"go{i}" for i in range(many))
    return HEAD + rules + f"th $p t $= ( no {labels} ) A{''.join('A' + number(i + 2) for i in range(many))} $.\n"


def empty_statement_under_premise(n):
    """The statement of n symbols under a long `$e`."""
    long = " ".join(["x"] * 300)
    rules = f"no $a t $. ${{ e $e t {long} $. go $a t {' '.join(['x'] * n)} $. $}}\n"
    return HEAD + rules + f"th $p t $= ( no go ) A{'AB' * (n // 8)} $.\n"


def proofs_under_premises(n):
    """n active `$e`, and n theorems under them, whose proofs list a label."""
    premises = "".join(f"e{i} $e t u $.\n" for i in range(n))
    return HEAD + "ax $a t u $. ${\n" + premises + "".join(f"p{i} $p t u $= ( ax ) A $.\n" for i in range(n)) + "$}\n"


def listed_types_under_premises(n):
    """n active `$e`, and n theorems under them, whose proofs list the label of a `$f` that is not mandatory."""
    premises = "".join(f"e{i} $e t u $.\n" for i in range(n))
    return HEAD + "${\n" + premises + "".join(f"p{i} $p t u $= ( fx ) A $.\n" for i in range(n)) + "$}\n"


def repeated_groups(n):
    """The same `$d` n times, and n axioms."""
    return HEAD + "$d x y $.\n" * n + "".join(f"a{i} $a t x y $.\n" for i in range(n))


def repeated_groups_between(n):
    """The same `$d` n times, between `$d` of other variables, and n axioms."""
    names, declared = variables(n)
    groups = "".join(f"$d x y $. $d x {v} $. $d y {v} $.\n" for v in names)
    return HEAD + declared + groups + "".join(f"a{i} $a t x y $.\n" for i in range(n))


def doubling(n):
    """A step that doubles an expression, n times."""
    return HEAD + f"dx $a t x x $. th $p t x $= ( dx ) A{'B' * n} $.\n"


def many_pairs(n):
    """Two variables in n groups of two each, the pair of both last, and n citations that require it."""
    names, declared = variables(n)
    pairs = "".join(f"$d x {v} $. $d y {v} $.\n" for v in names) + "$d x y $.\n"
    rules = "${ $d x y $. ax $a u x y $. $}\n${ $d x y $. e $e u x y $. go $a u x y $. $}\n"
    return HEAD + declared + pairs + rules + "th $p u x y $= " + "fx fy " * n + "fx fy ax " + "go " * n + "$.\n"


def pair_in_large_groups(n):
    """Two variables in n / 32 groups of 18 each, the pair of both in the last, and n / 32 citations that require it."""
    many = max(n // 32, 2)
    (xs, declared), (ys, others) = variables(18, "a"), variables(18, "b")
    without = lambda names, i: " ".join(names[: i % 18] + names[i % 18 + 1 :])
    groups = "".join(f"$d x {without(xs, i)} $. $d y {without(ys, i)} $.\n" for i in range(many)) + f"$d x y {' '.join(xs)} $.\n"
    rules = "${ $d x y $. ax $a u x y $. $}\n${ $d x y $. e $e u x y $. go $a u x y $. $}\n"
    return HEAD + declared + others + rules + groups + "th $p u x y $= " + "fx fy " * many + "fx fy ax " + "go " * many + "$.\n"


def premises_in_one_group(n):
    """n variables that one `$d` keeps apart, and n active `$e`, each of one of them, with an axiom after each."""
    names, declared = variables(n)
    premises = "".join(f"e{i} $e t {v} $. a{i} $a t u $.\n" for i, v in enumerate(names))
    return HEAD + declared + "${\n" + f"$d {' '.join(names)} $.\n" + premises + "$}\n"


def large_group_under_premise(n):
    """n variables that one `$d` keeps apart, and n axioms under a long `$e`, each with one of them."""
    names, declared = variables(n)
    axioms = "".join(f"a{i} $a t {v} $.\n" for i, v in enumerate(names))
    return HEAD + declared + f"$d {' '.join(names)} $.\n${{ e $e t {' '.join(['u'] * 300)} $.\n" + axioms + "$}\n"


def one_group(n):
    """A group of many variables, and citations that require all its pairs."""
    many = max(int(n**0.5), 2)
    names, declared = variables(many)
    text = " ".join(names)
    rules = f"${{ $d {text} $. ax $a u {text} $. $}}\n${{ $d {text} $. e $e u {text} $. go $a u {text} $. $}}\n"
    given = " ".join("f" + v for v in names)
    return HEAD + declared + f"$d {text} $.\n" + rules + f"th $p u {text} $= " + (given + " ") * many + given + " ax " + "go " * many + "$.\n"


def wide_group(n):
    """One group of n variables, one axiom that requires it, and one citation."""
    names, declared = variables(n)
    text = " ".join(names)
    given = " ".join("f" + v for v in names)
    return HEAD + declared + f"$d {text} $.\nax $a u {text} $.\nth $p u {text} $= {given} ax $.\n"


def wide_texts_again(n):
    """Two texts of √n variables each, whose pairs two `$d` keep apart, and √n citations that require it."""
    many = max(int(n**0.5), 2)
    (xs, declared), (ys, others) = variables(many, "a"), variables(many, "b")
    groups = "".join(f"$d {' '.join(xs + half)} $.\n" for half in (ys[: many // 2], ys[many // 2 :]))
    rules = "jo $a t x y $. ${ $d x y $. e $e t x y $. no $a t $. $}\n"
    labels = " ".join(f"f{name}" for name in xs + ys)
    join, apart, one, two, both = (number(2 * many + i) for i in range(1, 6))
    texts = [number(k + 1) + "".join(number(k + i + 1) + join for i in range(1, many)) + "Z" for k in (0, many)]
    steps = "".join(texts) + one + two + join + "Z" + apart + (one + two + both + apart + join) * (many - 1)
    return HEAD + declared + others + rules + groups + f"th $p t $= ( {labels} jo no ) {steps} $.\n"


def groups_at_long_text(n):
    """An axiom with n / 8 groups of two variables. All have one variable in common, which is replaced by a text of n symbols."""
    steps = n.bit_length() - 1
    many = max(n // 8, 2)
    names, declared = variables(many)
    groups = "".join(f"$d x {v} $. $d y {v} $.\n" for v in names)
    given = "".join(number(i + 2) for i in range(many))
    double, apart = number(many + 2), number(many + 3)
    rules = f"dx $a t x x $.\nax $a u x {' '.join(names)} $.\n"
    text = " ".join(["y"] * 2**steps + names)
    return HEAD + declared + groups + rules + f"th $p u {text} $= ( dx ax ) A{double * steps}{given}{apart} $.\n"


def letters_alone(n):
    """Proofs without listed labels, made only of hypotheses and saved steps."""
    return HEAD + "".join(f"p{i} $p t x $= ( ) A $.\n" for i in range(n))


def one_long_proof(n):
    """A proof of n saved steps, each used again."""
    double = "wx $a t x $.\n"
    return HEAD + double + "th $p t x $= ( wx ) AB" + "".join("Z" + "B" for _ in range(n)) + " $.\n"


def listed_labels(n):
    """A proof that lists n labels."""
    names = [f"a{i}" for i in range(n)]
    return HEAD + "".join(f"{a} $a t x $.\n" for a in names) + "th $p t x $= ( " + " ".join(names) + " ) AB $.\n"


def open_blocks(n):
    """n nested blocks, with a variable each."""
    return "$c t $.\n" + "".join(f"${{ $v v{i} $. f{i} $f t v{i} $. a{i} $a t v{i} $.\n" for i in range(n)) + "$} " * n + "\n"


CASES = {
    "long_texts": (long_texts, 2**17),
    "many_premises": (many_premises, 12500),
    "premises_between": (premises_between, 6000),
    "premises_between_with_variables": (premises_between_with_variables, 3000),
    "variables_under_premises": (variables_under_premises, 6000),
    "declarations_between": (declarations_between, 3000),
    "pair_in_many_groups": (pair_in_many_groups, 10000),
    "empty_texts": (empty_texts, 100000),
    "empty_texts_of_many": (empty_texts_of_many, 10000),
    "empty_statement": (empty_statement, 100000),
    "empty_statement_under_premise": (empty_statement_under_premise, 100000),
    "proofs_under_premises": (proofs_under_premises, 5000),
    "listed_types_under_premises": (listed_types_under_premises, 5000),
    "repeated_groups": (repeated_groups, 12500),
    "repeated_groups_between": (repeated_groups_between, 6000),
    "many_pairs": (many_pairs, 12500),
    "one_group": (one_group, 20000),
    "wide_group": (wide_group, 10000),
    "wide_texts_again": (wide_texts_again, 60000),
    "pair_in_large_groups": (pair_in_large_groups, 50000),
    "premises_in_one_group": (premises_in_one_group, 3000),
    "large_group_under_premise": (large_group_under_premise, 3000),
    "groups_at_long_text": (groups_at_long_text, 2**15),
    "letters_alone": (letters_alone, 25000),
    "one_long_proof": (one_long_proof, 200000),
    "listed_labels": (listed_labels, 50000),
    "open_blocks": (open_blocks, 25000),
    "doubling": (doubling, 100),
}


def verified(program, file, limit):
    def bounds():
        resource.setrlimit(resource.RLIMIT_AS, (limit * 2**20, limit * 2**20))

    before = time.monotonic()
    ran = subprocess.Popen([*program, file], stdout=subprocess.PIPE, stderr=subprocess.DEVNULL, preexec_fn=bounds)
    said = ran.stdout.read().decode().strip()
    _, status, used = os.wait4(ran.pid, 0)
    return time.monotonic() - before, used.ru_maxrss // 1024, said or f"status {status}"


def main():
    words = argparse.ArgumentParser()
    words.add_argument("--program", default=f"{TOP}/crates/kore_prove/out/kore_prove verify")
    words.add_argument("--only")
    words.add_argument("--scale", type=float, default=1)
    words.add_argument("--limit", type=int, default=8000, help="megabytes of address space")
    words.add_argument("--keep")
    words = words.parse_args()
    folder = words.keep or tempfile.mkdtemp(prefix="hostile-")
    os.makedirs(folder, exist_ok=True)
    print(f"{'database':32} {'bytes':>9} " + " ".join(f"{'seconds':>8} {'MB':>6}" for _ in range(3)) + "  growth      answer")
    for name, (make, n) in CASES.items():
        if words.only and words.only != name:
            continue
        n = max(int(n * words.scale), 2)
        seconds, line = [], f"{name:32} "
        for size in (n, 2 * n, 4 * n):
            file = f"{folder}/{name}-{size}.mm"
            with open(file, "w") as it:
                it.write(make(size))
            if size == n:
                line += f"{os.path.getsize(file):9} "
            took, megabytes, said = verified(words.program.split(), file, words.limit)
            seconds.append(took)
            line += f"{took:8.2f} {megabytes:6} "
            if not words.keep:
                os.remove(file)
        growth = " ".join(f"{b / a:5.1f}" for a, b in zip(seconds, seconds[1:]))
        print(f"{line} {growth}  {said}", flush=True)


if __name__ == "__main__":
    sys.exit(main())
