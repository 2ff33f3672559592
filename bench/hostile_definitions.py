#!/usr/bin/env python3
"""Writes definitions and terms that are costly for a naive reader or engine, runs each at sizes n, 2n and 4n, without and
with its proof, and prints how time grows.

    bench/hostile_definitions.py [PROGRAM] [--only NAME] [--scale F] [--proof-scale F] [--plain] [--large] [--keep FOLDER]

Each line has the bytes of the definition and the term, the seconds of processor time and the most megabytes at each size,
and the growth of the seconds from n to 4n. `linear` is at most 5, if the bytes grow by 4; more bytes may take as much more.
Less than 0.05 s is `small`. A line with the proof also has the bytes of the proof at 4n, and their growth. The stack has
1,024 kilobytes. What a run prints is checked. Then each limit is checked, at its number and one past it; `limits` is the
name of these checks. Not part of the gate."""
import argparse
import collections
import contextlib
import os
import random
import sys
import tempfile

from kore_texts import (
    BOOL, INJECTION, INT, PROGRAM, TOP, applied, definition, equation, hook, injected, module, nested, once, ran, rule,
    sort, subsort, symbol, value, written,
)

Case = collections.namedtuple("Case", "definition term said limit", defaults=("stuck 1", 2))
A, B, C = "a{}()", "b{}()", "c{}()"
CONSTANTS = [symbol(name, [], "T") for name in "abc"]
PAIR = symbol("p", ["T", "T"], "T")
LESS = hook("lt", "INT.lt", BOOL)
BOTH = hook("and", "BOOL.and", BOOL, (BOOL, BOOL))


def ordered(items, order):
    """The items as they are, from the last to the first, or shuffled."""
    if order == "shuffled":
        return random.Random(7).sample(items, len(items))
    return items if order == "ascending" else items[::-1]


def modules(n, imported):
    """n modules, each with the imports that its number gives. The last one rewrites what the first one declares."""
    first = [sort("T"), *CONSTANTS]
    texts = [module(f"M{i}", *(f"import M{j} []" for j in imported(i)), *([] if i else first)) for i in range(n)]
    last = module("LAST", *(f"import M{j} []" for j in imported(n)), rule(A, B))
    return Case("[]\n" + "".join(texts) + last, A)


def imports_in_a_chain(n):
    """n modules, each of which imports the one before it."""
    return modules(n, lambda i: [i - 1] if i else [])


def imports_of_two(n):
    """n modules, each of which imports the two before it, and these twice."""
    return modules(n, lambda i: [j for j in (i - 1, i - 2, i - 1, i - 2) if j >= 0])


def imports_in_a_square(n):
    """n modules, each of which imports all earlier ones."""
    return modules(n, range)


def sorted_by(pairs, low, high, order, n):
    """A definition with n sorts besides two, and pairs of sorts. A constant of a low sort is injected into a high one."""
    names = ordered(["LOW", *(f"S{i}" for i in range(n)), "HIGH"], order)
    lines = [*map(sort, names), INJECTION, *(subsort(*pair) for pair in ordered(pairs, order))]
    symbols = [*CONSTANTS, symbol("x", [], low), symbol("f", [high], "T")]
    return Case(definition(*lines, *symbols, rule(f"f{{}}(V:{high}{{}})", B)), applied("f", injected(low, high, "x{}()")))


def chain(order):
    """n sorts, each right below the next one."""
    def make(n):
        return sorted_by([(f"S{i}", f"S{i + 1}") for i in range(n - 1)], "S0", f"S{n - 1}", order, n)

    return make


def star_below(order):
    """n sorts right below one."""
    def make(n):
        return sorted_by([(f"S{i}", "HIGH") for i in range(n)], f"S{n // 2}", "HIGH", order, n)

    return make


def star_above(order):
    """One sort right below n."""
    def make(n):
        return sorted_by([("LOW", f"S{i}") for i in range(n)], "LOW", f"S{n // 2}", order, n)

    return make


def wide_fold(n):
    """Folds of n arguments in axioms that are passed over."""
    arguments = ",".join([A, B] * (n // 2))
    folds = [f"\\left-assoc{{}}(p{{}}({arguments}))", f"\\right-assoc{{}}(\\or{{T{{}}}}({arguments}))"]
    return Case(definition(*CONSTANTS, PAIR, *(f"axiom{{}} {fold} []" for fold in folds), rule(A, B)), A)


def wide_fold_in_a_rule(n):
    """A fold of n + 500 arguments as a side of a rule, which is too high."""
    fold = f"\\left-assoc{{}}(p{{}}({','.join([A] * (n + 500))}))"
    text = definition(*CONSTANTS, PAIR, rule(fold, B))
    return Case(text, A, f"kore_prove: definition refused 3 at {text.index(fold)}")


def wide_fold_in_an_equation(n):
    """A fold of n + 500 arguments in an equation, which closes the function."""
    fold = f"\\right-assoc{{}}(p{{}}({','.join([A] * (n + 500))}))"
    lines = [PAIR, symbol("f", ["T"], "T", "function{}()"), equation("f", [(A, "T")], "T", fold), rule(A, B)]
    return Case(definition(*CONSTANTS, *lines), "f{}(a{}())", "blocked 0 Closed f")


def wide_fold_in_the_term(n):
    """A term that is a fold of n + 500 arguments, which is too high."""
    fold = f"\\right-assoc{{}}(p{{}}({','.join([A] * (n + 500))}))"
    return Case(definition(*CONSTANTS, PAIR, rule(A, B)), fold, "kore_prove: term refused 3 at 0")


def attributes_of_a_symbol(n):
    """n attributes on a declaration."""
    given = ",".join(f'x{i}{{}}("{i}")' for i in range(n))
    return Case(definition(*CONSTANTS, symbol("d", [], "T", f"{given},constructor{{}}()"), rule("d{}()", B)), "d{}()")


def attributes_of_a_rule(n):
    """n attributes on a rule, its priority last."""
    given = ",".join(f"x{i}{{}}()" for i in range(n))
    return Case(definition(*CONSTANTS, rule(A, B, attributes=f'{given},priority{{}}("7")')), A)


def attributes_of_one_name(n):
    """The same attribute n times, on a symbol and on a rule."""
    given = ",".join(["constructor{}()"] * n)
    return Case(definition(*CONSTANTS, symbol("d", [], "T", given), rule("d{}()", B, attributes=given)), "d{}()")


def passed_over(n):
    """n axioms and claims that are passed over."""
    kinds = [
        "axiom{R} \\exists{R}(V:T{},\\equals{T{},R}(V:T{},p{}(X:T{},Y:T{}))) [functional{}()]",
        "axiom{} \\not{T{}}(\\and{T{}}(a{}(),p{}(X:T{},Y:T{}))) [constructor{}()]",
        "axiom{R} \\equals{T{},R}(p{}(a{}(),X:T{}),X:T{}) [simplification{}()]",
        "axiom{} \\right-assoc{}(\\or{T{}}(a{}(),\\exists{T{}}(X:T{},p{}(X:T{},X:T{})),\\bottom{T{}}())) [constructor{}()]",
        "claim{} \\rewrites{T{}}(a{}(),unknown{}(X:U{})) []",
    ]
    return Case(definition(*CONSTANTS, PAIR, *(kinds[i % 5] for i in range(n)), rule(A, B)), A)


def wide(name, parts):
    """Parts below symbols of up to 64 arguments, one for each number of arguments."""
    while len(parts) > 1:
        parts = [applied(f"{name}{len(some)}", *some) for some in (parts[i : i + 64] for i in range(0, len(parts), 64))]
    return parts[0]


def wide_symbols(name):
    return [symbol(f"{name}{i}", ["T"] * i, "T") for i in range(1, 65)]


def many_variables(n):
    """A rule with n variables, which it puts in the opposite order."""
    names = [f"V{i}:T{{}}" for i in range(n)]
    text = definition(*CONSTANTS, *wide_symbols("t"), *wide_symbols("u"), rule(wide("t", names), wide("u", names[::-1])))
    return Case(text, wide("t", [A] * n))


def variable_again(n):
    """A rule with a variable 16 times, on 16 equal terms of n leaves each."""
    same = nested("p", [A, B] * (n // 2))
    symbols = [*CONSTANTS, PAIR, symbol("t", ["T"] * 16, "T")]
    return Case(definition(*symbols, rule(applied("t", *["X:T{}"] * 16), "X:T{}")), applied("t", *[same] * 16))


def variable_again_in_rules(n):
    """n rules with a variable twice, on two equal terms of 1,000 leaves. Only the last of the rules matches."""
    same = nested("p", [A, B] * 500)
    symbols = [*CONSTANTS, PAIR, *(symbol(f"k{i}", [], "T") for i in range(n)), symbol("t", ["T"] * 3, "T")]
    rules = [rule(f"t{{}}(X:T{{}},X:T{{}},k{i}{{}}())", A) for i in range(n)]
    return Case(definition(*symbols, *rules), applied("t", same, same, f"k{n - 1}{{}}()"))


def variable_again_unequal(n):
    """n rules with a variable twice, on two terms of 1,000 leaves that differ in the last leaf. One more rule matches."""
    one, other = (nested("p", [A, B] * 499 + [A, last]) for last in (B, C))
    rules = [*[rule("t{}(X:T{},X:T{})", A)] * n, rule("t{}(X:T{},Y:T{})", B)]
    return Case(definition(*CONSTANTS, PAIR, symbol("t", ["T"] * 2, "T"), *rules), applied("t", one, other))


def wide_condition(n):
    """A rule whose condition has n tests."""
    tests = [applied("lt", "N:SortInt{}", value(10 + i)) for i in range(n)]
    text = definition(*CONSTANTS, LESS, BOTH, symbol("t", [INT], "T"), rule("t{}(N:SortInt{})", A, nested("and", tests)))
    return Case(text, applied("t", value(5)))


def conditions_that_fail(n):
    """n rules whose conditions fail, and one without a condition."""
    rules = [rule("t{}(N:SortInt{})", A, applied("lt", "N:SortInt{}", value(-i))) for i in range(n)]
    text = definition(*CONSTANTS, LESS, symbol("t", [INT], "T"), *rules, rule("t{}(N:SortInt{})", B))
    return Case(text, applied("t", value(5)))


def long_priority(n):
    """A rule whose priority has n digits, which is refused."""
    text = definition(*CONSTANTS, rule(A, B, attributes=f'priority{{}}("{"1" * n}")'))
    return Case(text, A, f"kore_prove: definition refused 23 at {text.index('axiom')}")


def many_priorities(n):
    """n rules, each with a priority of its own, the last one first."""
    rules = [rule(A, f"d{i}{{}}()", attributes=f'priority{{}}("{n - i}")') for i in range(n)]
    return Case(definition(*CONSTANTS, *(symbol(f"d{i}", [], "T") for i in range(n)), *rules), A)


def long_names(n):
    """A module, a sort, a symbol, a variable and an attribute with names of n letters."""
    base, low, one, some, told = (letter + "n" * (n - 1) for letter in "mscVx")
    lines = [sort(low), symbol(one, [low], "T"), symbol("x", [], low)]
    text = "[]\n" + module(base, sort("T"), *CONSTANTS)
    text += module("M", f"import {base} []", *lines, rule(f"{one}{{}}({some}:{low}{{}})", B, attributes=f"{told}{{}}()"))
    return Case(text, f"{one}{{}}(x{{}}())")


def names_that_begin_alike(n):
    """100 symbols and variables whose names have n letters and differ in the last ones."""
    names = [f"{'n' * n}{i}" for i in range(100)]
    symbols = [symbol(name, [], "T") for name in names] + [symbol("t", ["T"] * 50, "T")]
    variables = [f"{name}:T{{}}" for name in names[:50]]
    text = definition(*CONSTANTS, *symbols, rule(applied("t", *variables), variables[-1]))
    return Case(text, applied("t", *[A] * 49, f"{names[0]}{{}}()"))


def escapes(n):
    """A string of n escapes, in a rule, in an attribute and in the term."""
    kinds = ["\\n", "\\r", "\\t", "\\f", '\\"', "\\\\", "\\x41", "\\u00e9", "\\U0001F600", "\\u0001"]
    text = "".join(kinds[i % len(kinds)] for i in range(n))
    lines = [sort("S"), symbol("t", ["S"], "T")]
    rules = rule(applied("t", value(text, "S")), applied("t", value(text + "x", "S")), attributes=f'x{{}}("{text}")')
    return Case(definition(*lines, rules), applied("t", value(text, "S")))


def equations(n):
    """A function with n equations. The last is used."""
    given = [symbol("f", [INT], "T", "function{}()"), *(equation("f", [(value(i), INT)], "T", B) for i in range(n))]
    lines = [*CONSTANTS, symbol("t", [INT], "T"), *given, rule("t{}(N:SortInt{})", "f{}(N:SortInt{})")]
    return Case(definition(*lines), applied("t", value(n - 1)))


def equations_with_conditions(n):
    """A function with n equations whose conditions fail, and one whose condition holds."""
    function = symbol("f", [INT], "T", "function{}()")
    given = [equation("f", [("N:SortInt{}", INT)], "T", A, applied("lt", "N:SortInt{}", value(-i))) for i in range(n)]
    last = equation("f", [("N:SortInt{}", INT)], "T", B, applied("lt", "N:SortInt{}", value(9)))
    lines = [*CONSTANTS, LESS, function, *given, last, symbol("t", [INT], "T")]
    return Case(definition(*lines, rule("t{}(N:SortInt{})", "f{}(N:SortInt{})")), applied("t", value(5)))


def guards(n):
    """An equation of the last resort with n guards, each of which repeats the function's only other equation."""
    given = "\\and{{R}}(\\in{{T{{}},R}}(X0:T{{}},{}),\\top{{R}}())"
    guard = f"\\and{{R}}(\\top{{R}}(),{given.format(A)})"
    denied = "\\or{R}(" + f"{guard}," * n + "\\bottom{R}())"
    left = f"\\and{{R}}(\\not{{R}}({denied}),\\and{{R}}(\\top{{R}}(),{given.format('V:T{}')}))"
    right = "\\equals{T{},R}(f{}(X0:T{}),\\and{T{}}(c{}(),\\top{T{}}()))"
    last = f"axiom{{R}} \\implies{{R}}({left},{right}) [owise{{}}()]"
    lines = [*CONSTANTS, symbol("f", ["T"], "T", "function{}()"), equation("f", [(A, "T")], "T", B), last]
    return Case(definition(*lines, rule(A, applied("f", B))), A)


def many_functions(n):
    """n functions, each of which calls the one before it, up to 300 deep."""
    names = [f"f{i}" for i in range(n)]
    symbols = [symbol(name, ["T"], "T", "function{}()") for name in names]
    rights = [f"{names[i - 1]}{{}}(X:T{{}})" if i % 300 else "X:T{}" for i in range(n)]
    given = [equation(name, [("X:T{}", "T")], "T", right) for name, right in zip(names, rights)]
    return Case(definition(*CONSTANTS, *symbols, *given, rule(A, f"{names[-1]}{{}}(b{{}}())")), A)


def calls(n):
    """A function that calls itself n times in all, from the two halves of a tree of its arguments."""
    function = symbol("f", ["T"], "T", "function{}()")
    more = equation("f", [("p{}(X:T{},Y:T{})", "T")], "T", "p{}(f{}(Y:T{}),f{}(X:T{}))")
    lines = [*CONSTANTS, PAIR, function, more, equation("f", [(A, "T")], "T", B), symbol("t", ["T"], "T")]
    return Case(definition(*lines, rule("t{}(X:T{})", "f{}(X:T{})")), applied("t", nested("p", [A] * max(n // 2, 1))))


def long_term(n):
    """A term of n bytes, as a tree of two arguments. A rule takes it out of a symbol."""
    text = definition(*CONSTANTS, PAIR, symbol("t", ["T"], "T"), rule("t{}(X:T{})", "X:T{}"))
    return Case(text, applied("t", nested("p", [A] * (n // 11))))


def long_flat_term(n):
    """A term of n bytes, of symbols with 64 arguments."""
    text = definition(*CONSTANTS, *wide_symbols("u"), symbol("t", ["T"], "T"), rule("t{}(X:T{})", "X:T{}"))
    return Case(text, applied("t", wide("u", [A] * (n * 100 // 617))))


def long_term_of_values(n):
    """A term of n bytes, whose leaves are different numbers."""
    text = definition(*CONSTANTS, PAIR, symbol("i", [INT], "T"), symbol("t", ["T"], "T"), rule("t{}(X:T{})", "X:T{}"))
    return Case(text, applied("t", nested("p", [applied("i", value(100000 + i)) for i in range(n // 36)])))


def many_sorts(n):
    """n sorts with a constructor each."""
    lines = [line for i in range(n) for line in (sort(f"S{i}"), symbol(f"s{i}", [], f"S{i}"))]
    text = definition(*CONSTANTS, *lines, symbol("t", [f"S{n - 1}"], "T"), rule(f"t{{}}(X:S{n - 1}{{}})", B))
    return Case(text, applied("t", f"s{n - 1}{{}}()"))


def many_symbols(n):
    """n constructors of one sort, with up to three arguments."""
    return Case(definition(*CONSTANTS, *(symbol(f"s{i}", ["T"] * (i % 4), "T") for i in range(n)), rule(A, "s0{}()")), A)


def many_rules(n):
    """n constructors, with a rule from each to the next. Only the first one's rule is used."""
    symbols = [symbol(f"k{i}", [], "T") for i in range(n + 1)]
    return Case(definition(*symbols, *(rule(f"k{i}{{}}()", f"k{i + 1}{{}}()") for i in range(n))), "k0{}()", "limit 1", 1)


def rules_of_one_symbol(n):
    """n rules that differ in a number. The last one is used."""
    given = [rule(f"t{{}}({value(i)},X:T{{}})", "X:T{}") for i in range(n)]
    return Case(definition(*CONSTANTS, symbol("t", [INT, "T"], "T"), *given), applied("t", value(n - 1), A))


def rules_tried_in_vain(n):
    """n rules that all fail at the last of 20 arguments, in each of 100 steps."""
    def left(last):
        return applied("t", *["a{}()"] * 9, *(f"X{i}:T{{}}" for i in range(10)), last)

    symbols = [*CONSTANTS, symbol("t", ["T"] * 20, "T")]
    turn = rule(left("b{}()"), applied("t", *["a{}()"] * 9, *(f"X{(i + 1) % 10}:T{{}}" for i in range(10)), "b{}()"))
    return Case(definition(*symbols, *[rule(left(C), A)] * n, turn), applied("t", *[A] * 19, B), "limit 100", 100)


def rules_across(n):
    """n rules of a symbol with 64 arguments. In each all arguments but one are variables, and that one takes turns."""
    def line(i):
        return applied("t", *("b{}()" if i % 64 == j else f"X{j}:T{{}}" for j in range(64)))

    text = definition(*CONSTANTS, symbol("t", ["T"] * 64, "T"), *(rule(line(i), A) for i in range(n)), rule(C, A))
    return Case(text, applied("t", *[A] * 64), "stuck 0")


def blanks(n):
    """n bytes of white space and comments between two tokens of the definition, and a fourth of it before the term."""
    white = " \t\r\n" * (n // 16)
    between = white + "/**/" * (n // 16) + f"/* {'* / // ' * (n // 32)}*/" + "//*\n" * (n // 16)
    return Case(f"[]{between}" + definition(*CONSTANTS, rule(A, B))[2:], white + A)


ORDERS = ["ascending", "descending", "shuffled"]
CASES = {
    "imports_in_a_chain": (imports_in_a_chain, 12500, 12500),
    "imports_of_two": (imports_of_two, 5000, 5000),
    "imports_in_a_square": (imports_in_a_square, 250, 250),
    **{f"chain_{order}": (chain(order), 500, 250) for order in ORDERS},
    **{f"star_below_{order}": (star_below(order), 5000, 5000) for order in ORDERS},
    **{f"star_above_{order}": (star_above(order), 5000, 5000) for order in ORDERS},
    "wide_fold": (wide_fold, 5000, 5000),
    "wide_fold_in_a_rule": (wide_fold_in_a_rule, 5000, 5000),
    "wide_fold_in_an_equation": (wide_fold_in_an_equation, 5000, 5000),
    "wide_fold_in_the_term": (wide_fold_in_the_term, 5000, 5000),
    "attributes_of_a_symbol": (attributes_of_a_symbol, 25000, 25000),
    "attributes_of_a_rule": (attributes_of_a_rule, 25000, 25000),
    "attributes_of_one_name": (attributes_of_one_name, 25000, 25000),
    "passed_over": (passed_over, 12500, 12500),
    "many_variables": (many_variables, 750, 100),
    "variable_again": (variable_again, 1250, 1250),
    "variable_again_in_rules": (variable_again_in_rules, 2500, 2500),
    "variable_again_unequal": (variable_again_unequal, 2500, 2500),
    "wide_condition": (wide_condition, 2500, 250),
    "conditions_that_fail": (conditions_that_fail, 5000, 5000),
    "long_priority": (long_priority, 250000, 250000),
    "many_priorities": (many_priorities, 5000, 5000),
    "long_names": (long_names, 250000, 250000),
    "names_that_begin_alike": (names_that_begin_alike, 5000, 5000),
    "escapes": (escapes, 25000, 25000),
    "equations": (equations, 2500, 2500),
    "equations_with_conditions": (equations_with_conditions, 2500, 2500),
    "guards": (guards, 15000, 500),
    "many_functions": (many_functions, 5000, 5000),
    "calls": (calls, 5000, 500),
    "long_term": (long_term, 250000, 50000),
    "long_flat_term": (long_flat_term, 250000, 50000),
    "long_term_of_values": (long_term_of_values, 250000, 50000),
    "many_sorts": (many_sorts, 5000, 5000),
    "many_symbols": (many_symbols, 5000, 5000),
    "many_rules": (many_rules, 12250, 12250),
    "rules_of_one_symbol": (rules_of_one_symbol, 12250, 12250),
    "rules_tried_in_vain": (rules_tried_in_vain, 2500, 2500),
    "rules_across": (rules_across, 1000, 1000),
    "blanks": (blanks, 1000000, 1000000),
}


def grown(seconds, sizes):
    """How much the seconds grow from the first to the last, and whether that is at most as the bytes do."""
    if seconds[-1] < 0.05:
        return "small"
    ratio = seconds[-1] / max(seconds[0], 0.01)
    return f"{ratio:.1f} {'linear' if ratio <= 1.25 * sizes[-1] / sizes[0] else 'MORE'}"


def measured(program, folder, make, n, proof):
    """A run of a case at a size, whether it said what it should, the bytes read, and the bytes of its proof."""
    case = make(n)
    files = [written(folder, "d.kore", case.definition), written(folder, "t.kore", case.term)]
    size = sum(map(os.path.getsize, files))
    most, name = int(case.limit), f"{folder}/proof.mm"
    run = ran([program, "run", *files, "--limit", str(most), *(["--proof", name] if proof else [])], folder)
    said = (run.out or run.err or [f"code {run.code}"])[0]
    bytes_of_proof = os.path.getsize(name) if os.path.exists(name) else 0
    good = said == case.said and (bytes_of_proof > 0) == (proof and not case.said.startswith("kore_prove"))
    if bytes_of_proof:
        os.remove(name)
    return run, good, said, size, bytes_of_proof


def row(program, folder, name, make, n, proof):
    """Prints the line of a case, and says whether all its runs said what they should."""
    rows = [measured(program, folder, make, size, proof) for size in (n, 2 * n, 4 * n)]
    sizes, proofs = [it[3] for it in rows], [it[4] for it in rows]
    each = " ".join(f"{it[0].seconds:8.3f} {it[0].megabytes:6.0f}" for it in rows)
    growth = grown([it[0].seconds for it in rows], sizes)
    line = f"{name + (' +' if proof else ''):29} {n:7} {sizes[0]:9} {sizes[-1]:9} {each}  {growth:13}"
    if proof:
        line += f" {proofs[-1]:10} {proofs[-1] / max(proofs[0], 1):5.1f}"
    wrong = [it[2] for it in rows if not it[1]]
    print(line + (f"  WRONG: {wrong[0][:80]}" if wrong else ""), flush=True)
    return not wrong


Check = collections.namedtuple("Check", "name words files code said")
MORE = [symbol("s", ["T"], "T"), PAIR, symbol("i", [INT], "T")]
ONE = definition(*CONSTANTS, *MORE, rule(A, B))


def check(name, code, said, given=ONE, term=A, *options):
    """A run of a definition and a term, with the code and the line that it has to end with."""
    words = ["run", "d.kore", "t.kore", *(options or ("--limit", "2"))]
    return Check(name, words, {"d.kore": given, "t.kore": term}, code, said)


def either(name, good, code, said, refusal, *texts):
    """A run that ends with a line, or the refusal of one of its texts."""
    refused = (6 if "definition" in refusal else 7, f"kore_prove: {refusal}")
    return check(name, *((code, said) if good else refused), *texts)


def padded(text, size):
    return text + " " * (size - len(text))


def deep(n):
    """n symbols of one argument around a constant."""
    return "s{}(" * n + B + ")" * n


def high(n):
    """A term of the height n, as a fold."""
    return f"\\right-assoc{{}}(p{{}}({','.join([B] * n)}))"


def brackets(n):
    """An attribute with n open brackets at its deepest place."""
    return f"[{'x{}(' * (n - 1)}x{{}}(){')' * (n - 1)}]"


def falling(around):
    """A function that calls itself 998 times, below some symbols. It is nested 2,000 deep below one: each of its 999 calls
    and of their right sides takes one, and so do that symbol and the constant. The calls of it and of hooks are 2,995."""
    less = applied("f", applied("sub", "N:SortInt{}", value(1)))
    given = [
        symbol("f", [INT], "T", "function{}()"), equation("f", [(value(0), INT)], "T", A),
        equation("f", [("N:SortInt{}", INT)], "T", less, applied("lt", value(0), "N:SortInt{}")),
    ]
    lines = [*CONSTANTS, LESS, hook("sub", "INT.sub"), symbol("s", ["T"], "T"), *given, rule(C, B)]
    return definition(*lines), "s{}(" * around + applied("f", value(998)) + ")" * around


def limits_of_words():
    """The steps and the calls."""
    bad, forever = "kore_prove: bad words", definition(*CONSTANTS, rule(A, A))
    for number, good in ((0, True), (1000000, True), (1000001, False)):
        code, said = (10, f"limit {number}") if good else (2, bad)
        yield check(f"--limit {number}", code, said, forever, A, "--limit", str(number))
    for number, good in ((10000000, True), (10000001, False)):
        code, said = (0, "stuck 1") if good else (2, bad)
        yield check(f"--calls {number}", code, said, ONE, A, "--limit", "2", "--calls", str(number))
    for number, code in ((0, 2), (1, 0), (1000, 0), (1001, 2)):
        yield Check(f"drill {number}", ["drill", str(number), "drill.mm"], {}, code, bad if code else f"stuck {number}")


def limits_of_files(large):
    """The bytes of the files."""
    for size, code, said in ((1048576, 0, "stuck 1"), (1048577, 8, "kore_prove: too large t.kore")):
        yield check(f"a term of {size:,} bytes", code, said, ONE, padded(A, size))
    for size, code, said in ((33554432, 0, "stuck 1"), (33554433, 8, "kore_prove: too large d.kore")):
        yield check(f"a definition of {size:,} bytes", code, said, padded(ONE, size))
    database = (TOP / "examples/databases/one_step.mm").read_text()
    for size, code, said in ((268435456, 0, "valid 3 1"), (268435457, 8, "kore_prove: too large big.mm")) if large else ():
        yield Check(f"a database of {size:,} bytes", ["verify", "big.mm"], {"big.mm": padded(database, size)}, code, said)


def limits_of_texts():
    """The brackets, the height, the arguments, the numbers, and the digits of a priority."""
    for n in (500, 501):
        good = n == 500
        text, term, fold = brackets(n) + ONE[2:], deep(n - 1), high(n)
        yield either(f"{n} brackets in an attribute", good, 0, "stuck 1", "definition refused 3 at 2002", text)
        yield either(f"{n} brackets in the term", good, 0, "stuck 0", "term refused 3 at 2001", ONE, term)
        yield either(f"a term {n} high", good, 0, "stuck 0", "term refused 3 at 0", ONE, fold)
        for name, sides, term in (("left", (fold, A), fold), ("right", (A, fold), A)):
            text = definition(*CONSTANTS, PAIR, rule(*sides))
            refused = f"definition refused 3 at {text.index(fold)}"
            yield either(f"a {name} side {n} high", good, 0, "stuck 1", refused, text, term)
    for n in (64, 65):
        text = definition(*CONSTANTS, symbol("many", ["T"] * n, "T"), rule(A, B))
        yield either(f"{n} arguments", n == 64, 0, "stuck 1", f"definition refused 8 at {text.index('symbol many')}", text)
    for number in (2**127 - 1, 2**127, -(2**127), -(2**127) - 1):
        term = applied("i", value(number))
        good, refused = -(2**127) <= number < 2**127, f"term refused 11 at {term.index(chr(34))}"
        yield either(f"the number {number}", good, 0, "stuck 0", refused, ONE, term)
    for n in (9, 10):
        text = definition(*CONSTANTS, rule(A, B, attributes=f'priority{{}}("{"9" * n}")'))
        refused = f"definition refused 23 at {text.index('axiom')}"
        yield either(f"a priority of {n} digits", n == 9, 0, "stuck 1", refused, text)


def limits_of_runs():
    """The height, the nesting and the calls of a run."""
    growing = definition(*CONSTANTS, symbol("s", ["T"], "T"), rule("X:T{}", "s{}(X:T{})"))
    yield check("a run up to the height 500", 10, "limit 499", growing, A, "--limit", "499")
    yield check("a run up to the height 501", 11, "blocked 499 Height s", growing, A, "--limit", "500")
    yield check("2,000 nested evaluations", 0, "stuck 0", *falling(1))
    yield check("2,001 nested evaluations", 11, "blocked 0 Nest a", *falling(2))
    yield check("2,995 calls with --calls 2995", 0, "stuck 0", *falling(0), "--limit", "2", "--calls", "2995")
    yield check("2,995 calls with --calls 2994", 11, "blocked 0 Calls f", *falling(0), "--limit", "2", "--calls", "2994")


def answered(program, it, options):
    """A run of the program in the folder of its files, and what is wrong with its answer."""
    run, ended = once([program, *it.words, *options], "."), it.code in (0, 10, 11)
    lines, others = (run.out, run.err) if ended else (run.err, run.out)
    wrote = os.path.exists("proof.mm")
    if wrote:
        os.remove("proof.mm")
    if run.code != it.code or lines[:1] != [it.said] or others:
        return run, f"  WRONG: code {run.code}, {(run.out + run.err + ['nothing'])[0][:80]}, not code {it.code}, {it.said}"
    return run, "" if wrote == (ended and len(options) > 0) else "  WRONG: a proof file, or none"


def checked(program, folder, large):
    """Runs the checks of limits, without and with a proof, prints a line for each, and says whether all are right."""
    good = True
    os.chdir(folder)
    for it in [*limits_of_words(), *limits_of_texts(), *limits_of_runs(), *limits_of_files(large)]:
        for file, text in it.files.items():
            written(folder, file, text)
        line, wrong = f"{it.name:55}", ""
        for options in ([], ["--proof", "proof.mm"]) if it.words[0] == "run" else ([],):
            run, fault = answered(program, it, options)
            wrong = wrong or fault
            line += f" {run.seconds:7.3f} s {run.megabytes:6.0f} MB"
        print(f"{line}{wrong or '  ok'}", flush=True)
        good = good and not wrong
    return good


def main():
    parser = argparse.ArgumentParser(description=__doc__, formatter_class=argparse.RawDescriptionHelpFormatter)
    parser.add_argument("program", nargs="?", default=PROGRAM, metavar="PROGRAM")
    parser.add_argument("--only", help="the cases whose names begin so, or `limits`")
    parser.add_argument("--scale", type=float, default=1, help="what the sizes are multiplied by")
    parser.add_argument("--proof-scale", type=float, default=1, help="what the sizes with a proof are multiplied by besides")
    parser.add_argument("--plain", action="store_true", help="no runs with a proof")
    parser.add_argument("--large", action="store_true", help="also databases of 268,435,456 bytes and one more")
    parser.add_argument("--keep", help="a folder in which the files of the last case are left")
    words = parser.parse_args()
    if not os.access(words.program, os.X_OK):
        parser.error(f"no program {words.program}")
    program, good = os.path.abspath(words.program), True
    with contextlib.nullcontext(words.keep) if words.keep else tempfile.TemporaryDirectory() as folder:
        folder = os.path.abspath(folder)
        os.makedirs(folder, exist_ok=True)
        if words.only != "limits":
            each = " ".join(f"{'seconds':>8} {'MB':>6}" for _ in range(3))
            columns = f"{'n':>7} {'bytes n':>9} {'bytes 4n':>9} {each}  {'grows':13} {'proof 4n':>10} {'grows':>5}"
            print(f"{'case (+ with its proof)':29} {columns}")
        for name, (make, *sizes) in CASES.items():
            for n, proof in zip(sizes, (False, True)):
                if (not words.only or name.startswith(words.only)) and not (proof and words.plain):
                    scale = words.scale * (words.proof_scale if proof else 1)
                    good &= row(program, folder, name, make, max(int(n * scale), 64), proof)
        if words.only in (None, "limits"):
            good &= checked(program, folder, words.large)
    return 0 if good else 1


if __name__ == "__main__":
    sys.exit(main())
