"""A language with loops, a store and an output, in the form in which kompile writes it: 48 rules and 20 equations.
Expressions are evaluated in the cell k: they are taken out of their places, and their values are put back. Used by
proof_sizes.py."""
from kompiled import Kompiled, cell, item, kseq, label, variable
from kore_texts import BOOL, applied, injected, value

OPERATIONS = {
    "+": ("Int", "Int", "INT.add"), "-": ("Int", "Int", "INT.sub"), "*": ("Int", "Int", "INT.mul"),
    "<=": ("Int", "Bool", "INT.le"), "==": ("Int", "Bool", "INT.eq"), "&&": ("Bool", "Bool", "BOOL.and"),
}


def production(text, result, *sorts):
    """The symbol of a production of the language, by its text and sorts."""
    return label(text, "LOOP", result, *sorts)


BINARY = {operation: production(f"_{operation}_", "Exp", "Exp", "Exp") for operation in OPERATIONS}
HOOKED = {operation: label(f"_{operation}{of}_") for operation, (of, _, _) in OPERATIONS.items()}
NEGATION = label("notBool_")
NOT = production("!_", "Exp", "Exp")
NAME = production("x(_)", "Id", "Int")
ASSIGN = production("_=_;", "Stmt", "Id", "Exp")
IF = production("if(_)_else_", "Stmt", "Exp", "Stmt", "Stmt")
WHILE = production("while(_)_", "Stmt", "Exp", "Stmt")
SEQUENCE = production("__", "Stmt", "Stmt", "Stmt")
BLOCK = production("{_}", "Stmt", "Stmt")
NOTHING = production("{}", "Stmt")
PRINT = production("print(_);", "Stmt", "Exp")
NO_STORE = production(".Store", "Store")
STORE = production("_|->_,_", "Store", "Int", "Int", "Store")
NO_OUT = production(".Out", "Out")
OUT = production("_:_", "Out", "Int", "Out")
IS_VALUE = production("isValue(_)", "Bool", "Exp")
LOOKUP = production("lookup(_,_)", "Int", "Int", "Store")
UPDATE = production("update(_,_,_)", "Store", "Int", "Int", "Store")
HAS = production("has(_,_)", "Bool", "Int", "Store")
CONSTRUCTORS = [
    (NOT, ["Exp"], "Exp"), (NAME, ["Int"], "Id"), (ASSIGN, ["Id", "Exp"], "Stmt"), (IF, ["Exp", "Stmt", "Stmt"], "Stmt"),
    (WHILE, ["Exp", "Stmt"], "Stmt"), (SEQUENCE, ["Stmt", "Stmt"], "Stmt"), (BLOCK, ["Stmt"], "Stmt"), (NOTHING, [], "Stmt"),
    (PRINT, ["Exp"], "Stmt"), (NO_STORE, [], "Store"), (STORE, ["Int", "Int", "Store"], "Store"), (NO_OUT, [], "Out"),
    (OUT, ["Int", "Out"], "Out"),
]
FUNCTIONS = [
    (IS_VALUE, ["Exp"], "Bool"), (LOOKUP, ["Int", "Store"], "Int"), (UPDATE, ["Int", "Int", "Store"], "Store"),
    (HAS, ["Int", "Store"], "Bool"),
]


def freezer(name, place):
    """The symbol that keeps the rest of an expression while the argument at a place is evaluated."""
    return f"Lbl'Hash'freezer{name[3:]}{place}'Unds'"


FREEZERS = [
    *((freezer(name, place), ["Exp"]) for name in BINARY.values() for place in (0, 1)),
    (freezer(NOT, 0), []), (freezer(ASSIGN, 1), ["Id"]), (freezer(IF, 0), ["Stmt", "Stmt"]), (freezer(PRINT, 0), []),
]
HOLE, A, B = (variable(name, "Exp") for name in ("Hole", "A", "B"))
N, I, J, V, W, X, Y = (variable(name, "Int") for name in "NIJVWXY")
S, T = variable("S", "Stmt"), variable("T", "Stmt")
M, OUTPUT, TRUTH, ID = variable("M", "Store"), variable("O", "Out"), variable("T", "Bool"), variable("N", "Id")


def exp(of, pattern):
    """A pattern of a lower sort as an expression."""
    return injected(f"Sort{of}", "SortExp", pattern)


def number(n):
    return exp("Int", value(n))


def truth(text):
    return value(text, BOOL)


def declared(made):
    """The sorts and symbols of the language. Returns the function that makes a configuration."""
    made.sort("Id", "Exp", "Stmt", "Store", "Out")
    for low in ("Int", "Bool", "Id"):
        made.below(low, "Exp", "KItem")
    made.below("Exp", "KItem")
    made.below("Stmt", "KItem")
    made.hooked(NEGATION, "BOOL.not", "Bool", ("Bool",))
    for operation, (of, result, row) in OPERATIONS.items():
        made.hooked(HOOKED[operation], row, result, (of, of))
        made.constructor(BINARY[operation], ["Exp", "Exp"], "Exp")
    for name, sorts, result in [*CONSTRUCTORS, *((name, sorts, "KItem") for name, sorts in FREEZERS)]:
        made.constructor(name, sorts, result)
    for function in FUNCTIONS:
        made.function(*function)
    return made.cells(("store", "Store"), ("out", "Out"), ("steps", "Int"))


def values(made):
    """Which expressions are values."""
    for name in BINARY.values():
        made.equation(IS_VALUE, [(applied(name, A, B), "Exp")], "Bool", truth("false"))
    made.equation(IS_VALUE, [(applied(NOT, A), "Exp")], "Bool", truth("false"))
    for of, answer in (("Id", "false"), ("Int", "true"), ("Bool", "true")):
        made.equation(IS_VALUE, [(exp(of, variable("V", of)), "Exp")], "Bool", truth(answer))


def store(made):
    """The functions on the store."""
    x, w, pair, none = (X, "Int"), (W, "Int"), (applied(STORE, Y, V, M), "Store"), (applied(NO_STORE), "Store")
    same = applied(HOOKED["=="], X, Y)
    differ = applied(NEGATION, same)
    made.equation(LOOKUP, [x, pair], "Int", V, same)
    made.equation(LOOKUP, [x, pair], "Int", applied(LOOKUP, X, M), differ)
    made.equation(UPDATE, [x, w, none], "Store", applied(STORE, X, W, none[0]))
    made.equation(UPDATE, [x, w, pair], "Store", applied(STORE, Y, W, M), same)
    made.equation(UPDATE, [x, w, pair], "Store", applied(STORE, Y, V, applied(UPDATE, X, W, M)), differ)
    made.equation(HAS, [x, none], "Bool", truth("false"))
    made.equation(HAS, [x, pair], "Bool", truth("true"), same)
    made.equation(HAS, [x, pair], "Bool", applied(HAS, X, M), differ)


def rules(made, configuration):
    """Two functions that make rules: one on the front of the cell k, and one for an argument that is evaluated first."""
    def step(name, before, after, test=None, cells=((), ())):
        sides = (configuration(kseq(*items), *more) for items, more in zip((before, after), cells))
        made.rule(name, *sides, test)

    def strict(name, whole, frozen, ready=None):
        is_value, inside = applied(IS_VALUE, HOLE), [item("Exp", HOLE), frozen]
        not_yet = applied(NEGATION, is_value)
        step(f"{name}-heat", [whole], inside, applied(HOOKED["&&"], ready, not_yet) if ready else not_yet)
        step(f"{name}-cool", inside, [whole], is_value)

    return step, strict


def expressions(step, strict):
    """The rules on expressions: five for each operation, three for the negation, and one for names."""
    for operation, (of, result, _) in OPERATIONS.items():
        name, i, j = BINARY[operation], variable("I", of), variable("J", of)
        strict(f"{operation}-0", item("Exp", applied(name, HOLE, B)), applied(freezer(name, 0), B))
        strict(f"{operation}-1", item("Exp", applied(name, A, HOLE)), applied(freezer(name, 1), A), applied(IS_VALUE, A))
        both = applied(name, exp(of, i), exp(of, j))
        step(operation, [item("Exp", both)], [item(result, applied(HOOKED[operation], i, j))])
    strict("not-0", item("Exp", applied(NOT, HOLE)), applied(freezer(NOT, 0)))
    step("not", [item("Exp", applied(NOT, exp("Bool", TRUTH)))], [item("Bool", applied(NEGATION, TRUTH))])
    step("name", [item("Id", applied(NAME, X))], [item("Int", applied(LOOKUP, X, M))], applied(HAS, X, M), ([M], [M]))


def statements(step, strict):
    """The rules on statements."""
    strict("assign-1", item("Stmt", applied(ASSIGN, ID, HOLE)), applied(freezer(ASSIGN, 1), ID))
    known = applied(ASSIGN, applied(NAME, X), exp("Int", V))
    step("assign", [item("Stmt", known)], [], cells=([M], [applied(UPDATE, X, V, M)]))
    strict("if-0", item("Stmt", applied(IF, HOLE, S, T)), applied(freezer(IF, 0), S, T))
    for answer, chosen in (("true", S), ("false", T)):
        step(f"if-{answer}", [item("Stmt", applied(IF, exp("Bool", truth(answer)), S, T))], [item("Stmt", chosen)])
    body = applied(BLOCK, applied(SEQUENCE, S, applied(WHILE, A, S)))
    again, counted = item("Stmt", applied(IF, A, body, applied(NOTHING))), applied(HOOKED["+"], N, value(1))
    before_end = applied(HOOKED["<="], value(0), N)
    step("while", [item("Stmt", applied(WHILE, A, S))], [again], before_end, ([None, None, N], [None, None, counted]))
    step("sequence", [item("Stmt", applied(SEQUENCE, S, T))], [item("Stmt", S), item("Stmt", T)])
    step("block", [item("Stmt", applied(BLOCK, S))], [item("Stmt", S)])
    step("nothing", [item("Stmt", applied(NOTHING))], [])
    strict("print-0", item("Stmt", applied(PRINT, HOLE)), applied(freezer(PRINT, 0)))
    shown = item("Stmt", applied(PRINT, exp("Int", V)))
    step("print", [shown], [], cells=([None, OUTPUT], [None, applied(OUT, V, OUTPUT)]))


def definition_and_terms():
    """The text of the definition, and the function that makes terms."""
    made = Kompiled("LOOP")
    configuration = declared(made)
    values(made)
    store(made)
    step, strict = rules(made, configuration)
    expressions(step, strict)
    statements(step, strict)
    return made.text(), lambda *sizes: term(configuration, *sizes)


def at(i):
    return exp("Id", applied(NAME, value(i)))


def assigned(i, what):
    return applied(ASSIGN, applied(NAME, value(i)), what)


def loop(variables):
    """A loop without an end: x0 = x0 + 1; x1 = x0 * x0 - xl; if (!(x0 == 7) && 0 <= x1) xl = x0; else {{}}. The last of the
    variables is xl."""
    last = variables - 1
    raised = assigned(0, applied(BINARY["+"], at(0), number(1)))
    squared = assigned(1, applied(BINARY["-"], applied(BINARY["*"], at(0), at(0)), at(last)))
    other, more = applied(NOT, applied(BINARY["=="], at(0), number(7))), applied(BINARY["<="], number(0), at(1))
    kept = applied(IF, applied(BINARY["&&"], other, more), assigned(last, at(0)), applied(BLOCK, applied(NOTHING)))
    body = applied(SEQUENCE, raised, applied(SEQUENCE, squared, kept))
    return applied(WHILE, applied(BINARY["<="], number(0), at(0)), applied(BLOCK, body))


def term(configuration, variables, later):
    """The loop with a store of some variables. Some statements follow it, which are never reached."""
    rest = [applied(PRINT, applied(BINARY["+"], at(i % variables), number(i))) for i in range(later)]
    held = applied(NO_STORE)
    for i in reversed(range(variables)):
        held = applied(STORE, value(i), value(i + 1), held)
    program = kseq(*(item("Stmt", it) for it in [loop(variables), *rest]), rest="dotk{}()")
    return configuration(program, held, applied(NO_OUT), value(1), counter=cell("generatedCounter", value(0)))
