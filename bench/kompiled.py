"""Definitions in the form in which kompile writes them. Used by proof_sizes.py and loop_language.py."""
import hashlib

from kore_texts import BOOL, TOP, applied, injected, value

LETTERS = {
    "+": "Plus", "*": "Star", "<": "-LT-", ">": "-GT-", "=": "Eqls", "!": "Bang", "&": "And-", "_": "Unds", "(": "LPar",
    ")": "RPar", ",": "Comm", ";": "SCln", ".": "Stop", ":": "Coln", "#": "Hash", "|": "Pipe", "{": "LBra", "}": "RBra",
}
VALUES = (("Int", "INT.Int"), ("Bool", "BOOL.Bool"))
TOP_CELL = "SortGeneratedTopCell{}"


def label(*names):
    """The symbol of a production, by its text and what else tells it from others."""
    text, quoted = "", False
    for letter in "_".join(names):
        coded = LETTERS.get(letter)
        text += ("'" if (coded is not None) != quoted else "") + (coded or letter)
        quoted = coded is not None
    return "Lbl" + text + ("'" if quoted else "")


def variable(name, of):
    return f"Var{name}:Sort{of}{{}}"


def item(of, pattern):
    """A pattern of a sort as an item."""
    return injected(f"Sort{of}", "SortKItem", pattern)


def kseq(*items, rest=variable("Rest", "K")):
    """Items, one after another, and what follows them."""
    for one in reversed(items):
        rest = applied("kseq", one, rest)
    return rest


def cell(name, *inside):
    return applied(label(f"<{name}>"), *inside)


def indexed(letter, sorts):
    """A variable for each of the sorts."""
    return [f"{letter}{i}:Sort{of}{{}}" for i, of in enumerate(sorts)]


class Kompiled:
    """A definition of one module besides those that each definition has."""

    def __init__(self, name):
        self.name, self.sorts, self.symbols, self.axioms, self.rules, self.line = name, [], [], [], [], 10

    def place(self):
        """The attributes that say where a declaration comes from."""
        self.line += 2
        start = "org'Stop'kframework'Stop'attributes'Stop'"
        where = f'{start}Location{{}}("Location({self.line},8,{self.line},37)")'
        return f'{where}, {start}Source{{}}("Source({self.name.lower()}.k)")'

    def sort(self, *names):
        self.sorts += [f"  sort Sort{name}{{}} [{self.place()}]" for name in names]

    def below(self, low, *highs):
        """The axioms that put a sort below others."""
        for high in highs:
            injection = f"inj{{Sort{low}{{}}, Sort{high}{{}}}}(From:Sort{low}{{}})"
            equal = f"\\equals{{Sort{high}{{}}, R}}(Val:Sort{high}{{}}, {injection})"
            pair = f"subsort{{Sort{low}{{}}, Sort{high}{{}}}}()"
            self.axioms.append(f"  axiom{{R}} \\exists{{R}}(Val:Sort{high}{{}}, {equal}) [{pair}] // subsort")

    def declared(self, kind, name, sorts, result, attributes):
        given = ", ".join(f"Sort{of}{{}}" for of in sorts)
        self.symbols.append(f"  {kind} {name}{{}}({given}) : Sort{result}{{}} [{attributes}, {self.place()}]")

    def hooked(self, name, row, result="Int", sorts=("Int", "Int")):
        """A function with a hook."""
        self.declared("hooked-symbol", name, sorts, result, f'function{{}}(), hook{{}}("{row}"), total{{}}()')

    def function(self, name, sorts, result):
        self.declared("symbol", name, sorts, result, "function{}()")

    def constructor(self, name, sorts, result):
        """A constructor, with the axioms that it is total and free."""
        self.declared("symbol", name, sorts, result, "constructor{}(), functional{}(), injective{}()")
        of, total = f"Sort{result}{{}}", applied(name, *indexed("K", sorts))
        exists = f"\\exists{{R}}(Val:{of}, \\equals{{{of}, R}}(Val:{of}, {total}))"
        self.axioms.append(f"  axiom{{R}} {exists} [functional{{}}()] // functional")
        if sorts:
            one, other = applied(name, *indexed("X", sorts)), applied(name, *indexed("Y", sorts))
            both = applied(name, *(f"\\and{{Sort{s}{{}}}}(X{i}:Sort{s}{{}}, Y{i}:Sort{s}{{}})" for i, s in enumerate(sorts)))
            free = f"\\implies{{{of}}}(\\and{{{of}}}({one}, {other}), {both})"
            self.axioms.append(f"  axiom{{}} {free} [constructor{{}}()] // no confusion same constructor")

    def named(self, name):
        """The attributes of a rule."""
        number = hashlib.sha256(f"{self.name} {name} {self.line}".encode()).hexdigest()
        return f'[label{{}}("{self.name}.{name}"), UNIQUE\'Unds\'ID{{}}("{number}"), {self.place()}]'

    def rule(self, name, left, right, test=None):
        """A rewrite rule of the whole configuration."""
        truth = f"\\equals{{SortBool{{}}, {TOP_CELL}}}(\n        {test},\n        {value('true', BOOL)})"
        condition = truth if test else f"\\top{{{TOP_CELL}}}()"
        self.rules.append(
            f"// rule {name}\n  axiom{{}} \\rewrites{{{TOP_CELL}}}(\n"
            f"    \\and{{{TOP_CELL}}}(\n      {left},\n      {condition}),\n"
            f"    \\and{{{TOP_CELL}}}(\n      {right},\n      \\top{{{TOP_CELL}}}()))\n  {self.named(name)}"
        )

    def equation(self, name, arguments, result, right, test=None):
        """An equation. The arguments are pairs of a pattern and its sort."""
        given, of = "\\top{R}()", f"Sort{result}{{}}"
        for i, (pattern, sort) in reversed(list(enumerate(arguments))):
            member = f"\\in{{Sort{sort}{{}}, R}}(X{i}:Sort{sort}{{}}, {pattern})"
            given = f"\\and{{R}}(\n        {member},\n        {given})"
        truth = f"\\equals{{SortBool{{}}, R}}({test}, {value('true', BOOL)})" if test else "\\top{R}()"
        left = applied(name, *indexed("X", [sort for _, sort in arguments]))
        self.rules.append(
            f"// rule {name}\n  axiom{{R}} \\implies{{R}}(\n"
            f"    \\and{{R}}(\n      {truth},\n      {given}),\n"
            f"    \\equals{{{of}, R}}(\n      {left},\n      \\and{{{of}}}(\n        {right},\n        \\top{{{of}}}())))\n"
            f"  {self.named(name)}"
        )

    def cells(self, *contents):
        """Declares the cell k and others, given by name and sort. Returns the function that makes a configuration."""
        contents = [("k", "K"), *contents]
        titles = [name.capitalize() + "Cell" for name, _ in contents]
        self.sort(*titles, "TCell", "GeneratedCounterCell", "GeneratedTopCell")
        for (name, inside), title in zip(contents, titles):
            self.constructor(label(f"<{name}>"), [inside], title)
        self.constructor(label("<T>"), titles, "TCell")
        self.constructor(label("<generatedCounter>"), ["Int"], "GeneratedCounterCell")
        self.constructor(label("<generatedTop>"), ["TCell", "GeneratedCounterCell"], "GeneratedTopCell")

        def configuration(*inside, counter=variable("'Unds'DotVar0", "GeneratedCounterCell")):
            """The configuration with these patterns in its first cells. A cell whose pattern is None is a variable, and so
            are those after the last pattern."""
            given = [*inside, *[None] * (len(contents) - len(inside))]
            parts = (
                cell(name, pattern) if pattern else variable(f"'Unds'DotVar{i}", title)
                for i, ((name, _), title, pattern) in enumerate(zip(contents, titles, given), 1)
            )
            return cell("generatedTop", cell("T", *parts), counter)

        return configuration

    def text(self):
        """The whole definition. The modules that each definition has are those of examples/imp."""
        shipped = (TOP / "examples/imp/definition.kore").read_text()
        begin = shipped[shipped.index("module BASIC-K") : shipped.index("module IMP\n")]
        head = f"[topCellInitializer{{}}(LblinitGeneratedTopCell{{}}()), {self.place()}]\n\n"
        hooked = (f'  hooked-sort Sort{of}{{}} [hasDomainValues{{}}(), hook{{}}("{row}")]' for of, row in VALUES)
        parts = ["// imports", "  import K []", "\n// sorts", *hooked, *self.sorts, "\n// symbols", *self.symbols]
        parts += ["\n// generated axioms", *self.axioms, "\n// rules", *self.rules]
        return f"{head}{begin}module {self.name}\n\n" + "\n".join(parts) + f"\n\nendmodule [{self.place()}]\n"
