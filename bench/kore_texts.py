"""Parts of Kore texts, and measured runs of the program. Used by hostile_definitions.py and proof_sizes.py."""
import collections
import os
import pathlib
import resource
import subprocess

TOP = pathlib.Path(__file__).resolve().parent.parent
PROGRAM = str(TOP / "crates/kore_prove/out/kore_prove")
INT, BOOL = "SortInt", "SortBool"
NUMBERS = f'hooked-sort {INT}{{}} [hook{{}}("INT.Int")]'
TRUTHS = f'hooked-sort {BOOL}{{}} [hook{{}}("BOOL.Bool")]'
INJECTION = "symbol inj{From,To}(From) : To [sortInjection{}()]"

Ran = collections.namedtuple("Ran", "seconds megabytes code out err")


def applied(name, *arguments):
    """A symbol of its arguments."""
    return f"{name}{{}}({','.join(arguments)})"


def value(text, sort=INT):
    """A domain value."""
    return f'\\dv{{{sort}{{}}}}("{text}")'


def injected(low, high, pattern):
    """A pattern of a lower sort as one of a higher sort."""
    return f"inj{{{low}{{}},{high}{{}}}}({pattern})"


def sort(name):
    return f"sort {name}{{}} []"


def symbol(name, arguments, result, attributes="constructor{}()"):
    """The declaration of a symbol."""
    return f"symbol {name}{{}}({','.join(a + '{}' for a in arguments)}) : {result}{{}} [{attributes}]"


def hook(name, row, result=INT, arguments=(INT, INT)):
    """The declaration of a function with a hook."""
    return "hooked-" + symbol(name, arguments, result, f'function{{}}(),hook{{}}("{row}")')


def subsort(low, high):
    """The axiom that puts one sort below another."""
    injection = f"\\equals{{{high}{{}},R}}(V:{high}{{}},{injected(low, high, f'W:{low}{{}}')})"
    return f"axiom{{R}} \\exists{{R}}(V:{high}{{}},{injection}) [subsort{{{low}{{}},{high}{{}}}}()]"


def holds(test, sort_of_rule):
    """The condition that a test is true."""
    return f'\\equals{{{BOOL}{{}},{sort_of_rule}}}({test},{value("true", BOOL)})'


def rule(left, right, test=None, top="T", attributes=""):
    """A rewrite rule of the sort `top`."""
    condition = holds(test, top + "{}") if test else f"\\top{{{top}{{}}}}()"
    sides = f"\\and{{{top}{{}}}}({left},{condition}),\\and{{{top}{{}}}}({right},\\top{{{top}{{}}}}())"
    return f"axiom{{}} \\rewrites{{{top}{{}}}}({sides}) [{attributes}]"


def equation(function, arguments, result, right, test=None):
    """An equation in the form of kompile. The arguments are pairs of a pattern and its sort."""
    given = "\\top{R}()"
    for i, (pattern, of) in reversed(list(enumerate(arguments))):
        given = f"\\and{{R}}(\\in{{{of}{{}},R}}(X{i}:{of}{{}},{pattern}),{given})"
    condition = holds(test, "R") if test else "\\top{R}()"
    left = applied(function, *(f"X{i}:{of}{{}}" for i, (_, of) in enumerate(arguments)))
    right = f"\\and{{{result}{{}}}}({right},\\top{{{result}{{}}}}())"
    return f"axiom{{R}} \\implies{{R}}(\\and{{R}}({condition},{given}),\\equals{{{result}{{}},R}}({left},{right})) []"


def module(name, *lines):
    return "\n".join([f"module {name}", *lines, "endmodule []", ""])


def definition(*lines):
    """A definition of one module with the sorts T, Int and Bool."""
    return "[]\n" + module("M", sort("T"), NUMBERS, TRUTHS, *lines)


def nested(name, parts):
    """Parts below a symbol of two arguments, as a tree of least height."""
    while len(parts) > 1:
        pairs = [applied(name, *parts[i : i + 2]) for i in range(0, len(parts) - 1, 2)]
        parts = pairs + parts[len(parts) - len(parts) % 2 :]
    return parts[0]


def once(words, folder):
    """The words run with a stack of 1,024 kilobytes: processor time, peak of memory, and what was printed. The peak is taken
    by `time`, since that of a child of this process begins with the memory of this process."""
    def bounds():
        resource.setrlimit(resource.RLIMIT_STACK, (2**20, 2**20))
        resource.setrlimit(resource.RLIMIT_AS, (8 * 2**30, 8 * 2**30))
        resource.setrlimit(resource.RLIMIT_FSIZE, (4 * 2**30, 4 * 2**30))
        resource.setrlimit(resource.RLIMIT_CPU, (300, 300))
        resource.setrlimit(resource.RLIMIT_CORE, (0, 0))

    with open(f"{folder}/out", "w+b") as out, open(f"{folder}/err", "w+b") as err:
        timed = ["/usr/bin/time", "-q", "-f", "%M", "-o", f"{folder}/most"]
        running = subprocess.Popen([*timed, *words], stdout=out, stderr=err, preexec_fn=bounds)
        _, status, used = os.wait4(running.pid, 0)
        running.returncode = os.waitstatus_to_exitcode(status)
        out.seek(0)
        err.seek(0)
        said = [it.read().decode(errors="replace").splitlines() for it in (out, err)]
    kilobytes = pathlib.Path(folder, "most").read_text()
    return Ran(used.ru_utime + used.ru_stime, int(kilobytes or 0) / 1024, running.returncode, *said)


def ran(words, folder):
    """The least time of up to five short runs, and the most memory."""
    runs = [once(words, folder)]
    while len(runs) < 5 and sum(run.seconds for run in runs) < 0.5:
        runs.append(once(words, folder))
    best = min(runs, key=lambda run: run.seconds)
    return best._replace(megabytes=max(run.megabytes for run in runs))


def written(folder, name, text):
    """A file of the folder that holds the text."""
    pathlib.Path(folder, name).write_text(text)
    return f"{folder}/{name}"
