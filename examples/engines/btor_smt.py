#!/usr/bin/env python3
"""A run that shows a bad of a BTOR2 file, found by an SMT solver.

    btor_smt.py [--depth 20] [--skip 0] [--solver 'z3 -in'] [--once] FILE

The lines are unrolled cycle by cycle, with a query to the solver in each, so the run is a shortest one. Printed is a
witness of BTOR2, or `unknown up to N`. Exit status 1, with a line on the error output: the file is refused, or the
solver fails.
"""
import argparse
import collections
import ctypes
import os
import re
import resource
import shlex
import signal
import subprocess
import sys

UNARY = {"not": "(bvnot {0})", "neg": "(bvneg {0})", "redand": "(bvcomp {0} (bvnot (_ bv0 {1})))",
         "redor": "(bvnot (bvcomp {0} (_ bv0 {1})))", "redxor": None}
BINARY = {"and": "bvand", "or": "bvor", "xor": "bvxor", "add": "bvadd", "sub": "bvsub", "mul": "bvmul",
          "udiv": "bvudiv", "urem": "bvurem", "sdiv": "bvsdiv", "srem": "bvsrem", "sll": "bvshl", "srl": "bvlshr",
          "sra": "bvashr"}
COMPARE = {"eq": "=", "neq": "distinct", "ult": "bvult", "ulte": "bvule", "slt": "bvslt", "slte": "bvsle"}
FILLED = {"zero": "(_ bv0 {0})", "one": "(_ bv1 {0})", "ones": "(bvnot (_ bv0 {0}))"}
EXTEND = {"uext": "zero_extend", "sext": "sign_extend"}
WIDEST, LAST_NID = 4096, 2 ** 32 - 2
NUMBER = re.compile(r"0|[1-9][0-9]*")
NAMES_AT_ONCE = 500

# A key's operands, and the numbers after them.
FORMS = {"input": (0, 0), "state": (0, 0), "const": (0, 0), "concat": (2, 0), "slice": (1, 2), "ite": (3, 0)}
FORMS.update({key: (0, 0) for key in FILLED})
FORMS.update({key: (1, 0) for key in UNARY})
FORMS.update({key: (2, 0) for key in (*BINARY, *COMPARE)})
FORMS.update({key: (1, 1) for key in EXTEND})

Value = collections.namedtuple("Value", "nid key width operands sizes bits")


class Fault(Exception):
    """Why there is no answer."""


def number(word):
    """The number of a word; what is past all nids stands for itself."""
    return int(word) if len(word) < 11 else LAST_NID + 1


def fits(key, width, widths, sizes, bits):
    """Whether a value of this width has operands of these."""
    if key == "const":
        return len(bits) == width
    if key in COMPARE:
        return width == 1 and widths[0] == widths[1]
    if key == "concat":
        return width == sum(widths)
    if key == "slice":
        return sizes[1] <= sizes[0] < widths[0] and width == sizes[0] + 1 - sizes[1]
    if key in EXTEND:
        return width == widths[0] + sizes[0]
    if key == "ite":
        return widths == [1, width, width]
    if key in ("redand", "redor", "redxor"):
        return width == 1
    return all(it == width for it in widths)


class Model:
    """The lines of a file: values in their order; of states what they start as and have next."""

    def __init__(self, text):
        self.sorts, self.widths, self.values = {}, {}, []
        self.inputs, self.states, self.inits, self.nexts = [], {}, {}, {}
        self.bads, self.constraints = [], []
        last = 0
        for place, line in enumerate(text.split("\n"), 1):
            words = re.findall(r"[^ \t\r]+", line.split(";")[0])
            if words:
                kind = self.add(words, last)
                if kind is not None:
                    raise Fault(f"line {place}: {kind}")
                last = number(words[0])

    def add(self, words, last):
        """Adds a line, or says why it can't follow."""
        if len(words) < 3 or not NUMBER.fullmatch(words[0]) or number(words[0]) <= last:
            return "Syntax"
        nid, key, words, bits = number(words[0]), words[1], words[2:], None
        if key == "const":
            bits = words.pop()
        elif key in ("input", "state") and len(words) == 2:
            words.pop()  # its symbol
        elif key == "sort" and words[0] == "bitvec" and len(words) == 2:
            key, words = "sort bitvec", words[1:]
        if not all(NUMBER.fullmatch(it) for it in words) or bits is not None and not re.fullmatch("[01]+", bits):
            return "Syntax"
        numbers = [number(it) for it in words]
        if key in FORMS:
            kind = self.add_value(nid, key, numbers, bits)
        elif key in ("init", "next"):
            kind = self.add_tie(key, numbers)
        else:
            kind = self.add_other(nid, key, numbers)
        return kind or ("Limit" if nid > LAST_NID else None)

    def add_other(self, nid, key, numbers):
        if len(numbers) != 1 or key not in ("sort bitvec", "bad", "constraint"):
            return "Syntax"
        if key == "sort bitvec":
            if numbers[0] == 0:
                return "Syntax"
            self.sorts[nid] = numbers[0]
            return "Limit" if numbers[0] > WIDEST else None
        if numbers[0] not in self.widths:
            return "UnknownNid"
        (self.bads if key == "bad" else self.constraints).append(numbers[0])
        return None if self.widths[numbers[0]] == 1 else "Sort"

    def add_tie(self, key, numbers):
        if len(numbers) != 3 or numbers[1] in self.nexts or key == "init" and numbers[1] in self.inits:
            return "Syntax"
        sort, state, value = numbers
        if sort not in self.sorts or state not in self.states or value not in self.widths:
            return "UnknownNid"
        (self.inits if key == "init" else self.nexts)[state] = value
        return None if self.sorts[sort] == self.widths[state] == self.widths[value] else "Sort"

    def add_value(self, nid, key, numbers, bits):
        operands, sizes = FORMS[key]
        if len(numbers) != 1 + operands + sizes:
            return "Syntax"
        sort, read, sizes = numbers[0], numbers[1:1 + operands], numbers[1 + operands:]
        if sort not in self.sorts or any(it not in self.widths for it in read):
            return "UnknownNid"
        width = self.sorts[sort]
        if not fits(key, width, [self.widths[it] for it in read], sizes, bits):
            return "Sort"
        if key == "input":
            self.inputs.append(nid)
        if key == "state":
            self.states[nid] = width
        self.widths[nid] = width
        self.values.append(Value(nid, key, width, read, sizes, bits))
        return None


def parity(word, width):
    """All bits of a word in one xor, as a balanced tree."""
    bits = [f"((_ extract {i} {i}) {word})" for i in range(width)]
    while len(bits) > 1:
        pairs = [f"(bvxor {a} {b})" for a, b in zip(bits[::2], bits[1::2])]
        bits = pairs + bits[len(pairs) * 2:]
    return bits[0]


def term(value, widths):
    """The term of a value; `@` stands for the cycle."""
    key, words = value.key, [f"n{it}_@" for it in value.operands]
    if key == "const":
        return f"#b{value.bits}"
    if key in FILLED:
        return FILLED[key].format(value.width)
    if key == "redxor":
        return parity(words[0], widths[value.operands[0]])
    if key in UNARY:
        return UNARY[key].format(words[0], widths[value.operands[0]])
    if key in BINARY:
        return f"({BINARY[key]} {words[0]} {words[1]})"
    if key in COMPARE:
        return f"(ite ({COMPARE[key]} {words[0]} {words[1]}) #b1 #b0)"
    if key == "concat":
        return f"(concat {words[0]} {words[1]})"
    if key == "slice":
        return f"((_ extract {value.sizes[0]} {value.sizes[1]}) {words[0]})"
    if key in EXTEND:
        return f"((_ {EXTEND[key]} {value.sizes[0]}) {words[0]})"
    return f"(ite (= {words[0]} #b1) {words[1]} {words[2]})"


class Unrolling:
    """The text of each cycle: what each line has there, and the constraints."""

    def __init__(self, model):
        self.model = model
        lines = [f"(declare-fun n{it.nid}_@ () (_ BitVec {it.width}))\n" for it in model.values]
        lines += [self.equal(it.nid, term(it, model.widths)) for it in model.values if it.key not in ("input", "state")]
        lines += [self.equal(it, "#b1") for it in model.constraints]
        self.first = "".join(lines + [self.equal(it, f"n{value}_@") for it, value in model.inits.items()])
        self.later = "".join(lines + [self.equal(it, f"n{value}_~") for it, value in model.nexts.items()])

    @staticmethod
    def equal(nid, words):
        return f"(assert (= n{nid}_@ {words}))\n"

    def text(self, cycle):
        """`@` stands for the cycle, `~` for the one before."""
        return (self.later if cycle else self.first).replace("@", str(cycle)).replace("~", str(cycle - 1))

    def some_bad(self, cycle):
        bads = [f"(= n{it}_{cycle} #b1)" for it in self.model.bads]
        return bads[0] if len(bads) == 1 else f"(or {' '.join(bads)})"


def child(words):
    """A solver that ends with this program, however it ends."""
    libc = ctypes.CDLL(None)
    parent = os.getpid()

    def prepare():
        if hasattr(libc, "prctl"):
            libc.prctl(1, signal.SIGKILL)  # PR_SET_PDEATHSIG
            if os.getppid() != parent:
                os._exit(1)
        _, most = resource.getrlimit(resource.RLIMIT_STACK)
        resource.setrlimit(resource.RLIMIT_STACK, (most, most))

    return subprocess.Popen(words, stdin=subprocess.PIPE, stdout=subprocess.PIPE, preexec_fn=prepare, text=True)


class Talk:
    """A solver that is asked question after question."""

    VALUE = re.compile(r"\(\s*(\w+)\s+#([bx])([0-9a-fA-F]+)\s*\)")

    def __init__(self, words):
        self.child = child(words)
        self.say("(set-option :print-success false)\n(set-option :produce-models true)\n(set-logic QF_BV)\n")

    def say(self, text):
        self.child.stdin.write(text)

    def close(self):
        self.child.kill()
        self.child.communicate()

    def line(self):
        self.child.stdin.flush()
        line = self.child.stdout.readline()
        if not line or line.startswith("(error"):
            raise Fault(f"the solver: {line.strip() or 'it has ended'}")
        return line

    def check(self, goal):
        self.say(f"(push 1)\n(assert {goal})\n(check-sat)\n")
        answer = self.line().strip()
        if answer == "unsat":
            self.say(f"(pop 1)\n(assert (not {goal}))\n")
        return answer

    def values(self, names):
        """The bits of these names, highest first."""
        found = {}
        for i in range(0, len(names), NAMES_AT_ONCE):
            self.say(f"(get-value ({' '.join(names[i:i + NAMES_AT_ONCE])}))\n")
            text, depth = "", 0
            while depth > 0 or not text:
                line = self.line()
                text, depth = text + line, depth + line.count("(") - line.count(")")
            for name, base, digits in self.VALUE.findall(text):
                found[name] = digits if base == "b" else f"{int(digits, 16):0{4 * len(digits)}b}"
        return found


class Once:
    """A solver that takes one question, reads to the end of its input, and prints values as `NAME BITS`."""

    def __init__(self, words):
        self.words, self.text, self.found = words, ["(set-logic QF_BV)\n"], {}

    def say(self, text):
        self.text.append(text)

    def check(self, goal):
        out, _ = child(self.words).communicate("".join(self.text) + f"(assert {goal})\n(check-sat)\n(exit)\n")
        lines = [line.split() for line in out.splitlines() if line.strip()] or [["nothing"]]
        self.found = {words[0]: words[1].replace("x", "0") for words in lines[1:] if len(words) == 2}
        if lines[0] == ["unsat"]:
            self.say(f"(assert (not {goal}))\n")
        return " ".join(lines[0])

    def values(self, names):
        return {name: self.found.get(name, "0") for name in names}

    def close(self):
        pass


def witness(model, solver, cycle):
    """The lines of a witness whose last cycle this is."""
    bads = solver.values([f"n{it}_{cycle}" for it in model.bads])
    shown = [i for i, it in enumerate(model.bads) if bads.get(f"n{it}_{cycle}") == "1"]
    if not shown:
        raise Fault("the solver: no bad holds in its values")
    lines, states = ["sat", f"b{shown[0]}"], list(model.states)
    free = [[i for i, it in enumerate(states) if it not in ties] for ties in (model.inits, model.nexts)]
    for t in range(cycle + 1):
        names = [f"n{states[i]}_{t}" for i in free[t > 0]], [f"n{it}_{t}" for it in model.inputs]
        bits = solver.values(names[0] + names[1])
        if len(bits) != len(set(names[0] + names[1])):
            raise Fault("the solver: it leaves out a value")
        lines += [f"#{t}"] + [f"{i} {bits[name]:0>{model.widths[states[i]]}}" for i, name in zip(free[t > 0], names[0])]
        lines += [f"@{t}"] + [f"{i} {bits[name]:0>{model.widths[model.inputs[i]]}}" for i, name in enumerate(names[1])]
    return lines + ["."]


def search(model, solver, depth, skip):
    """The lines to print."""
    if not model.bads:
        return [f"unknown up to {depth}"]
    unrolling = Unrolling(model)
    for cycle in range(depth):
        solver.say(unrolling.text(cycle))
        if cycle < skip:
            continue
        answer = solver.check(unrolling.some_bad(cycle))
        if answer == "sat":
            return witness(model, solver, cycle)
        if answer == "unknown":
            return [f"unknown at {cycle}"]
        if answer != "unsat":
            raise Fault(f"the solver: {answer}")
    return [f"unknown up to {depth}"]


def answer_of(text, depth=20, skip=0, solver="z3 -in", once=False):
    """The lines for a file's text."""
    model = Model(text)
    talk = (Once if once else Talk)(shlex.split(solver))
    try:
        return search(model, talk, depth, skip)
    finally:
        talk.close()


def main():
    words = argparse.ArgumentParser(description=__doc__, formatter_class=argparse.RawDescriptionHelpFormatter)
    words.add_argument("--depth", type=int, default=20, help="cycles, at most (20)")
    words.add_argument("--skip", type=int, default=0, help="first cycles in which no bad is sought (0)")
    words.add_argument("--solver", default="z3 -in", help="a solver that reads SMT-LIB 2 from its input (z3 -in)")
    words.add_argument("--once", action="store_true", help="a new solver for each cycle, as boolector 1.5 needs it")
    words.add_argument("file", metavar="FILE")
    words = words.parse_args()
    try:
        with open(words.file, encoding="latin-1", newline="\n") as file:
            lines = answer_of(file.read(), words.depth, words.skip, words.solver, words.once)
    except (Fault, OSError) as fault:
        sys.exit(f"btor_smt.py: {fault}")
    print("\n".join(lines))


if __name__ == "__main__":
    main()
