#!/usr/bin/env python3
"""Tests of btor_smt.py: python3 examples/engines/test_btor_smt.py (needs z3; boolector 1.5 is tried too where it is installed)."""
import collections
import os
import random
import shutil
import signal
import subprocess
import sys
import tempfile
import time
import unittest

from btor_smt import Fault, Model, answer_of

TOOL = os.path.join(os.path.dirname(os.path.abspath(__file__)), "btor_smt.py")
SOLVERS = [{}] + ([{"once": True, "solver": "boolector --smt2 -m"}] if shutil.which("boolector") else [])


def run(text, *words):
    with tempfile.TemporaryDirectory() as folder:
        path = os.path.join(folder, "x.btor")
        with open(path, "w", newline="\n") as file:
            file.write(text)
        return subprocess.run([sys.executable, "-B", TOOL, *words, path], stdin=subprocess.DEVNULL, capture_output=True, text=True)


def signed(x, w):
    return x - (x >> (w - 1) << w)


def divided(a, b):
    """Towards zero."""
    return abs(a) // abs(b) * (-1 if (a < 0) != (b < 0) else 1)


def value_of(key, w, widths, read, sizes, bits=None):
    """A line's value by integers, of its operands' widths and values."""
    a, b, c = (read + [0, 0, 0])[:3]
    v = widths[0] if widths else w
    if key in ("sdiv", "srem", "slt", "slte", "sra", "sext"):
        x, y = signed(a, v), signed(b, widths[1]) if len(widths) > 1 else 0
    return {
        "const": lambda: int(bits, 2), "zero": lambda: 0, "one": lambda: 1, "ones": lambda: -1,
        "not": lambda: ~a, "neg": lambda: -a, "redand": lambda: a == (1 << v) - 1, "redor": lambda: a != 0,
        "redxor": lambda: bin(a).count("1"), "and": lambda: a & b, "or": lambda: a | b, "xor": lambda: a ^ b,
        "add": lambda: a + b, "sub": lambda: a - b, "mul": lambda: a * b,
        "udiv": lambda: a // b if b else -1, "urem": lambda: a % b if b else a,
        "sdiv": lambda: divided(x, y) if y else 1 if x < 0 else -1, "srem": lambda: x - y * divided(x, y) if y else x,
        "sll": lambda: a << b if b < v else 0, "srl": lambda: a >> b, "sra": lambda: x >> b,
        "eq": lambda: a == b, "neq": lambda: a != b, "ult": lambda: a < b, "ulte": lambda: a <= b,
        "slt": lambda: x < y, "slte": lambda: x <= y, "concat": lambda: a << widths[1] | b,
        "slice": lambda: a >> sizes[1], "uext": lambda: a, "sext": lambda: x, "ite": lambda: b if a else c,
    }[key]() & ((1 << w) - 1)


ARITHMETIC = ["and", "or", "xor", "add", "sub", "mul", "udiv", "urem", "sdiv", "srem", "sll", "srl", "sra"]
ORDERS = ["eq", "neq", "ult", "ulte", "slt", "slte"]


class Text:
    """Lines with nids and sorts as they come."""

    def __init__(self):
        self.lines, self.nid, self.sorts, self.widths = [], 0, {}, {}

    def line(self, *words):
        self.nid += 1
        self.lines.append(" ".join(map(str, (self.nid, *words))))
        return self.nid

    def value(self, key, width, *words):
        if width not in self.sorts:
            self.sorts[width] = self.line("sort", "bitvec", width)
        nid = self.line(key, self.sorts[width], *words)
        self.widths[nid] = width
        return nid

    def const(self, width, value):
        return self.value("const", width, f"{value:0{width}b}")

    def tie(self, key, state, value):
        return self.line(key, self.sorts[self.widths[state]], state, value)

    def all(self):
        return "\n".join(self.lines) + "\n"


def operand(dice, w):
    """A value of a width; the ends often, and small ones, which shift and divide."""
    top = (1 << w) - 1
    return dice.choice([0, 1, top, 1 << (w - 1), dice.randint(0, min(top, w + 1)), dice.randint(0, top), dice.randint(0, top)])


def shape_of(dice, key):
    """A width, the operands' widths and the numbers after them, at random."""
    v, w = dice.randint(1, 9), dice.randint(1, 9)
    if key in ("redand", "redor", "redxor"):
        return 1, [v], []
    if key in ("not", "neg"):
        return v, [v], []
    if key in ARITHMETIC:
        return v, [v, v], []
    if key in ORDERS:
        return 1, [v, v], []
    if key == "concat":
        return v + w, [v, w], []
    if key == "slice":
        lower = dice.randrange(v)
        upper = dice.randrange(lower, v)
        return upper + 1 - lower, [v], [upper, lower]
    if key in ("uext", "sext"):
        return v + w - 1, [v], [w - 1]
    return v, [1, v, v], []


OPERATORS = ["not", "neg", "redand", "redor", "redxor", *ARITHMETIC, *ORDERS, "concat", "slice", "uext", "sext", "ite"]


def cases(dice, count, is_free):
    """An operator's values at many operands, which are constants or inputs with one value; whether one is wrong; the inputs."""
    text, wrong, inputs = Text(), [], []
    for key in OPERATORS * count:
        width, widths, sizes = shape_of(dice, key)
        read = [operand(dice, w) for w in widths]
        nids = [text.const(w, x) for w, x in zip(widths, read)]
        if is_free:
            fixed, nids = nids, [text.value("input", w) for w in widths]
            for a, b in zip(nids, fixed):
                text.line("constraint", text.value("eq", 1, a, b))
            inputs += zip(widths, read)
        got = text.value(key, width, *nids, *sizes)
        wrong.append(text.value("neq", 1, got, text.const(width, value_of(key, width, widths, read, sizes))))
    some = wrong[0]
    for it in wrong[1:]:
        some = text.value("or", 1, some, it)
    return text, some, inputs


Line = collections.namedtuple("Line", "nid key width widths read sizes bits")


class Player:
    """A machine of a text, played by integers."""

    def __init__(self, text):
        self.lines, sorts, self.widths = [], {}, {}
        self.inputs, self.states, self.inits, self.nexts, self.bads, self.constraints = [], [], {}, {}, [], []
        for words in map(str.split, text.splitlines()):
            nid, key, rest = int(words[0]), words[1], words[2:]
            if key == "sort":
                sorts[nid] = int(rest[1])
            elif key in ("init", "next"):
                (self.inits if key == "init" else self.nexts)[int(rest[1])] = int(rest[2])
            elif key in ("bad", "constraint"):
                (self.bads if key == "bad" else self.constraints).append(int(rest[0]))
            else:
                self.widths[nid] = width = sorts[int(rest[0])]
                count = {"slice": 1, "uext": 1, "sext": 1, "const": 0}.get(key, len(rest) - 1)
                read = [int(it) for it in rest[1:1 + count]]
                sizes, bits = ([], rest[1]) if key == "const" else ([int(it) for it in rest[1 + count:]], None)
                self.lines.append(Line(nid, key, width, [self.widths[it] for it in read], read, sizes, bits))
                {"input": self.inputs, "state": self.states}.get(key, []).append(nid)

    def cycle(self, chosen):
        """All values, of those of inputs and states."""
        values = dict(chosen)
        for it in self.lines:
            if it.key not in ("input", "state"):
                values[it.nid] = value_of(it.key, it.width, it.widths, [values[x] for x in it.read], it.sizes, it.bits)
        return values

    def choices(self, nids):
        """All values of these, as dicts."""
        total = sum(self.widths[it] for it in nids)
        for number in range(1 << total):
            found = {}
            for it in nids:
                found[it] = number & (1 << self.widths[it]) - 1
                number >>= self.widths[it]
            yield found

    def starts(self, state):
        values = self.cycle({**state, **dict.fromkeys(self.inputs, 0)})
        return all(state[q] == values[v] for q, v in self.inits.items())

    def shortest(self, depth):
        """The least number of cycles of a run that shows a bad, and the bads that such runs show."""
        level = {tuple(s.items()) for s in self.choices(self.states) if self.starts(s)}
        for t in range(depth):
            after, shown = set(), set()
            for state in level:
                for chosen in self.choices(self.inputs):
                    values = self.cycle({**dict(state), **chosen})
                    if all(values[it] for it in self.constraints):
                        shown |= {k for k, it in enumerate(self.bads) if values[it]}
                        after.add(tuple((q, values[self.nexts[q]]) for q in self.states))
            if shown:
                return t + 1, shown
            level = after
        return None, set()

    def shows(self, lines):
        """The cycles and the bad of a witness, if the machine plays it."""
        heads = [i for i, line in enumerate(lines) if line[0] in "#@"]
        parts = {lines[i]: dict(map(str.split, lines[i + 1:j])) for i, j in zip(heads, heads[1:] + [len(lines) - 1])}
        frames, bad = len(heads) // 2, int(lines[1][1:])
        row = lambda part, i, nid: int(parts[part][str(i)], 2) if len(parts[part][str(i)]) == self.widths[nid] else None
        values = {it: None if it in self.inits else row("#0", i, it) for i, it in enumerate(self.states)}
        values.update({q: self.cycle({**dict.fromkeys(self.states + self.inputs, 0)})[v] for q, v in self.inits.items()})
        for t in range(frames):
            values = self.cycle({**{q: values[q] for q in self.states}, **{it: row(f"@{t}", i, it) for i, it in enumerate(self.inputs)}})
            if not all(values[it] for it in self.constraints):
                return None
            last, values = values, {q: values[self.nexts[q]] for q in self.states}
        return (frames, bad) if last[self.bads[bad]] and lines[0] == "sat" and lines[-1] == "." else None


def machine(dice):
    """A random text: few bits of state and input, constants as starts or none, constraints, bads."""
    text = Text()
    pool, states = [], []
    for _ in range(dice.randint(1, 3)):
        w = dice.randint(1, 2)
        start = text.const(w, dice.randrange(1 << w)) if dice.random() < 0.6 else None
        states.append(text.value("state", w))
        if start is not None:
            text.tie("init", states[-1], start)
    pool += states + [text.value("input", dice.randint(1, 2)) for _ in range(dice.randint(0, 2))]
    pool += [text.value(dice.choice(["zero", "one", "ones"]), dice.randint(1, 3))]

    def resized(nid, w):
        v = text.widths[nid]
        if v == w:
            return nid
        return text.value("slice", w, nid, w - 1, 0) if v > w else text.value(dice.choice(["uext", "sext"]), w, nid, w - v)

    for _ in range(dice.randint(3, 10)):
        key = dice.choice(OPERATORS)
        width, widths, sizes = shape_of(dice, key)
        pool.append(text.value(key, width, *[resized(dice.choice(pool), w) for w in widths], *sizes))
    for q in states:
        text.tie("next", q, resized(dice.choice(pool), text.widths[q]))
    for _ in range(dice.randint(0, 1)):
        text.line("constraint", text.value("redor", 1, dice.choice(pool)))
    for _ in range(dice.randint(1, 3)):
        goal = text.value("redand", 1, dice.choice(pool))
        for _ in range(dice.randint(0, 2)):
            goal = text.value("and", 1, goal, text.value(dice.choice(["redor", "redxor"]), 1, dice.choice(pool)))
        text.line("bad", goal)
    return text.all()


# A bit that is turned in each cycle and may not be 1, and a counter of two bits that may not come to 3.
TURNED = "1 sort bitvec 1\n2 zero 1\n3 state 1\n4 init 1 3 2\n5 not 1 3\n6 next 1 3 5\n7 bad 3\n"
COUNTED = ("1 sort bitvec 2\n2 zero 1\n3 state 1\n4 init 1 3 2\n5 const 1 01\n6 add 1 3 5\n7 ones 1\n8 sort bitvec 1\n9 neq 8 3 7\n"
           "10 next 1 3 6\n11 ones 8\n12 not 8 9\n13 and 8 11 12\n14 bad 13\n")


@unittest.skipUnless(shutil.which("z3"), "z3 is missing")
class Answers(unittest.TestCase):
    def test_operators(self):
        dice = random.Random(1)
        for solver in SOLVERS:
            for is_free in (False, True):
                text, some, inputs = cases(dice, 6, is_free)
                self.assertEqual(answer_of(f"{text.all()}{text.nid + 1} bad {some}\n", 1, **solver), ["unknown up to 1"])
                none = text.value("not", 1, some)
                got = answer_of(f"{text.all()}{text.nid + 1} bad {none}\n", 1, **solver)
                wanted = [f"{i} {x:0{w}b}" for i, (w, x) in enumerate(inputs)]
                self.assertEqual(got, ["sat", "b0", "#0", "@0", *wanted, "."])

    def test_wide_words(self):
        for w in (64, 1000, 4096):
            text = Text()
            a = text.value("input", w)
            odd = text.value("redxor", 1, a)
            text.line("constraint", text.value("eq", 1, a, text.value("srl", w, text.value("ones", w), text.value("one", w))))
            text.line("bad", odd)
            self.assertEqual(answer_of(text.all()), ["sat", "b0", "#0", "@0", "0 0" + "1" * (w - 1), "."])

    def test_random_machines(self):
        for seed in range(40):
            text = machine(random.Random(seed))
            player = Player(text)
            cycles, bads = player.shortest(6)
            for solver in SOLVERS:
                got = answer_of(text, 6, **solver)
                if cycles is None:
                    self.assertEqual(got, ["unknown up to 6"], text)
                else:
                    shown = player.shows(got)
                    self.assertTrue(shown and shown[0] == cycles and shown[1] in bads, f"{text}{got}")

    def test_counters(self):
        for solver in SOLVERS:
            for text, cycles in ((TURNED, 2), (COUNTED, 4)):
                self.assertEqual(answer_of(text, cycles - 1, **solver), [f"unknown up to {cycles - 1}"])
                frames = [line for t in range(cycles) for line in (f"#{t}", f"@{t}")]
                self.assertEqual(answer_of(text, cycles, **solver), ["sat", "b0", *frames, "."])

    def test_skipped_cycles(self):
        self.assertEqual(answer_of(TURNED, 4, 2).count("@3"), 1)
        self.assertEqual(answer_of(TURNED, 3, 2), ["unknown up to 3"])

    def test_states_without_start(self):
        text = ("1 sort bitvec 3\n2 sort bitvec 1\n3 one 1\n4 state 1 first\n5 init 1 4 3\n6 state 1 second\n7 input 2 in\n8 state 2\n"
                "9 next 1 4 4\n10 next 1 6 6\n11 next 2 8 8\n12 const 1 110\n13 eq 2 6 12\n14 and 2 13 7\n15 and 2 14 8\n16 bad 15\n")
        self.assertEqual(answer_of(text), ["sat", "b0", "#0", "1 110", "2 1", "@0", "0 1", "."])

    def test_start_of_another_state(self):
        """An init whose value comes after the state, and depends on another state."""
        text = ("1 sort bitvec 2\n2 sort bitvec 1\n3 state 1\n4 state 1\n5 not 1 4\n6 init 1 3 5\n7 next 1 3 3\n8 next 1 4 4\n9 const 1 01\n"
                "10 eq 2 3 9\n11 bad 10\n")
        self.assertEqual(answer_of(text), ["sat", "b0", "#0", "1 10", "@0", "."])

    def test_state_without_next(self):
        """It has any value in each cycle."""
        text = "1 sort bitvec 1\n2 zero 1\n3 state 1\n4 init 1 3 2\n5 bad 3\n"
        self.assertEqual(answer_of(text), ["sat", "b0", "#0", "@0", "#1", "0 1", "@1", "."])

    def test_constraints_hold_in_each_cycle(self):
        front = "1 sort bitvec 1\n2 zero 1\n3 state 1\n4 init 1 3 2\n5 input 1\n6 next 1 3 5\n7 bad 3\n"
        self.assertEqual(answer_of(front), ["sat", "b0", "#0", "@0", "0 1", "#1", "@1", "0 0", "."])
        self.assertEqual(answer_of(front + "8 not 1 5\n9 constraint 8\n"), ["unknown up to 20"])
        self.assertEqual(answer_of(front + "8 constraint 5\n")[4:8], ["0 1", "#1", "@1", "0 1"])

    def test_bads(self):
        front = "1 sort bitvec 1\n2 zero 1\n3 ones 1\n4 state 1\n5 init 1 4 2\n6 next 1 4 3\n"
        self.assertEqual(answer_of(front), ["unknown up to 20"])
        self.assertEqual(answer_of(front + "7 bad 2\n8 bad 4\n9 bad 4\n")[:2], ["sat", "b1"])

    def test_layout(self):
        text = "  1\tsort  bitvec 1;x\n\n; none\n2 input 1 a$b ;c\r\n7 state 1 s\r\n8 next 1 7 2\n9 and 1 2 7\n10 bad 9 "
        self.assertEqual(answer_of(text), ["sat", "b0", "#0", "0 1", "@0", "0 1", "."])

    def test_solver_ends_with_the_tool(self):
        w = 128
        text = Text()
        a, b = text.value("input", w), text.value("input", w)
        for it in (a, b):
            text.line("constraint", text.value("eq", 1, text.value("slice", w // 2, it, w - 1, w // 2), text.value("zero", w // 2)))
            text.line("constraint", text.value("neq", 1, it, text.value("one", w)))
        product = text.const(w, (2 ** 61 - 1) * (2 ** 59 - 55))
        text.line("bad", text.value("eq", 1, text.value("mul", w, a, b), product))
        with tempfile.TemporaryDirectory() as folder:
            path = os.path.join(folder, "x.btor")
            with open(path, "w") as file:
                file.write(text.all())
            for moment in (0.1, 2.5):
                tool = subprocess.Popen([sys.executable, "-B", TOOL, path], stdout=subprocess.DEVNULL)
                solver = None
                while solver is None:
                    with open(f"/proc/{tool.pid}/task/{tool.pid}/children") as file:
                        solver = next(iter(file.read().split()), None)
                time.sleep(moment)
                tool.send_signal(signal.SIGKILL)
                tool.wait()
                for _ in range(100):
                    if not os.path.exists(f"/proc/{solver}"):
                        break
                    time.sleep(0.1)
                self.assertFalse(os.path.exists(f"/proc/{solver}"))


class Refusals(unittest.TestCase):
    def test_lines(self):
        for text, line, kind in [
            ("1 sort bitvec 1\n2 state 9\n", 2, "UnknownNid"), ("1 sort array 1 1\n", 1, "Syntax"), ("1 sort 1\n", 1, "Syntax"),
            ("\n01 sort bitvec 1\n", 2, "Syntax"), ("0 sort bitvec 1\n", 1, "Syntax"), ("1 sort bitvec 0\n", 1, "Syntax"),
            ("2 sort bitvec 1\n2 state 2\n", 2, "Syntax"), ("1 sort bitvec 1\n2 zero 1 name\n", 2, "Syntax"),
            ("1 sort bitvec 1\n2 state 1\n3 one 1\n4 not 1 -3\n", 4, "Syntax"), ("1 sort bitvec 1\n2 input 1 a b\n", 2, "Syntax"),
            ("1 sort bitvec 1\n2 state 1\n3 next 1 2 2\n4 next 1 2 2\n", 4, "Syntax"), ("1 sort bitvec 1\n2 const 1\n", 2, "Syntax"),
            ("1 sort bitvec 1\n2 state 1\n3 next 1 2 2\n4 init 1 2 2\n", 4, "Syntax"), ("1 sort bitvec 1\n2 justice 1 1\n", 2, "Syntax"),
            ("1 sort bitvec 1\n2 zero 1\n3 next 1 2 2\n", 3, "UnknownNid"), ("1 sort bitvec 1\n2 zero 2\n", 2, "UnknownNid"),
            ("1 sort bitvec 1\n2 and 1 2 2\n", 2, "UnknownNid"), ("1 sort bitvec 1\n\n2 bad 1\n", 3, "UnknownNid"),
            ("1 sort bitvec 2\n2 zero 1\n3 bad 2\n", 3, "Sort"), ("1 sort bitvec 2\n2 const 1 010\n", 2, "Sort"),
            ("1 sort bitvec 2\n2 zero 1\n3 slice 1 2 2 1\n", 3, "Sort"), ("1 sort bitvec 2\n2 zero 1\n3 uext 1 2 1\n", 3, "Sort"),
            ("1 sort bitvec 2\n2 zero 1\n3 eq 1 2 2\n", 3, "Sort"), ("1 sort bitvec 4097\n", 1, "Limit"),
            ("4294967295 sort bitvec 1\n", 1, "Limit"), ("9" * 5000 + " sort bitvec 1\n", 1, "Limit"), ("4294967295 zero 1\n", 1, "UnknownNid"),
        ]:
            with self.assertRaisesRegex(Fault, f"^line {line}: {kind}$", msg=text[:80]):
                Model(text)

    def test_the_program(self):
        done = run("1 sort bitvec 0\n")
        self.assertEqual((done.returncode, done.stdout, done.stderr), (1, "", "btor_smt.py: line 1: Syntax\n"))
        done = run(TURNED, "--solver", "true", "--depth", "3")
        self.assertEqual((done.returncode, done.stdout), (1, ""))
        done = run("", "--solver", "cat", "--depth", "3")
        self.assertEqual((done.returncode, done.stdout), (0, "unknown up to 3\n"))
        done = run(TURNED, "--solver", "/nowhere")
        self.assertEqual((done.returncode, done.stdout), (1, ""))


if __name__ == "__main__":
    unittest.main()
