#!/usr/bin/env python3
"""Tests of inv_abc.py: python3 examples/engines/test_inv_abc.py (needs yosys-abc or berkeley-abc, and cadical)."""
import itertools
import os
import random
import subprocess
import sys
import tempfile
import unittest

from inv_abc import ABC, SOLVERS, Checker, Fault, Pair, answer_of, first_there

TOOL = os.path.join(os.path.dirname(os.path.abspath(__file__)), "inv_abc.py")


class Design:
    """State bits with their start digits (None: any) and what they have next; `bad` and `assumed` by gates over them. What is next may
    rest on inputs."""

    def __init__(self, digits, inputs, nexts, bad, assumed):
        self.digits, self.inputs, self.nexts, self.bad, self.assumed = digits, inputs, nexts, bad, assumed

    def reached_break(self):
        """Whether a run breaks, by a search through all states."""
        rows = list(itertools.product([False, True], repeat=self.inputs))
        todo = [s for s in itertools.product([False, True], repeat=len(self.digits)) if all(d in (None, b) for b, d in zip(s, self.digits))]
        seen = set(todo)
        while todo:
            state = todo.pop()
            for row in rows:
                if not self.assumed(Plain, state, row):
                    continue
                if self.bad(Plain, state, row):
                    return True
                after = tuple(self.nexts(Plain, state, row))
                if after not in seen:
                    seen.add(after)
                    todo.append(after)
        return False

    def text(self):
        """The job's file, as `sby` makes it."""
        gates = Gates()
        state, row = [gates.fresh() for _ in self.digits], [gates.fresh() for _ in range(self.inputs)]
        bad, assumed = self.bad(gates, state, row), self.assumed(gates, state, row)
        after, later = list(self.nexts(gates, state, row)), [gates.fresh() for _ in range(self.inputs)]
        start = 1
        for bit, digit in zip(state, self.digits):
            if digit is not None:
                start = gates.both(start, bit if digit else -bit)
        lines = [f"c bit {i} {a} {b}" for i, (a, b) in enumerate(zip(state, after), 1)]
        lines += [f"c start {start}", f"c next {self.assumed(gates, after, later)}", f"c bad {bad}"]
        clauses = gates.clauses + [[assumed]]
        lines += [f"p cnf {gates.count} {len(clauses)}"] + [" ".join(map(str, [*it, 0])) for it in clauses]
        return "\n".join(lines) + "\n"


class Plain:
    """Gates over values."""
    true = True

    @staticmethod
    def no(a):
        return not a

    @staticmethod
    def both(a, b):
        return a and b

    @staticmethod
    def differ(a, b):
        return a != b

    @staticmethod
    def choose(c, a, b):
        return a if c else b


class Gates:
    """Gates over literals, with their clauses."""
    true = 1

    def __init__(self):
        self.count, self.clauses = 1, [[1]]

    def fresh(self):
        self.count += 1
        return self.count

    def no(self, a):
        return -a

    def gate(self, clauses):
        y = self.fresh()
        self.clauses += [[y if it == "y" else -y if it == "-y" else it for it in clause] for clause in clauses]
        return y

    def both(self, a, b):
        if -1 in (a, b) or a == -b:
            return -1
        if a == 1 or a == b:
            return b
        return a if b == 1 else self.gate([["-y", a], ["-y", b], ["y", -a, -b]])

    def differ(self, a, b):
        return self.gate([["-y", a, b], ["-y", -a, -b], ["y", -a, b], ["y", a, -b]])

    def choose(self, c, a, b):
        return self.gate([["-y", -c, a], ["y", -c, -a], ["-y", c, b], ["y", c, -b], ["-y", a, b], ["y", -a, -b]])


def fate(text, lines):
    """What a stream comes to, by its definition, for lines that are well formed."""
    pair, part, invariant, checker = Pair(text), "", [], None
    order = {"inv": "start", "start": "step", "step": "safe", "": "inv"}
    for line in lines:
        if line == "s UNKNOWN":
            return "unknown"
        if line in ("inv", "start", "step", "safe"):
            owed = [pair.over(it, part == "step") for it in invariant] if part in ("start", "step") else []
            if order.get(part) != line:
                return "BadPart"
            if not all(checker.admits(it) for it in owed):
                return "NotInvariant"
            part = line
            if part != "inv":
                held = [pair.over(it, 0) for it in invariant] if part != "start" else []
                unit = pair.named[{"start": "start", "step": "next", "safe": "bad"}[part]]
                checker = Checker(pair.variables, pair.clauses + held + [[unit]])
            continue
        *clause, end = map(int, line.split())
        assert end == 0
        if part == "inv":
            invariant.append(clause)
        elif not checker.admits(clause):
            return "NotRup"
        elif part == "safe" and not clause:
            return "found"
        else:
            checker.keep(clause)
    return "EarlyEnd"


def ring(n):
    """One token that goes round, or stays: two bits that stand side by side are never 1 at once."""
    def nexts(g, s, x):
        return [g.choose(x[0], s[i - 1], s[i]) for i in range(n)]
    return Design([i == 0 for i in range(n)], 1, nexts, lambda g, s, x: g.both(s[0], s[1]), lambda g, s, x: g.true)


def equal_counters(n):
    """Two counters that count where the input is 1, and are equal."""
    def count(g, row, carry):
        after = []
        for bit in row:
            after.append(g.differ(bit, carry))
            carry = g.both(bit, carry)
        return after

    def bad(g, s, x):
        equal = g.true
        for a, b in zip(s[:n], s[n:]):
            equal = g.both(equal, g.no(g.differ(a, b)))
        return g.no(equal)
    return Design([False] * 2 * n, 1, lambda g, s, x: count(g, s[:n], x[0]) + count(g, s[n:], x[0]), bad, lambda g, s, x: g.true)


# A register that holds 1 from its start on as long as an assumption keeps the input; one that keeps any value, with a copy.
HELD = Design([True], 1, lambda g, s, x: [g.both(s[0], x[0])], lambda g, s, x: g.no(s[0]), lambda g, s, x: x[0])
KEPT = Design([None, None, False], 1, lambda g, s, x: [s[0], g.choose(s[2], s[1], s[0]), g.true],
              lambda g, s, x: g.both(s[2], g.differ(s[0], s[1])), lambda g, s, x: g.no(g.both(g.no(s[2]), g.differ(s[0], s[1]))))


def any_design(dice):
    n, inputs = dice.randint(1, 4), dice.randint(0, 2)
    digits = [dice.choice([False, True, None]) for _ in range(n)]
    plan = [[dice.randrange(1 << 30) for _ in range(3)] for _ in range(dice.randint(1, 8))]
    outs = [dice.randrange(1 << 30) for _ in range(n)] + [[dice.randrange(1 << 30) for _ in range(4)], dice.randrange(1 << 30)]
    free = dice.random() < 0.5

    def values(g, s, x):
        found = [*s, *x]
        for a, b, c in plan:
            read = [found[it % len(found)] if it % 2 else g.no(found[it % len(found)]) for it in (a // 2, b // 2, c // 2)]
            found.append([lambda: g.both(*read[:2]), lambda: g.differ(*read[:2]), lambda: g.choose(*read)][a % 3]())
        return found

    def bad(g, s, x):
        found, all_of = values(g, s, x), g.true
        for it in outs[-2]:
            all_of = g.both(all_of, found[it % len(found)])
        return all_of
    return Design(digits, inputs, lambda g, s, x: [values(g, s, x)[it % len(values(g, s, x))] for it in outs[:n]], bad,
                  lambda g, s, x: g.true if free else values(g, s, x)[outs[-1] % len(values(g, s, x))])


class Answers(unittest.TestCase):
    def answer(self, design):
        text = design.text()
        return text, answer_of(text, first_there(ABC), first_there(SOLVERS))

    def test_invariants(self):
        for design in (ring(3), ring(8), equal_counters(4), equal_counters(12), HELD, KEPT):
            text, lines = self.answer(design)
            self.assertEqual(fate(text, lines), "found", text)

    def test_against_a_search(self):
        dice, seen = random.Random(7), {False: 0, True: 0}
        for _ in range(150):
            design = any_design(dice)
            breaks = design.reached_break()
            text, lines = self.answer(design)
            self.assertEqual(fate(text, lines), "unknown" if breaks else "found", text)
            seen[breaks] += 1
        self.assertGreater(min(seen.values()), 20)

    def test_edited_streams(self):
        text, lines = self.answer(ring(3))
        self.assertEqual(fate(text, lines[:1] + lines[lines.index("start"):]), "NotRup")
        self.assertEqual(fate(text, [it for it in lines if it != "step"]), "BadPart")
        self.assertEqual(fate(text, lines[:1] + ["-1 0"] + lines[1:]), "NotInvariant")


class Program(unittest.TestCase):
    def run_on(self, text, *words):
        with tempfile.TemporaryDirectory() as folder:
            path = os.path.join(folder, "inv.cnf")
            with open(path, "w") as file:
                file.write(text)
            return subprocess.run([sys.executable, "-B", TOOL, *words, path], stdin=subprocess.DEVNULL, capture_output=True, text=True)

    def test_the_program(self):
        done = self.run_on(HELD.text())
        self.assertEqual((done.returncode, done.stderr), (0, ""))
        self.assertEqual(fate(HELD.text(), done.stdout.split("\n")[:-1]), "found")
        done = self.run_on(HELD.text(), "--solver", "/nowhere")
        self.assertEqual((done.returncode, done.stdout), (1, ""))

    def test_refusals(self):
        for text, why in [("c bit 1\n", "line 1: Syntax"), ("p cnf 1 1\n1 0\n", "no job of an invariant"), ("1 x 0\n", "line 1: Syntax")]:
            with self.assertRaisesRegex(Fault, f"^{why}$"):
                Pair(text)
            self.assertEqual(self.run_on(text).stderr, f"inv_abc.py: {why}\n")


if __name__ == "__main__":
    unittest.main()
