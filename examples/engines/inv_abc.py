#!/usr/bin/env python3
"""An inductive invariant of the job inv.cnf, found by ABC and proved by a SAT solver.

    inv_abc.py [--abc PROGRAM] [--solver PROGRAM] FILE

ABC's pdr looks for clauses over the state bits that hold at each start, go on from cycle to cycle, and rule a break out.
Printed are these clauses, and the clauses by which unit propagation alone admits all three; or `s UNKNOWN`. Exit status
1, with a line on the error output: the file is refused, or a program isn't there.
"""
import argparse
import os
import re
import shutil
import subprocess
import sys
import tempfile

ABC, SOLVERS = ["yosys-abc", "berkeley-abc", "abc"], ["cadical", "cdcl_program"]


class Fault(Exception):
    """Why there is no answer."""


class Pair:
    """The job's file: the formula of two cycles, and the literals of the state bits in each of them."""

    def __init__(self, text):
        self.bits, self.named, self.clauses, self.variables = {}, {}, [], 0
        for place, line in enumerate(text.split("\n"), 1):
            words = line.split()
            try:
                self.add(words)
            except (ValueError, IndexError):
                raise Fault(f"line {place}: Syntax") from None
        if set(self.named) != {"start", "next", "bad"} or not self.clauses or len(self.clauses[-1]) != 1:
            raise Fault("no job of an invariant")
        self.assumed = self.clauses[-1][0]

    def add(self, words):
        if not words:
            return
        if words[0] == "c":
            if words[1:2] == ["bit"]:
                self.bits[int(words[2])] = int(words[3]), int(words[4])
            elif words[1] in ("start", "next", "bad"):
                self.named[words[1]] = int(words[2])
        elif words[0] == "p":
            self.variables = int(words[2])
        else:
            self.clauses.append([int(it) for it in words[:-1]])

    def over(self, clause, frame):
        """A clause over the state bits, of one of the cycles."""
        return [self.bits[abs(it)][frame] * (1 if it > 0 else -1) for it in clause]


class Checker:
    """Clauses, and what unit propagation makes of them, with two watched literals."""

    def __init__(self, variables, clauses):
        self.values, self.watches, self.trail, self.done, self.broken = [0] * (variables + 1), {}, [], 0, False
        for clause in clauses:
            self.keep(clause)

    def value(self, literal):
        return self.values[literal] if literal > 0 else -self.values[-literal]

    def put(self, literal):
        self.values[abs(literal)] = 1 if literal > 0 else -1
        self.trail.append(literal)

    def keep(self, clause):
        clause = sorted(dict.fromkeys(clause), key=lambda it: -self.value(it))
        if self.broken or not clause or self.value(clause[0]) < 0:
            self.broken = True
            return
        if len(clause) > 1:
            for literal in clause[:2]:
                self.watches.setdefault(-literal, []).append(clause)
        if self.value(clause[0]) == 0 and (len(clause) == 1 or self.value(clause[1]) < 0):
            self.put(clause[0])
            self.broken = not self.propagates()

    def propagates(self):
        while self.done < len(self.trail):
            literal = self.trail[self.done]
            self.done += 1
            kept, watching = [], self.watches.get(literal, [])
            for place, clause in enumerate(watching):
                if self.moves(clause, literal):
                    continue
                kept.append(clause)
                if self.value(clause[0]) < 0:
                    self.watches[literal] = kept + watching[place + 1:]
                    return False
                if self.value(clause[0]) == 0:
                    self.put(clause[0])
            self.watches[literal] = kept
        return True

    def moves(self, clause, literal):
        """Whether the clause is watched elsewhere now; else its first literal alone may still be true."""
        if clause[0] == -literal:
            clause[0], clause[1] = clause[1], clause[0]
        if self.value(clause[0]) > 0:
            return False
        for i in range(2, len(clause)):
            if self.value(clause[i]) >= 0:
                clause[1], clause[i] = clause[i], clause[1]
                self.watches.setdefault(-clause[1], []).append(clause)
                return True
        return False

    def admits(self, clause):
        if self.broken:
            return True
        before, found = len(self.trail), False
        for literal in clause:
            if self.value(literal) > 0:
                found = True
                break
            if self.value(literal) == 0:
                self.put(-literal)
        found = found or not self.propagates()
        for literal in self.trail[before:]:
            self.values[abs(literal)] = 0
        del self.trail[before:]
        self.done = before
        return found


class Circuit:
    """And-gates over inputs and latches, in the literals of AIGER."""

    def __init__(self, first):
        self.count, self.ands, self.seen = first, [], {}

    def both(self, a, b):
        a, b = min(a, b), max(a, b)
        if a == 0 or a == b ^ 1:
            return 0
        if a == 1 or a == b:
            return b
        if (a, b) not in self.seen:
            self.count += 1
            self.seen[a, b] = 2 * self.count
            self.ands.append((2 * self.count, b, a))
        return self.seen[a, b]

    def either(self, a, b):
        return self.both(a ^ 1, b ^ 1) ^ 1


def terms_of(pair):
    """The gates: each is true where one of its terms has all its literals true. A gate is the greatest of its clauses."""
    terms = {}
    for clause in pair.clauses[:-1]:
        gate = max(abs(it) for it in clause)
        terms.setdefault(gate, [])
        if gate in clause:
            terms[gate].append([-it for it in clause if it != gate])
    return terms


class Search:
    """The states from one cycle to the next, as a circuit whose latches begin at 0, for what `bad` and the assumptions rest
    on: ABC drops all other latches."""

    def __init__(self, pair):
        self.pair, self.terms = pair, terms_of(pair)
        self.owners = {abs(first): number for number, (first, _) in pair.bits.items()}
        self.variables = self.rested_on()
        self.numbers = sorted(self.owners[it] for it in self.variables if it in self.owners)
        digits = Checker(pair.variables, pair.clauses[:-1] + [[pair.named["start"]]])
        self.digits = {number: digits.value(pair.bits[number][0]) for number in self.numbers}
        self.free = [number for number in self.numbers if self.digits[number] == 0]
        self.inputs = [it for it in sorted(self.variables) if it > 1 and it not in self.terms and it not in self.owners]
        self.build()

    def rested_on(self):
        todo, seen = [abs(self.pair.named["bad"]), abs(self.pair.assumed)], {1}
        while todo:
            variable = todo.pop()
            if variable in seen:
                continue
            seen.add(variable)
            if variable in self.owners:
                todo.append(abs(self.pair.bits[self.owners[variable]][1]))
            todo += [abs(it) for term in self.terms.get(variable, []) for it in term]
        return seen

    def build(self):
        """A bit without a start digit is an input in the first cycle, which the last latch tells from later ones."""
        ins, latches = len(self.inputs) + len(self.free), len(self.numbers)
        self.ins, self.circuit = ins, Circuit(ins + latches + (1 if self.free else 0))
        literals = {1: 1, **{it: 2 * (i + 1) for i, it in enumerate(self.inputs)}}
        fresh = {number: 2 * (len(self.inputs) + i + 1) for i, number in enumerate(self.free)}
        later, turned = 2 * (ins + latches + 1), [self.digits[number] > 0 for number in self.numbers]
        for i, number in enumerate(self.numbers):
            value, first = 2 * (ins + i + 1) ^ turned[i], self.pair.bits[number][0]
            if number in fresh:
                value = self.circuit.either(self.circuit.both(later, value), self.circuit.both(later ^ 1, fresh[number]))
            literals[abs(first)] = value ^ (first < 0)
        for gate in sorted(it for it in self.terms if it in self.variables and it != 1):
            literals[gate] = self.gate(literals, self.terms[gate])
        read = lambda literal: literals[abs(literal)] ^ (literal < 0)
        self.nexts = [read(self.pair.bits[number][1]) ^ turned[i] for i, number in enumerate(self.numbers)]
        self.nexts += [1] if self.free else []
        self.bad, self.assumed = read(self.pair.named["bad"]), read(self.pair.assumed)

    def gate(self, literals, terms):
        value = 0
        for term in terms:
            product = 1
            for literal in term:
                product = self.circuit.both(product, literals[abs(literal)] ^ (literal < 0))
            value = self.circuit.either(value, product)
        return value

    def aiger(self):
        """The circuit in the binary form of AIGER 1.9."""
        ands = self.circuit.ands
        lines = [f"aig {self.circuit.count} {self.ins} {len(self.nexts)} 0 {len(ands)} 1 1"]
        lines += [str(it) for it in self.nexts + [self.bad, self.assumed]]
        data = bytearray("\n".join(lines + [""]).encode())
        for gate, high, low in ands:
            for delta in (gate - high, high - low):
                while delta > 127:
                    data.append(delta & 127 | 128)
                    delta >>= 7
                data.append(delta)
        data += "".join(f"i{i} x{i}\n" for i in range(self.ins)).encode()
        return bytes(data + "".join(f"l{i} b{i}\n" for i in range(len(self.nexts))).encode())

    def clauses(self, text):
        """The clauses over state bits of ABC's cubes, which hold of no state that a run comes to after its start."""
        found, places = [], []
        for line in text.split("\n"):
            words = line.split()
            if words[:1] == [".ilb"]:
                places = [int(it) if it.isdigit() else len(self.nexts) for it in (name.lstrip("lob") for name in words[1:])]
            elif words and re.fullmatch("[01-]+", words[0]) and len(words[0]) == len(places):
                clause = self.clause(zip(places, words[0]))
                if clause is not None:
                    found.append(clause)
        return found

    def clause(self, cube):
        clause = []
        for place, digit in cube:
            if digit == "-":
                continue
            if place < len(self.numbers):
                number = self.numbers[place]
                clause.append(-number if (digit == "1") != (self.digits[number] > 0) else number)
            elif (digit == "1") != (bool(self.free) and place == len(self.numbers)):
                return None  # a cube of the start alone, or of runs that have broken an assumption
        return clause

    def invariant(self, abc):
        """Clauses that hold at each start too, or none."""
        with tempfile.TemporaryDirectory() as folder:
            model, cubes = os.path.join(folder, "m.aig"), os.path.join(folder, "i.pla")
            with open(model, "wb") as file:
                file.write(self.aiger())
            out = output([abc, "-q", f"read_aiger {model}; fold; pdr -d -I {cubes}"])
            if "Property proved" not in out:
                return None
            if not os.path.exists(cubes):
                return []
            with open(cubes) as file:
                clauses = self.clauses(file.read())
        start = Checker(self.pair.variables, self.pair.clauses + [[self.pair.named["start"]]])
        told = [number * self.digits[number] for number in self.numbers if self.digits[number]]
        joined = []
        for clause in clauses:
            held = not self.free or start.admits(self.pair.over(clause, 0))
            joined += [clause] if held else [[*clause, it] for it in told if it not in clause and -it not in clause]
        return joined


def output(words):
    try:
        return subprocess.run(words, stdin=subprocess.DEVNULL, capture_output=True, text=True).stdout
    except OSError as fault:
        raise Fault(f"{words[0]}: {fault.strerror}") from None


def refutation(variables, clauses, solver):
    """The solver's learnt clauses, or None where it has no proof."""
    with tempfile.TemporaryDirectory() as folder:
        path = os.path.join(folder, "f.cnf")
        with open(path, "w") as file:
            file.write(f"p cnf {variables} {len(clauses)}\n")
            file.writelines(" ".join(map(str, clause)) + " 0\n" for clause in clauses)
        cadical = os.path.basename(solver) == "cadical"
        out = output([solver, "-q", "--no-binary", "--plain", path, "-"] if cadical else [solver, path])
    lines = out.split("\n")
    if "s UNSATISFIABLE" not in lines:
        return None
    return [[int(it) for it in line.split()[:-1]] for line in lines if line[:1] == "-" or line[:1].isdigit()]


def part(pair, clauses, owed, solver):
    """The proof of a part: what propagation doesn't admit follows from a solver's clauses, each with what is owed added."""
    checker, lines = Checker(pair.variables, clauses), []
    for clause in owed:
        if checker.admits(clause):
            continue
        learnt = refutation(pair.variables, clauses + lines + [[-it] for it in clause], solver)
        if learnt is None:
            return None
        for it in learnt:
            line = list(dict.fromkeys(it + clause))
            if not any(-literal in line for literal in line):
                lines.append(line)
                checker.keep(line)
    return lines


def stream_of(pair, invariant, solver):
    """The lines of the certificate, or None where these clauses are no invariant."""
    first, second = [[pair.over(it, frame) for it in invariant] for frame in (0, 1)]
    parts = [("start", pair.clauses, first), ("step", pair.clauses + first, second), ("safe", pair.clauses + first, [[]])]
    lines = ["inv"] + [" ".join(map(str, [*it, 0])) for it in invariant]
    for word, clauses, owed in parts:
        unit = pair.named[{"start": "start", "step": "next", "safe": "bad"}[word]]
        proof = part(pair, clauses + [[unit]], owed, solver)
        if proof is None:
            return None
        lines += [word] + [" ".join(map(str, [*it, 0])) for it in proof]
    return lines if lines[-1] == "0" else lines + ["0"]


def answer_of(text, abc, solver):
    """The lines for a file's text. What breaks in no cycle, whatever the state, needs no clauses."""
    pair = Pair(text)
    lines = stream_of(pair, [], solver)
    if lines is None:
        invariant = Search(pair).invariant(abc)
        lines = stream_of(pair, invariant, solver) if invariant is not None else None
    return lines or ["s UNKNOWN"]


def first_there(programs):
    return next((it for it in programs if shutil.which(it)), programs[0])


def main():
    words = argparse.ArgumentParser(description=__doc__, formatter_class=argparse.RawDescriptionHelpFormatter)
    words.add_argument("--abc", default=first_there(ABC), help="the ABC that is asked (%(default)s)")
    words.add_argument("--solver", default=first_there(SOLVERS), help="cadical or cdcl_program (%(default)s)")
    words.add_argument("file", metavar="FILE")
    words = words.parse_args()
    try:
        with open(words.file, encoding="latin-1", newline="\n") as file:
            lines = answer_of(file.read(), words.abc, words.solver)
    except (Fault, OSError) as fault:
        sys.exit(f"inv_abc.py: {fault}")
    print("\n".join(lines))


if __name__ == "__main__":
    main()
