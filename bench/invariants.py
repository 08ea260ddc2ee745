"""Seconds and memory of judging an invariant: sby --judge with a stored stream beside rup on the three proofs."""
import argparse
import os
import sys
import tempfile

from emission import turns
from measure import compile_checker, last_line, program, ratio, run
from rtlil import Module

# bits of the ring, and clauses of the invariant for each of them
RINGS = {"250": (250, 5), "500": (500, 5), "1000": (1000, 5), "2000": (2000, 5), "2000_wide": (2000, 10)}


def ring(size):
    """A single token that goes round when it is let to, and is never in two neighbouring places."""
    m = Module()
    q, go = m.wire(size, "token", init=1), m.wire(1, "go", 2)
    m.dff(m.mux(go, q, f"{{ {q} [{size - 2}:0] {q} [{size - 1}] }}", size), q, size)
    m.claim("assert", m.op("not", m.op("and", f"{q} [0]", f"{q} [1]")))
    return m


class Job:
    """The literals of inv.cnf, its formula, and an invariant of the ring: no two tokens at most some places apart."""

    def __init__(self, path, size, apart):
        self.bits, self.named, self.clauses = {}, {}, []
        with open(path) as file:
            for words in map(str.split, file):
                if words[:2] == ["c", "bit"]:
                    self.bits[int(words[2])] = int(words[3]), int(words[4])
                elif words[:1] == ["c"]:
                    self.named[words[1]] = int(words[2])
                elif words[0] == "p":
                    self.variables = int(words[2])
                else:
                    self.clauses.append(tuple(map(int, words[:-1])))
        self.invariant = [(-(i + 1), -((i + far) % size + 1)) for far in range(1, apart + 1) for i in range(size)]

    def over(self, frame):
        return [tuple(self.bits[-it][frame] * -1 for it in clause) for clause in self.invariant]

    def turn(self):
        """The input that lets the token go: what the first bit of the second cycle rests on, and is no state."""
        gate = abs(self.bits[1][1])
        states = {abs(first) for first, _ in self.bits.values()}
        near = {abs(it) for clause in self.clauses if gate == max(map(abs, clause)) for it in clause}
        return min(near - states - {gate})

    def parts(self):
        """The parts' words, the clauses that each begins with, and its proof."""
        first, second, go = self.over(0), self.over(1), self.turn()
        return [
            ("start", [(self.named["start"],)], [], first),
            ("step", [*first, (self.named["next"],)], [(go, *clause) for clause in second], second),
            ("safe", [*first, (self.named["bad"],)], [()], []),
        ]


def write(path, clauses, head=""):
    with open(path, "w") as file:
        file.write(head)
        file.writelines(" ".join(map(str, (*clause, 0))) + "\n" for clause in clauses)


def write_stream(path, job):
    with open(path, "w") as file:
        for word, clauses in [("inv", job.invariant), *((word, proof) for word, _, proof, _ in job.parts())]:
            file.write(f"{word}\n")
            file.writelines(" ".join(map(str, (*clause, 0))) + "\n" for clause in clauses)


def checked(job, rup, seconds, folder):
    """Seconds and memory of the plain checker, which is asked for what a part owes as for lines of its proof."""
    formula, proof = os.path.join(folder, "part.cnf"), os.path.join(folder, "part.drup")
    user = mb = 0
    for word, more, lines, owed in job.parts():
        clauses = job.clauses + more
        write(formula, clauses, f"p cnf {job.variables} {len(clauses)}\n")
        write(proof, lines + owed)
        with open(proof, "a") as file:
            file.write("s UNKNOWN\n")
        part = run([rup, formula, proof], seconds)
        if part.code != (20 if word == "safe" else 0):
            raise SystemExit(f"rup on {word}: {part}")
        user, mb = user + part.user, max(mb, part.mb)
    return user, mb


def main():
    words = argparse.ArgumentParser(description=__doc__)
    words.add_argument("--sby", required=True, help="path of the program sby")
    words.add_argument("--only", default="", help="rings whose name has this in it")
    words.add_argument("--seconds", type=int, default=120, help="limit of CPU seconds of each run")
    words.add_argument("--tries", type=int, default=3, help="runs of each kind, of which the median counts (3)")
    words = words.parse_args()
    sby, wrong = program(words.sby), []
    print(f"{'ring':12}{'bits':>6}{'clauses':>9}{'lines':>8}{'sby s':>8}{'judging s':>11}{'MB':>6}{'rup s':>8}{'MB':>6}{'ratio':>7}")
    for name, (size, apart) in RINGS.items():
        if words.only not in name:
            continue
        with tempfile.TemporaryDirectory() as folder:
            rup, said = compile_checker(folder), os.path.join(folder, "said")
            ring(size).write(os.path.join(folder, "x.il"))
            write(os.path.join(folder, "base.drup"), [()])
            judge = [sby, "--judge", "x.il", "prove-inv", "1"]
            run(judge, words.seconds, said, folder)
            job = Job(os.path.join(folder, "x/model/inv.cnf"), size, apart)
            write_stream(os.path.join(folder, "x.inv"), job)
            last, _, whole, more, _, high = turns(judge, ["base.drup", "x.inv"], words.seconds, said, folder, words.tries)
            if last.over or "DONE (PASS" not in last_line(said):
                wrong.append(name)
            user, mb = checked(job, rup, words.seconds, folder)
            lines = sum(len(proof) for _, _, proof, _ in job.parts())
            print(f"{name:12}{size:6}{len(job.invariant):9}{lines:8}{whole:8.2f}{more:11.2f}{high:6.0f}{user:8.2f}{mb:6.0f}{ratio(more, user):7.2f}"
                  f"{'  ' + last_line(said) if name in wrong else ''}", flush=True)
    print(f"{len(wrong)} rings without PASS", *wrong)
    sys.exit(1 if wrong else 0)


if __name__ == "__main__":
    main()
