"""BTOR2 jobs and witnesses, checked from outside: on small designs the word-level job and the formula must have one answer.

    python3 -B bench/witnesses.py --sby PATH --engine PATH

For each design `sby --judge` puts base.btor (cover0.btor ..) beside base.cnf. z3 searches the first, cycle by cycle
(examples/engines/btor_smt.py), the engine the second. Both must find a run or none, sby must accept each witness, and refuse one of
several frames without its last, since its run is a shortest one. Designs: a cell of each type at random widths, several cells, examples/*.il,
and those of whole.py, made by Yosys, at random depths. Exit status 1 where one of these fails, or a design is refused.
"""
import argparse
import glob
import os
import random
import re
import shutil
import subprocess
import sys
import tempfile
from collections import Counter

from cells import KINDS, design
from measure import program
from sources import SOURCES

HERE = os.path.dirname(os.path.abspath(__file__))
sys.path.insert(0, os.path.join(HERE, "..", "examples", "engines"))
from btor_smt import Fault, answer_of

NONE = "unknown\n"  # a stream that claims nothing
FLOW = "read_verilog -formal -sv x.v; prep -flatten -top t; async2sync; memory_map; opt_clean; write_rtlil x.il"


class Wrong(Exception):
    pass


def judged(sby, folder, mode, depth, streams, seconds):
    """What sby prints of streams, one a job."""
    names = []
    for i, text in enumerate(streams):
        names.append(f"s{i}.wit")
        with open(os.path.join(folder, names[-1]), "w") as file:
            file.write(text)
    words = [sby, "--judge", "x.il", mode, str(depth), *names]
    out = subprocess.run(words, cwd=folder, stdin=subprocess.DEVNULL, capture_output=True, text=True, timeout=seconds).stdout
    if not re.search(r"DONE \(\w+, rc=\d+\)\s*$", out) or "] ERROR: " in out:
        raise Wrong(f"{' '.join(words[1:])}: {out.strip()[-300:]}")
    return out


def formula_answer(engine, path, seconds):
    code = subprocess.run([engine, path], stdin=subprocess.DEVNULL, stdout=subprocess.DEVNULL, stderr=subprocess.DEVNULL, timeout=seconds).returncode
    if code not in (10, 20):
        raise Wrong(f"the engine ends with {code}")
    return code == 10


def shortened(lines):
    """A witness without its last frame."""
    last = max(i for i, line in enumerate(lines) if line.startswith("#"))
    return lines[:last] + ["."]


def check(sby, engine, folder, mode, depth, goals, seconds, seen):
    """Counts what was seen of each job of x.il."""
    jobs = ["base"] if mode == "bmc" else [f"cover{i}" for i in range(goals)]
    out = judged(sby, folder, mode, depth, [NONE] * len(jobs), seconds)
    if "DONE (UNKNOWN" not in out:
        raise Wrong(f"without a witness: {out.splitlines()[-1]}")
    streams, cut = [NONE] * len(jobs), {}
    for i, job in enumerate(jobs):
        path = os.path.join(folder, "x", "model", job)
        with open(f"{path}.btor", encoding="ascii", newline="\n") as file:
            lines = answer_of(file.read(), depth, solver=f"z3 -in -t:{1000 * seconds}")
        if lines[0].startswith("unknown at"):
            raise subprocess.TimeoutExpired("z3", seconds)
        is_found = formula_answer(engine, f"{path}.cnf", seconds)
        if (lines[0] == "sat") != is_found:
            raise Wrong(f"{job}: the formula is {'SAT' if is_found else 'UNSAT'}, but of the lines the solver says {lines[0]}")
        seen["SAT" if is_found else "UNSAT"] += 1
        if is_found:
            streams[i] = "\n".join(lines) + "\n"
            if "#1" in lines:
                cut[i] = "\n".join(shortened(lines)) + "\n"
    found = [job for job, stream in zip(jobs, streams) if stream != NONE]
    if not found:
        return
    out = judged(sby, folder, mode, depth, streams, seconds)
    for job in found:
        if f"] {job}: SAT" not in out:
            raise Wrong(f"{job}: the witness isn't accepted: {out.strip()[-300:]}")
    if len(found) == len(jobs) and f"DONE ({'FAIL' if mode == 'bmc' else 'PASS'}" not in out:
        raise Wrong(f"with all witnesses: {out.splitlines()[-1]}")
    seen["accepted"] += len(found)
    if not cut:
        return
    out = judged(sby, folder, mode, depth, [cut.get(i, NONE) for i in range(len(jobs))], seconds)
    for i in cut:
        if f" {jobs[i]}: certificate NotPlaying frame" not in out:
            raise Wrong(f"{jobs[i]}: without the witness's last frame: {out.strip()[-300:]}")
    seen["refused"] += len(cut)


def random_designs(kinds, count, seed):
    """Of each kind: mode, depth, number of goals, and how the design is written."""
    for kind in kinds:
        for i in range(count):
            dice = random.Random(f"{seed} {kind} {i}")
            mode = dice.choice(["bmc", "cover"])
            if kind == "several":
                made = design(dice.choice(KINDS), dice, "assert" if mode == "bmc" else "cover", dice.randint(3, 9))
            else:
                made = design(kind, dice, "assert" if mode == "bmc" else "cover", dice.choice([0, 0, 1]))
            yield kind, f"{kind} {i}", mode, dice.randint(1, 5), 1, made.write


def examples():
    for path in sorted(glob.glob(os.path.join(HERE, "..", "examples", "*.il"))):
        with open(path, encoding="utf-8") as file:
            covers = len(re.findall(r"^\s*cell \$cover ", file.read(), re.M))
        copy = lambda to, path=path: shutil.copy(path, to)
        for mode, depth in (("bmc", 6), ("bmc", 7), ("cover", 6), ("cover", 7)):
            yield "examples", f"{os.path.basename(path)} {mode} {depth}", mode, depth, covers, copy


def benchmark(seed):
    for name, (verilog, tasks) in SOURCES.items():
        def write(to, verilog=verilog):
            with open(os.path.join(os.path.dirname(to), "x.v"), "w") as file:
                file.write(verilog)
            subprocess.run(["yosys", "-q", "-p", FLOW], cwd=os.path.dirname(to), check=True, stdin=subprocess.DEVNULL)

        dice = random.Random(f"{seed} {name}")
        for mode in sorted({mode for mode, _ in tasks} - {"prove"}):
            depth = dice.randint(1, 8)
            yield "benchmark", f"{name} {mode} {depth}", mode, depth, len(re.findall(r"\bcover *\(", verilog)), write


def main():
    words = argparse.ArgumentParser(description=__doc__, formatter_class=argparse.RawDescriptionHelpFormatter)
    words.add_argument("--sby", required=True, help="path of the program sby")
    words.add_argument("--engine", required=True, help="a SAT solver that ends with 10 or 20")
    words.add_argument("--count", type=int, default=20, help="designs of each kind (20)")
    words.add_argument("--seed", type=int, default=1, help="other designs (1)")
    words.add_argument("--seconds", type=int, default=60, help="limit of each run, by the clock (60)")
    words.add_argument("--only", default="", help="kinds whose name has this in it")
    words.add_argument("--keep", metavar="FOLDER", help="leave there the files of what fails")
    words = words.parse_args()
    sby, engine, table, wrong = program(words.sby), program(words.engine), {}, []
    kinds = [kind for kind in (*KINDS, "several") if words.only in kind]
    others = [*examples(), *benchmark(words.seed)]
    for kind, name, mode, depth, goals, write in [*random_designs(kinds, words.count, words.seed), *(it for it in others if words.only in it[0])]:
        seen = table.setdefault(kind, Counter())
        with tempfile.TemporaryDirectory() as folder:
            seen["designs"] += 1
            try:
                write(os.path.join(folder, "x.il"))
                check(sby, engine, folder, mode, depth, goals, words.seconds, seen)
            except subprocess.TimeoutExpired:
                seen["over"] += 1
            except (Wrong, Fault, OSError, subprocess.CalledProcessError) as fault:
                seen["WRONG"] += 1
                wrong.append(name)
                print(f"WRONG: {name}, {mode} {depth}: {fault}", flush=True)
                if words.keep:
                    shutil.copytree(folder, os.path.join(words.keep, name.replace(" ", "_")), dirs_exist_ok=True)
    columns = ("designs", "SAT", "UNSAT", "accepted", "refused", "over", "WRONG")
    print(f"{'kind':12}" + "".join(f"{it:>10}" for it in columns))
    for kind, seen in [*table.items(), ("all", sum(table.values(), Counter()))]:
        print(f"{kind:12}" + "".join(f"{seen[it]:>10}" for it in columns))
    print(f"{len(wrong)} wrong", *wrong)
    sys.exit(1 if wrong else 0)


if __name__ == "__main__":
    main()
