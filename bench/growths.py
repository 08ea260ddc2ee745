"""Each allocation of the built sby refused in turn: no other verdict, and no process left.

    python3 -B bench/growths.py --sby PATH --engine PATH [--only NAME]

Prints a row for each run: how many of its allocations, refused, left everything as it was, and how the others ended.
Exit status 1 where one gave another verdict, didn't end within 4 seconds, or left a process.
"""
import argparse
import os
import re
import shutil
import subprocess
import sys
import tempfile

from children import DESIGN, Bench

SECONDS = 4
TASK = "[options]\nmode {}\ndepth {}\n{}[engines]\n{}\n[script]\nread_rtlil t.il\n[files]\nt.il\n"
# The job of one cycle of this design is refuted by propagation; that of two cycles has a solution.
FILES = {
    "t.il": DESIGN,
    "none.drup": "0\n",
    "values.drup": "v 1 0\n",
    "proof.sh": "echo c a comment\ncase $1 in *base*) echo 0;; *) echo s UNKNOWN;; esac\n",
    "none.sh": "echo s UNKNOWN\n",
    "two.sby": "[tasks]\na\nb\n" + TASK.format("bmc", 1, "", "sat").replace("depth 1\n", "a: depth 1\nb: depth 2\n"),
    "prove.sby": TASK.format("prove", 1, "", "drup sh none.sh\ndrup sh proof.sh"),
}
RUNS = {
    "`--judge`, depth 1, with its proof": ["--judge", "t.il", "bmc", "1", "none.drup"],
    "`--judge`, depth 2, FAIL with its trace": ["--judge", "t.il", "bmc", "2", "values.drup"],
    "prove, two lanes of shell scripts": ["prove.sby"],
    "two tasks with the shipped engine": ["two.sby"],
}
KINDS = ["as without", "a line MEMORY", "exit status 32 alone", "ERROR"]


def library(folder):
    """The library that refuses allocations, compiled from growths.c."""
    path = os.path.join(folder, "growths.so")
    source = os.path.join(os.path.dirname(os.path.abspath(__file__)), "growths.c")
    subprocess.run([os.environ.get("CC", "cc"), "-O2", "-shared", "-fPIC", "-o", path, source], check=True)
    return path


def verdicts(out):
    """Each task's status, by the lines DONE of an output."""
    return re.findall(r"\[(\S+)\] DONE \((\w+),", out)


def kind(first, now):
    """How a run ended, compared with the first one, in which nothing was refused; None where its output is wrong."""
    if now == first:
        return "as without"
    (out, status), known = now, dict(verdicts(first[0]))
    if any(it not in ("MEMORY", "ERROR") and it != known.get(task) for task, it in verdicts(out)):
        return None
    if status & 32:
        return "a line MEMORY" if "MEMORY" in out else "exit status 32 alone"
    return "ERROR" if status & 16 else None


class Growths(Bench):
    def __init__(self, options, folder, name):
        super().__init__(options.sby, options.engine, folder, name)
        for file, content in FILES.items():
            with open(os.path.join(folder, file), "w", encoding="utf-8") as it:
                it.write(content)
        self.mark = os.path.join(folder, "refused")
        self.library = library(folder)

    def run_with(self, words, number):
        """Output and exit status of a run whose allocation of this number is refused, and whether it came to that one."""
        if os.path.exists(self.mark):
            os.remove(self.mark)
        for it in ("two_a", "two_b", "prove", "t"):
            shutil.rmtree(os.path.join(self.folder, it), ignore_errors=True)
        more = {"LD_PRELOAD": self.library, "GROWTH_REFUSED": str(number), "GROWTH_FILE": self.mark}
        child = subprocess.Popen([self.sby, *words], cwd=self.folder, env={**self.environment, **more}, text=True,
                                 stdin=subprocess.DEVNULL, stdout=subprocess.PIPE, stderr=subprocess.DEVNULL,
                                 start_new_session=True)
        try:
            out, _ = child.communicate(timeout=SECONDS)
        except subprocess.TimeoutExpired:
            child.kill()
            return None, os.path.exists(self.mark)
        return (out, child.returncode), os.path.exists(self.mark)

    def row(self, name, words):
        """Prints a run's row, and returns how many refused allocations ended wrong."""
        first, _ = self.run_with(words, 0)
        counts, wrong, number = dict.fromkeys(KINDS, 0), 0, 1
        while True:
            now, is_refused = self.run_with(words, number)
            if not is_refused:
                break
            how = kind(first, now) if now else None
            left = self.left()
            if how is None or left:
                print(f"growth {number}: {now}, {left} processes left", flush=True)
                wrong += 1
            else:
                counts[how] += 1
            number += 1
        print(f"| {name} | {number - 1} | " + " | ".join(str(counts[it]) for it in KINDS) + f" | {wrong} |", flush=True)
        return wrong


def main():
    parser = argparse.ArgumentParser()
    parser.add_argument("--sby", required=True)
    parser.add_argument("--engine", required=True)
    parser.add_argument("--only")
    options = parser.parse_args()
    options.sby, options.engine = map(os.path.abspath, (options.sby, options.engine))
    print("| run | growths | " + " | ".join(KINDS) + " | wrong |\n|" + "---|" * (len(KINDS) + 3))
    wrong = 0
    for name, words in RUNS.items():
        if not options.only or options.only in name:
            with tempfile.TemporaryDirectory() as folder:
                wrong += Growths(options, folder, "growths").row(name, words)
    sys.exit(1 if wrong else 0)


if __name__ == "__main__":
    main()
