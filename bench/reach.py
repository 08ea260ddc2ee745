"""Invariants found: pdr_program and sby --judge on what it writes, beside ABC's pdr, on designs that are safe. See reach/."""
import argparse
import os
import re
import statistics
import sys
import tempfile

from emission import turns
from measure import SMALL, last_line, mean, program, ratio, run, show

# A design's file in reach/, and what is defined for it.
DESIGNS = {
    "fifo_4": ("fifo", {"A": 2, "W": 4, "GUARD": 0}),
    "fifo_8": ("fifo", {"A": 3, "W": 8, "GUARD": 1}),
    "slots_8": ("slots", {"N": 8, "W": 4}),
    "slots_30": ("slots", {"N": 30, "W": 14}),
    "slots_60": ("slots", {"N": 60, "W": 30}),
    "waiting_4": ("waiting", {"N": 4, "B": 3}),
    "matrix_6": ("matrix", {"N": 6}),
    "matrix_10": ("matrix", {"N": 10}),
    "phases_60": ("phases", {"N": 60, "B": 6}),
    "gray_5": ("gray", {"N": 5}),
    "mirror_60": ("mirror", {"N": 60, "W": 1}),
    "mirror_400": ("mirror", {"N": 200, "W": 2}),
    "mirror_1000": ("mirror", {"N": 50, "W": 20}),
    "delay_4": ("delay", {"N": 4, "W": 4, "B": 2}),
    "delay_7": ("delay", {"N": 7, "W": 6, "B": 3}),
    "credits_4": ("credits", {"M": 4, "B": 3, "L": 2}),
    "skid_6": ("skid", {"N": 6, "W": 3}),
    "skid_30": ("skid", {"N": 30, "W": 4}),
    "lfsr_30": ("lfsr", {"N": 30}),
    "lfsr_100": ("lfsr", {"N": 100}),
    "lights_20": ("lights", {"N": 20, "T": 4}),
    "serial_5": ("serial", {"D": 5, "P": 2, "PB": 1, "B": 3}),
    "serial_8": ("serial", {"D": 8, "P": 2, "PB": 1, "B": 4}),
    "cache_12": ("cache", {"N": 12, "B": 4, "W": 8}),
    "scores_4": ("scores", {"D": 4, "B": 2}),
    "scores_8": ("scores", {"D": 8, "B": 4}),
    "timer_30": ("timer", {"N": 30}),
    "dram_4": ("dram", {"B": 2, "R": 4}),
    "dram_16": ("dram", {"B": 4, "R": 12}),
    "pingpong_4": ("pingpong", {"A": 2, "W": 6}),
    "packet_20": ("packet", {"N": 20, "L": 3}),
    "skips_10": ("skips", {"N": 10, "STEP": 6, "LAST": 996, "ODD": 500}),
    "tokens_30": ("tokens", {"N": 30}),
    "lock_20": ("lock", {"N": 20}),
    "cross_8": ("cross", {"W": 8}),
    "cross_200": ("cross", {"W": 200}),
    "stack_8": ("stack", {"A": 3, "W": 8}),
    "pool_8": ("pool", {"N": 8, "M": 3, "B": 3}),
    "lift_24": ("lift", {"N": 24}),
    "chain_40": ("chain", {"N": 40}),
}


def source(name):
    file, defines = DESIGNS[name]
    with open(os.path.join(os.path.dirname(os.path.abspath(__file__)), "reach", file + ".v")) as text:
        return "".join(f"`define {key} {value}\n" for key, value in defines.items()) + text.read()


FLOW = """read_verilog -formal -sv x.v; prep -flatten -top top; async2sync; memory_map; chformal -early; opt_clean; write_rtlil x.il;
setundef -undriven -anyseq; setattr -unset keep; delete -output; opt -full; techmap; opt -fast; dffunmap; abc -g AND -fast; opt_clean;
write_aiger -zinit -no-startoffset x.aig"""
TASK = "[options]\nmode prove\nby invariant\ndepth 1\n[engines]\ninv {}\n[script]\nread_rtlil x.il\n[files]\nx.il\n"


def read(path):
    with open(path, encoding="utf-8", errors="replace") as file:
        return file.read()


def write(path, text):
    with open(path, "w", encoding="utf-8") as file:
        file.write(text)


class Programs:
    """What is compared, and the limit of each in seconds."""

    def __init__(self, words):
        self.sby, self.pdr, self.abc, self.yosys = program(words.sby), program(words.pdr), program(words.abc), program("yosys")
        self.seconds, self.tries = words.seconds, words.tries
        self.judge = [self.sby, "--judge", "x.il", "prove-inv", "1"]

    def times(self, words, out, folder):
        """A program's last run, and the median of its seconds."""
        runs = [run(words, self.seconds, out, folder) for _ in range(self.tries)]
        return runs[-1], statistics.median(it.user for it in runs)


class Row:
    """A design: what each program does on it."""

    def __init__(self, name, programs, folder):
        self.name, self.programs, self.folder = name, programs, folder
        self.said = os.path.join(folder, "said")
        self.clauses, self.judging, self.whole, self.mb, self.fault = None, 0, None, 0, None

    def path(self, name):
        return os.path.join(self.folder, name)

    def make(self):
        """Leaves the design as RTLIL and AIGER, and its jobs."""
        write(self.path("x.v"), source(self.name))
        done = run([self.programs.yosys, "-q", "-p", FLOW.replace("\n", " ")], 10 * self.programs.seconds, self.said, self.folder)
        if done.code != 0:
            raise SystemExit(f"{self.name}: yosys ends with {done.code}: {read(self.said)}")
        run(self.programs.judge, self.programs.seconds, self.said, self.folder)
        self.bits = int(re.search(r"(\d+) register bits", read(self.said))[1])

    def ask_abc(self):
        _, self.theirs = self.programs.times([self.programs.abc, "-c", "read_aiger x.aig; fold; strash; pdr"], self.said, self.folder)
        said = read(self.said)
        if "was asserted" in said:
            raise SystemExit(f"{self.name} isn't safe: {said}")
        self.has_theirs = "Property proved" in said

    def ask_pdr(self):
        done, self.search = self.programs.times([self.programs.pdr, "x/model/inv.cnf"], self.path("x.inv"), self.folder)
        if done.code == 20:
            self.clauses = read(self.path("x.inv")).split("start\n")[0].count("\n") - 1
            self.check()

    def check(self):
        """Judges the stream, and runs it all as a task."""
        limit = 10 * self.programs.seconds
        write(self.path("base.drup"), "s UNKNOWN\n")
        *_, more, _, self.mb = turns(self.programs.judge, ["base.drup", "x.inv"], limit, self.said, self.folder, self.programs.tries)
        self.judging, last = max(more, 0), last_line(self.said)
        write(self.path("x.sby"), TASK.format(self.programs.pdr))
        self.whole = run([self.programs.sby, "-d", "out", "x.sby"], limit, self.path("said_whole"), self.folder)
        self.fault = next((it for it in (last, last_line(self.path("said_whole"))) if "DONE (PASS" not in it), None)

    def has_ours(self):
        """Whether the invariant is found and accepted within the limit."""
        return self.clauses is not None and self.fault is None and self.search + self.judging <= self.programs.seconds

    def ratio(self):
        """Our seconds to ABC's; a run that proves nothing counts as its limit."""
        ours = self.search + self.judging if self.has_ours() else self.programs.seconds
        theirs = self.theirs if self.has_theirs else self.programs.seconds
        return ratio(ours, theirs) if max(ours, theirs) > SMALL else None

    def line(self):
        front = f"{self.name:14}{self.bits:6}{'-' if self.clauses is None else self.clauses:>9}{self.theirs:8.2f}{self.search:8.2f}"
        rest = f"{self.judging:9.2f}{ratio(self.search + self.judging, self.theirs):8.2f}{show(self.whole):>9}{self.mb:6.0f}" if self.whole else ""
        notes = ("" if self.has_ours() else "  not proved") + ("" if self.has_theirs else "  not proved by abc")
        return front + rest + notes + (f"  {self.fault}" if self.fault else "")


def compare(programs, only):
    """A line for each design, and all rows."""
    rows = []
    print(f"{'design':14}{'bits':>6}{'clauses':>9}{'abc s':>8}{'pdr s':>8}{'judge s':>9}{'ratio':>8}{'whole s':>9}{'MB':>6}")
    for name in (it for it in DESIGNS if only in it):
        with tempfile.TemporaryDirectory() as folder:
            row = Row(name, programs, folder)
            row.make()
            row.ask_abc()
            row.ask_pdr()
        print(row.line(), flush=True)
        rows.append(row)
    return rows


def main():
    words = argparse.ArgumentParser(description=__doc__)
    words.add_argument("--sby", help="path of the program sby")
    words.add_argument("--pdr", help="path of the program pdr_program")
    words.add_argument("--abc", default="yosys-abc", help="path of ABC (yosys-abc)")
    words.add_argument("--only", default="", help="designs whose name has this in it")
    words.add_argument("--seconds", type=int, default=60, help="limit of CPU seconds of each, judging included (60)")
    words.add_argument("--tries", type=int, default=1, help="runs of each kind, of which the median counts (1)")
    words.add_argument("--make", nargs=2, metavar=("NAME", "FILE"), help="write one design's Verilog and end")
    words = words.parse_args()
    if words.make:
        write(words.make[1], source(words.make[0]))
        return
    if not words.sby or not words.pdr:
        raise SystemExit("--sby PATH or --pdr PATH is missing")
    rows = compare(Programs(words), words.only)
    ours, theirs = [it for it in rows if it.has_ours()], [it for it in rows if it.has_theirs]
    refused = [it.name for it in rows if it.fault]
    print(f"of {len(rows)} designs pdr_program proves {len(ours)}, abc {len(theirs)}, both {sum(it.has_theirs for it in ours)}")
    mean("seconds, judging included, to abc's, of those that one of them proves",
         [(it.ratio(), it.name) for it in rows if (it.has_ours() or it.has_theirs) and it.ratio()])
    found = sum(it.clauses is not None for it in rows)
    print(f"{found - len(refused)} of {found} certificates accepted", *refused)
    sys.exit(1 if refused else 0)


if __name__ == "__main__":
    main()
