"""Seconds and memory of a job's BTOR2 text: sby --judge with a stored witness, which puts base.btor, beside a run without a stream."""
import argparse
import os
import statistics
import subprocess
import sys
import tempfile

from design import DESIGNS
from jobs import bank
from measure import last_line, program, run
from rtlil import Module

HERE = os.path.dirname(os.path.abspath(__file__))
LINES, BYTES = 1e6, 200  # the goals: lines a second, and bytes of memory a line
LEAST = 100_000  # of fewer lines what they take is lost among all else


def datapath(size, width):
    """A word through arithmetic, logic, comparisons and selects, each with a free word."""
    m = Module()
    word = q = m.wire(width, init=1)
    free = [m.wire(width) for _ in range(50)]
    for i in range(size):
        other = free[i % 50]
        mixed = m.op(("add", "xor", "and", "or", "sub")[i % 5], word, other, width)
        word = m.mux(m.op("eq", mixed, other, width), mixed, f"{{ {mixed} [0] {mixed} [{width - 1}:1] }}", width)
    m.dff(word, q, width)
    m.claim("assert", f"{q} [0]")
    return m


ALL = {
    "ring_50k": DESIGNS["ring_50k"], "ring_150k": DESIGNS["ring_150k"], "chain_200k": DESIGNS["chain_200k"],
    "equals_20k": DESIGNS["equals_20k"], "bank_20k": (bank, 20_000, 8, "assert", 1000), "datapath_8k": (datapath, 8_000, 32),
    "datapath_wide": (datapath, 2_000, 128),
}


def count_lines(path):
    with open(path, "rb") as file:
        return sum(chunk.count(b"\n") for chunk in iter(lambda: file.read(1 << 20), b""))


def turns(judge, streams, seconds, said, folder, tries):
    """Runs without and with the streams by turns, since a processor's speed changes: the last, and medians of seconds, of what is more and of memory."""
    without, whole = [], []
    for _ in range(tries):
        without.append(run(judge, seconds, said, folder))
        whole.append(run([*judge, *streams], seconds, said, folder))
    more = statistics.median(b.user - a.user for a, b in zip(without, whole))
    user = (statistics.median(it.user for it in runs) for runs in (without, whole))
    return whole[-1], *user, more, *(min(it.mb for it in runs) for runs in (without, whole))


def main():
    words = argparse.ArgumentParser(description=__doc__)
    words.add_argument("--sby", help="path of the program sby")
    words.add_argument("--only", default="", help="designs whose name has this in it")
    words.add_argument("--seconds", type=int, default=120, help="limit of CPU seconds of each run")
    words.add_argument("--tries", type=int, default=3, help="runs of each kind, of which the median counts (3)")
    words.add_argument("--make", nargs=2, metavar=("NAME", "FILE"), help="write one design's text and end")
    words = words.parse_args()
    if words.make:
        make, *sizes = ALL[words.make[0]]
        make(*sizes).write(words.make[1])
        return
    if not words.sby:
        raise SystemExit("--sby PATH is missing")
    sby, wrong = program(words.sby), []
    print(f"{'design':15}{'text MB':>8}{'without s':>10}{'MB':>7}{'with s':>8}{'MB':>7}{'lines':>10}{'btor MB':>8}{'M lines/s':>10}{'bytes/line':>11}")
    for name in ALL:
        if words.only not in name:
            continue
        with tempfile.TemporaryDirectory() as folder:
            text, said, job = (os.path.join(folder, it) for it in ("x.il", "said", "x/model/base.btor"))
            # another process makes the text: a child's peak memory is at least that of the process that starts it
            subprocess.run([sys.executable, "-B", os.path.join(HERE, "emission.py"), "--make", name, text], check=True)
            with open(os.path.join(folder, "none.wit"), "w") as file:
                file.write("unknown\n")
            judge = [sby, "--judge", "x.il", "bmc", "1"]
            last, without, whole, more, low, high = turns(judge, ["none.wit"], words.seconds, said, folder, words.tries)
            if last.over or "DONE (UNKNOWN" not in last_line(said) or not os.path.exists(job):
                wrong.append(name)
                print(f"{name:15}  {last_line(said)}", flush=True)
                continue
            lines, took = count_lines(job), max(more, 0.01)
            each = max(high - low, 0) * 1048576 / lines
            figures = f"{lines / took / 1e6:10.2f}{each:11.0f}{'' if lines / took >= LINES else '  slow'}{'' if each <= BYTES else '  large'}"
            print(f"{name:15}{os.path.getsize(text) / 1e6:8.2f}{without:10.2f}{low:7.0f}{whole:8.2f}{high:7.0f}{lines:10}"
                  f"{os.path.getsize(job) / 1e6:8.2f}{figures if lines >= LEAST else ''}", flush=True)
    print(f"{len(wrong)} designs that don't end UNKNOWN with their lines", *wrong)
    sys.exit(1 if wrong else 0)


if __name__ == "__main__":
    main()
