"""Seconds and memory of making and writing all jobs of large tasks, whose one engine line serves none of them."""
import argparse
import os
import subprocess
import sys
import tempfile

from measure import last_line, program, run
from rtlil import Module

HERE = os.path.dirname(os.path.abspath(__file__))


def ring(size):
    """One-bit registers with any start, each the xor of its neighbours, all asserted."""
    m = Module()
    states = [m.wire() for i in range(size)]
    for i, q in enumerate(states):
        m.dff(m.op("xor", states[i - 1], states[(i + 1) % size]), q)
        m.claim("assert", q)
    return m


def bank(size, width, kind, count):
    """Registers with any start and four gates a bit, of which some have a bit claimed."""
    m = Module()
    enable = m.wire(1, "enable", 2)
    states = [m.wire(width) for i in range(size)]
    for i, q in enumerate(states):
        left, right, far = states[i - 1], states[(i + 1) % size], states[(i + 2) % size]
        turned = f"{{ {left} [0] {left} [{width - 1}:1] }}"
        m.dff(m.mux(enable, q, m.op("and", m.op("xor", turned, right, width), far, width), width), q, width)
    for i in range(count):
        m.claim(kind, f"{states[i * size // count]} [0]")
    return m


# the design, and the options of its task
TASKS = {
    "ring_stride": ((ring, 10_000), "mode bmc\ndepth 200\nstride 10\n"),
    "covers_200": ((bank, 2_000, 50, "cover", 200), "mode cover\ndepth 50\n"),
    "bmc_1000": ((bank, 400, 50, "assert", 1), "mode bmc\ndepth 1000\n"),
}


def files_in(folder):
    """How many job files there are, their megabytes, and of all of them the millions of variables and of clauses."""
    paths = [os.path.join(at, name) for at, _, names in os.walk(folder) for name in names if name.endswith(".cnf")]
    counts = []
    for path in paths:
        with open(path, encoding="ascii") as file:
            counts.append([int(word) for word in file.readline().split()[2:]])
    return len(paths), sum(map(os.path.getsize, paths)) / 1e6, *(sum(column) / 1e6 for column in zip(*counts))


def main():
    words = argparse.ArgumentParser(description=__doc__)
    words.add_argument("--sby", help="path of the program sby")
    words.add_argument("--only", default="", help="tasks whose name has this in it")
    words.add_argument("--seconds", type=int, default=600, help="limit of CPU seconds of each run")
    words.add_argument("--make", nargs=2, metavar=("NAME", "FILE"), help="write one task's design and end")
    words = words.parse_args()
    if words.make:
        (make, *sizes), _ = TASKS[words.make[0]]
        make(*sizes).write(words.make[1])
        return
    if not words.sby:
        raise SystemExit("--sby PATH is missing")
    sby, wrong = program(words.sby), []
    print(f"{'task':13}{'design MB':>10}{'model s':>9}{'MB':>7}{'jobs s':>8}{'MB':>7}{'wall s':>8}{'files':>7}{'MB':>8}{'M vars':>8}{'M clauses':>11}  status line")
    for name, (_, options) in TASKS.items():
        if words.only not in name:
            continue
        with tempfile.TemporaryDirectory() as folder:
            text, said = (os.path.join(folder, x) for x in ("x.il", "said"))
            # another process makes the text: a child's peak memory is at least that of the process that starts it
            subprocess.run([sys.executable, "-B", os.path.join(HERE, "jobs.py"), "--make", name, text], check=True)
            with open(os.path.join(folder, "t.sby"), "w") as file:
                file.write(f"[options]\n{options}[engines]\ninv true\n[script]\nread_rtlil x.il\n[files]\nx.il\n")
            alone = run([sby, "--judge", "x.il", "bmc", "1"], words.seconds, said, folder)
            whole = run([sby, "t.sby"], words.seconds, said, folder, file_limit=32 << 30)
            count, put, variables, clauses = files_in(os.path.join(folder, "t"))
            print(f"{name:13}{os.path.getsize(text) / 1e6:10.1f}{alone.user:9.2f}{alone.mb:7.0f}{whole.user:8.2f}{whole.mb:7.0f}{whole.wall:8.1f}{count:7}{put:8.0f}{variables:8.1f}{clauses:11.1f}  {last_line(said)}", flush=True)
            if whole.over or "UNKNOWN" not in last_line(said):
                wrong.append(name)
    if wrong:
        raise SystemExit(f"not ended: {' '.join(wrong)}")


if __name__ == "__main__":
    main()
