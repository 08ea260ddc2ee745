"""Tasks of a file at the same time: wall time of eight equal tasks without -j and with it, and memory of 200 tasks of one design.

    python3 -B bench/tasks.py --sby PATH [--line LINE] [--size 7]

Each of the eight tasks asks for the same bounded proof by one engine line, CaDiCaL with a proof file unless LINE is given: the file is
judged when its solver has ended, so that a task without `-j` keeps one processor busy at a time. Exit status 1 where the lines or the exit status under -j aren't those without it.
"""
import argparse
import os
import sys
import tempfile

from checker import product
from jobs import bank
from measure import program, run

EIGHT = [f"t{number}" for number in range(8)]
HUNDREDS = [f"t{number}" for number in range(200)]


def put(folder, module, tasks, options, engine):
    module.write(os.path.join(folder, "x.il"))
    names = "".join(f"{name}\n" for name in tasks)
    with open(os.path.join(folder, "x.sby"), "w") as file:
        file.write(f"[tasks]\n{names}[options]\n{options}[engines]\n{engine}\n[script]\nread_rtlil x.il\n[files]\nx.il\n")


def measured(sby, folder, words, seconds):
    out = os.path.join(folder, "out")
    result = run([sby, *words, "x.sby"], seconds, out=out, cwd=folder)
    with open(out, "rb") as file:
        return result, file.read()


def times(sby, line, size):
    print(f"{'eight tasks':14}{'wall s':>8}{'times faster':>14}")
    right = True
    with tempfile.TemporaryDirectory() as folder:
        put(folder, product(size)[0], EIGHT, "mode bmc\ndepth 1\n", line)
        alone, lines = measured(sby, folder, [], 3600)
        print(f"{'without -j':14}{alone.wall:8.1f}", flush=True)
        for places in (1, 2, 4):
            beside, others = measured(sby, folder, ["-j", str(places)], 3600)
            right = right and others == lines and beside.code == alone.code
            print(f"{f'-j {places}':14}{beside.wall:8.1f}{alone.wall / beside.wall:14.2f}", flush=True)
    return right


def memory(sby):
    """Memory of 200 tasks of one design under -j 4, and of one task alone."""
    for registers in (40, 400):
        made = []
        for tasks, words in ((HUNDREDS[:1], []), (HUNDREDS, ["-j", "4"])):
            with tempfile.TemporaryDirectory() as folder:
                put(folder, bank(registers, 50, "assert", 1), tasks, "mode bmc\ndepth 30\nexpect unknown\n", "inv true")
                made.append(measured(sby, folder, words, 3600)[0].mb)
        print(f"{registers * 50} bits of state: one task {made[0]:.0f} MB, 200 tasks under -j 4 {made[1]:.0f} MB")


def main():
    words = argparse.ArgumentParser(description=__doc__, formatter_class=argparse.RawDescriptionHelpFormatter)
    words.add_argument("--sby", help="path of the program sby")
    words.add_argument("--line", default="proof cadical -q --no-binary {cnf} {proof}", help="the engine line of the eight tasks")
    words.add_argument("--size", type=int, default=7, help="width of the product that each task is about")
    words = words.parse_args()
    if not words.sby:
        raise SystemExit("--sby PATH is missing")
    sby = program(words.sby)
    right = times(sby, words.line, words.size)
    memory(sby)
    sys.exit(0 if right else 1)


if __name__ == "__main__":
    main()
