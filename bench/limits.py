"""Tasks of 200 jobs under an allocator that refuses more than their largest job needs.

    python3 -B bench/limits.py --sby PATH

Each task's one engine line serves none of its jobs: all are made and put, and it ends UNKNOWN. What its largest job needs is
measured by a task of that job alone; under a limit below that the task ends MEMORY, so the limit is one. Exit
status 1 where a task of all jobs doesn't end as it does with no limit.
"""
import argparse
import os
import subprocess
import sys
import tempfile

from growths import library
from jobs import bank, files_in, ring
from measure import program

# the design, the options of all jobs, and the design and options of the largest job alone
TASKS = {
    "slices": ((ring, 300), "mode bmc\ndepth 400\nstride 2\n", (ring, 300), "mode bmc\ndepth 400\nskip 398\nstride 2\n"),
    "covers": ((bank, 40, 50, "cover", 200), "mode cover\ndepth 30\n", (bank, 40, 50, "cover", 1), "mode cover\ndepth 30\n"),
}
SLACK = 384 << 10  # the names of 200 jobs, and in the model the statements of the others
UNLIMITED = 1 << 40


def put(folder, design, options):
    make, *sizes = design
    make(*sizes).write(os.path.join(folder, "x.il"))
    with open(os.path.join(folder, "t.sby"), "w") as file:
        file.write(f"[options]\n{options}[engines]\ninv true\n[script]\nread_rtlil x.il\n[files]\nx.il\n")


def ended(sby, shim, design, options, limit):
    """The last status line of a task, its files, and the most bytes in use."""
    with tempfile.TemporaryDirectory() as folder:
        put(folder, design, options)
        told = os.path.join(folder, "most")
        there = {**os.environ, "LD_PRELOAD": shim, "GROWTH_LIMIT": str(limit), "GROWTH_FILE": told}
        out = subprocess.run([sby, "t.sby"], cwd=folder, env=there, stdin=subprocess.DEVNULL, capture_output=True, text=True).stdout
        with open(told, "rb") as file:
            return out.splitlines()[-1], files_in(folder)[0], int.from_bytes(file.read(), sys.byteorder)


def main():
    words = argparse.ArgumentParser(description=__doc__, formatter_class=argparse.RawDescriptionHelpFormatter)
    words.add_argument("--sby", help="path of the program sby")
    words = words.parse_args()
    if not words.sby:
        raise SystemExit("--sby PATH is missing")
    sby, wrong = program(words.sby), []
    with tempfile.TemporaryDirectory() as made:
        shim = library(made)
        print(f"{'task':10}{'largest job MB':>16}{'all jobs MB':>13}{'files':>7}  with no limit, at the limit, below it")
        for name, (design, options, one, alone) in TASKS.items():
            _, _, need = ended(sby, shim, one, alone, UNLIMITED)
            free = ended(sby, shim, design, options, UNLIMITED)
            held = ended(sby, shim, design, options, need + SLACK)
            low = ended(sby, shim, design, options, need * 3 // 4)
            print(f"{name:10}{need / 1e6:16.2f}{held[2] / 1e6:13.2f}{held[1]:7}  {free[0]} | {held[0]} | {low[0]}", flush=True)
            if held[:2] != free[:2] or "UNKNOWN" not in free[0] or "MEMORY" not in low[0]:
                wrong.append(name)
    if wrong:
        sys.exit(f"not as with no limit: {' '.join(wrong)}")


main()
