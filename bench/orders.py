#!/usr/bin/env python3
"""Formulas with their clauses in other orders: how much the engine's time varies.

    python3 -B bench/orders.py [--orders 4] [--seconds 60] [--only NAME] ENGINE [ENGINE ..]

Each formula is tried as it is made (order 0) and with its clauses shuffled by the seeds 1, 2 and so on; the last clause,
which may be a clause of goals, stays last. For each engine it prints the user seconds of each order and their sum.
"""
import argparse
import os
import random
import subprocess
import sys
import tempfile

from measure import program, run, show

HERE = os.path.dirname(os.path.abspath(__file__))
NAMES = ["mixer_back", "timetable_12", "parity_secret_40", "queues_4", "counter_short", "relay_11"]


def shuffled(source, target, seed):
    with open(source, encoding="ascii") as file:
        lines = [line for line in file if not line.startswith("c")]
    head, clauses = lines[0], lines[1:]
    body = clauses[:-1]
    if seed:
        random.Random(seed).shuffle(body)
    with open(target, "w", encoding="ascii") as file:
        file.writelines([head, *body, clauses[-1]])


def main():
    words = argparse.ArgumentParser(description=__doc__.splitlines()[0])
    words.add_argument("engines", nargs="+", metavar="ENGINE")
    words.add_argument("--orders", type=int, default=4)
    words.add_argument("--seconds", type=int, default=60)
    words.add_argument("--only", default="")
    asked = words.parse_args()
    engines = [program(engine) for engine in asked.engines]
    with tempfile.TemporaryDirectory() as folder:
        for name in [name for name in NAMES if asked.only in name]:
            source = os.path.join(folder, "made.cnf")
            subprocess.run([sys.executable, "-B", os.path.join(HERE, "formulas.py"), name, source], check=True)
            rows = [[] for _ in engines]
            for seed in range(asked.orders):
                target = os.path.join(folder, "order.cnf")
                shuffled(source, target, seed)
                for row, engine in zip(rows, engines):
                    row.append(run([engine, target], asked.seconds))
            for number, row in enumerate(rows):
                codes = sorted({result.code for result in row if not result.over})
                print(f"{name:18} engine {number} exit {codes}", *map(show, row),
                      f"sum {sum(result.user for result in row):.2f}", flush=True)


if __name__ == "__main__":
    main()
