"""Long unrollings of hardware: cadical, minisat, the engine and the whole run beside each other, one formula and one program at a time."""
import argparse
import contextlib
import fcntl
import math
import os
import re
import resource
import signal
import subprocess
import sys
import tempfile
import threading
import time

HERE = os.path.dirname(os.path.abspath(__file__))

from engine import ANSWERS, values_fault
from long_nets import NETS
from long_sources import DESIGNS, text
from measure import FILE_LIMIT, Run, compile_checker, last_line, program

FLOW = ("read_verilog -formal -sv x.v; prep -flatten -top top; async2sync; memory_map; chformal -early; opt_clean; "
        "rename -enumerate; write_rtlil x.il")
TASK = "[options]\nmode {mode}\ndepth {depth}\n[engines]\n{line}\n[script]\nread_rtlil x.il\n[files]\nx.il\n"
SHORT = 25  # seconds of cadical up to which a formula is of the short mode
TICK = os.sysconf("SC_CLK_TCK")


def read(path):
    with open(path, encoding="utf-8", errors="replace") as file:
        return file.read()


LOCK = None


def run(words, seconds, out=os.devnull, cwd=None, env=None, alone=False):
    """run_now, with the lock held: single programs of several calls may run at the same time, whole runs alone."""
    if LOCK is None:
        return run_now(words, seconds, out, cwd, env, alone)
    with open(LOCK, "a") as lock:
        fcntl.flock(lock, fcntl.LOCK_EX if alone else fcntl.LOCK_SH)
        return run_now(words, seconds, out, cwd, env, alone)


def run_now(words, seconds, out, cwd, env, several):
    """measure.run, but with twelve times the limit by the clock, for a loaded machine."""
    def limits():
        resource.setrlimit(resource.RLIMIT_CPU, (seconds, seconds + 2))
        resource.setrlimit(resource.RLIMIT_FSIZE, (FILE_LIMIT, FILE_LIMIT))

    def stop():
        with contextlib.suppress(ProcessLookupError):
            os.killpg(child.pid, signal.SIGKILL)

    start, waits = time.monotonic(), 12 * seconds + 60
    with open(out, "wb") as sink:
        child = subprocess.Popen(words, stdin=subprocess.DEVNULL, stdout=sink, stderr=subprocess.DEVNULL, cwd=cwd,
                                 env=env and {**os.environ, **env}, preexec_fn=limits, start_new_session=True)
    guard = threading.Timer(waits, stop)
    guard.daemon = True
    guard.start()
    try:
        _, status, usage = os.wait4(child.pid, 0)
        child.returncode = os.waitstatus_to_exitcode(status)
    finally:
        guard.cancel()
        stop()  # what it left running
    wall = time.monotonic() - start
    # the limit is each process's own, and a little early
    over = child.returncode in (-signal.SIGXCPU, -signal.SIGKILL) or wall >= waits
    over = over or (not several and usage.ru_utime + usage.ru_stime > seconds - 0.5)
    return Run(child.returncode, seconds if over else usage.ru_utime, wall, usage.ru_maxrss / 1024, over)


def stat(pid):
    """A process's state, parent and user seconds, or None."""
    try:
        words = read(f"/proc/{pid}/stat").rsplit(")", 1)[1].split()
    except (OSError, IndexError):
        return None
    return words[0], int(words[1]), int(words[11]) / TICK


class Watch(threading.Thread):
    """Looks ten times a second at the whole run: the user seconds of the engine and of the judge, and how often one of the two only waits
    for the other."""

    def __init__(self, engine):
        super().__init__(daemon=True)
        self.engine, self.user, self.judge_user, self.looks, self.waits, self.judge_waits = os.path.realpath(engine), None, 0.0, 0, 0, 0
        self.ended, self.ended_at, self.judge_end = False, None, 0.0
        self.mb = self.judge_mb = 0.0

    def peak(self, pid):
        try:
            return int(re.search(r"VmHWM:\s+(\d+)", read(f"/proc/{pid}/status"))[1]) / 1024
        except (OSError, TypeError):
            return 0.0

    def find(self):
        me = os.getpid()
        for name in os.listdir("/proc"):
            if name.isdigit():
                try:
                    if os.path.realpath(os.readlink(f"/proc/{name}/exe")) != self.engine:
                        continue
                except OSError:
                    continue
                state = above = stat(name)
                while above and above[1] not in (0, 1, me):
                    above = stat(above[1])
                if above and above[1] == me:
                    return int(name), state[1]
        return None

    def run(self):
        pair = None
        while not self.ended:
            pair = pair or self.find()
            if pair:
                engine, judge = stat(pair[0]), stat(pair[1])
                if engine and engine[0] not in "ZX":
                    self.user = engine[2]
                    self.looks += 1
                    # a thread of sby that reads the pipe may be asleep while another one judges
                    states = [t[0] for t in (stat(f"{pair[1]}/task/{x}") for x in self.tasks(pair[1])) if t]
                    self.waits += engine[0] == "S"
                    self.judge_waits += "R" not in states and "D" not in states
                    self.mb = max(self.mb, self.peak(pair[0]))
                    if judge:
                        self.judge_user = judge[2]
                elif self.ended_at is None:
                    self.ended_at = time.monotonic()
                if judge:
                    self.judge_end = judge[2]
                    self.judge_mb = max(self.judge_mb, self.peak(pair[1]))
            time.sleep(0.1)

    @staticmethod
    def tasks(pid):
        try:
            return os.listdir(f"/proc/{pid}/task")
        except OSError:
            return []


def make(name, sby, folder, seconds):
    """Writes f.cnf, and x.il where there is a design; its text's and its encoding's seconds, or a fault."""
    if name in NETS:
        # another process makes the file: a child's peak memory is at least that of the process that starts it
        subprocess.run([sys.executable, "-B", os.path.join(HERE, "long.py"), "--write", name, os.path.join(folder, "f.cnf")], check=True)
        return None
    _, _, _, _, mode, depth = DESIGNS[name]
    with open(os.path.join(folder, "x.v"), "w") as file:
        file.write(text(name))
    made = run([program("yosys"), "-q", "-p", FLOW], 600, os.path.join(folder, "said"), folder)
    if made.code != 0:
        raise SystemExit(f"{name}: yosys ends with {made.code}: {read(os.path.join(folder, 'said'))}")
    encode = run([sby, "--judge", "x.il", mode, str(depth)], seconds, os.path.join(folder, "said"), folder)
    if encode.over or encode.code != 4:
        raise SystemExit(f"{name}: no job: {'time-out' if encode.over else last_line(os.path.join(folder, 'said'))}")
    os.replace(os.path.join(folder, "x", "model", "step.cnf" if mode == "prove" else "base.cnf"), os.path.join(folder, "f.cnf"))
    return encode


def conflicts(path, tool):
    found = re.findall({"cadical": r"c conflicts:\s+(\d+)", "minisat": r"conflicts\s+:\s+(\d+)"}[tool], read(path))
    return int(found[-1]) if found else None


def shown(result, limit):
    return "-" if result is None else f">{limit}" if result.over else f"{result.user:.1f}"


def par2(result, limit):
    return 2.0 * limit if result.over else max(result.user, 0.01)


def middle(values):
    return math.exp(sum(map(math.log, values)) / len(values)) if values else float("nan")


def chosen(words):
    both = {**NETS, **DESIGNS}
    names = [n for n in both if words.only in n or any(w and w in n for w in words.only.split(","))]
    names = [n for n in names if n.startswith("probe_") == words.probes]
    return {n: both[n][:2] for n in names if not words.short or 0 < both[n][1] <= SHORT}


def main():
    words = argparse.ArgumentParser(description=__doc__)
    words.add_argument("--engine", help="path of the engine's program")
    words.add_argument("--sby", help="path of the program sby")
    words.add_argument("--short", action="store_true", help=f"formulas alone that take cadical some {SHORT} s at most")
    words.add_argument("--probes", action="store_true", help="the small ones in place of the long ones")
    words.add_argument("--seconds", type=int, default=300, help="limit of CPU seconds of each run")
    words.add_argument("--only", default="", help="formulas whose name has this in it, or one of some words with commas")
    words.add_argument("--skip", default="", help="programs left out: minisat, cadical, whole, rup (with commas)")
    words.add_argument("--hints", action="store_true", help="the engine writes hinted proofs: the engine line is `lrat cdcl_program --hints`")
    words.add_argument("--list", action="store_true", help="names, answers and sizes of the designs, and end")
    words.add_argument("--write", nargs=2, metavar=("NAME", "FILE"), help="write one formula, or one design's RTLIL, and end")
    words.add_argument("--lock", metavar="FILE", help="of several calls beside each other, whole runs go alone")
    words.add_argument("--keep", metavar="DIR", help="leave formulas there as NAME.cnf")
    words = words.parse_args()
    global LOCK
    LOCK = words.lock
    if words.write:
        name, path = words.write
        if name in NETS:
            _, _, build, sizes, more = NETS[name]
            build(*sizes, **more).write(path)
        else:
            with tempfile.TemporaryDirectory() as folder:
                with open(os.path.join(folder, "x.v"), "w") as file:
                    file.write(text(name))
                subprocess.run([program("yosys"), "-q", "-p", FLOW], cwd=folder, check=True)
                os.replace(os.path.join(folder, "x.il"), path) if os.stat(folder).st_dev == os.stat(os.path.dirname(os.path.abspath(path))).st_dev \
                    else subprocess.run(["cp", os.path.join(folder, "x.il"), path], check=True)
        return
    if words.list:
        for name, (answer, about) in chosen(words).items():
            print(f"{name:22}{ANSWERS[answer]:7}{f'over {-about}' if about < 0 else about:>8} s", "net" if name in NETS else " ".join(map(str, DESIGNS[name][2:])))
        return
    if not words.engine or not words.sby:
        raise SystemExit("--engine PATH and --sby PATH are missing")
    engine, sby, skip, limit = program(words.engine), program(words.sby), words.skip.split(","), words.seconds
    minisat, cadical = program("minisat"), program("cadical")
    env = {"SBY_ENGINE": engine}
    wrong, table = [], []
    print(f"{'':22}{'':6}{'':9}{'':10}|{'cadical':>31} |{'minisat':>23} |{'engine':>31} |{'whole run: user s':>30}"
          f"{'waits %':>10} | {'ratios':>26}")
    print(f"{'formula':22}{'':6}{'vars':>9}{'clauses':>10}|{'s':>8}{'MB':>6}{'proof':>7}{'rup s':>10} |{'s':>8}{'MB':>6}{'conf':>9} |"
          f"{'s':>8}{'MB':>6}{'proof':>7}{'check s':>10} |{'enc':>6}{'engine':>8}{'judge':>8}{'wall':>8}{'en':>5}{'ju':>5} |"
          f"{'en/ca':>7}{'en/mi':>7}{'wh/ca':>7}{'ju/ru':>7}  whole", flush=True)
    with tempfile.TemporaryDirectory() as folder:
        checkers = {"cadical": compile_checker(folder), "engine": compile_checker(folder, "lrat" if words.hints else "rup")}
        at = {x: os.path.join(folder, x) for x in ("f.cnf", "stream", "proof", "said", "ca", "mi", "r")}
        for name, (answer, _) in chosen(words).items():
            encode = make(name, sby, folder, limit)
            if words.keep:
                subprocess.run(["cp", at["f.cnf"], os.path.join(words.keep, name + ".cnf")], check=True)
            with open(at["f.cnf"]) as file:
                size = file.readline().split()[2:]
            print(f"{name:22}{ANSWERS[answer]:6}{size[0]:>9}{size[1]:>10}|", end="", flush=True)
            faults, runs, checks = [], {"cadical": None, "minisat": None, "engine": None}, {}

            def check(formula, proof, tool):
                if "rup" in skip or runs[tool] is None or runs[tool].code != 20 or runs[tool].over:
                    return
                checks[tool] = run([checkers[tool], formula, proof], limit, at["r"])
                if not checks[tool].over and checks[tool].code != 20:
                    faults.append(f"{tool}'s proof: {last_line(at['r'])}")

            extra = {}
            if "cadical" not in skip:
                open(at["proof"], "w").close()
                runs["cadical"] = run([cadical, "--no-binary", at["f.cnf"], at["proof"]], limit, at["ca"])
                extra["cadical"] = conflicts(at["ca"], "cadical")
                extra["cadical proof"] = os.path.getsize(at["proof"]) / 1e6
                check(at["f.cnf"], at["proof"], "cadical")
            r = runs["cadical"]
            print(f"{shown(r, limit):>8}{r.mb if r else 0:6.0f}{extra.get('cadical proof', 0):7.0f}{shown(checks.get('cadical'), limit):>10} |", end="",
                  flush=True)
            if "minisat" not in skip:
                runs["minisat"] = run([minisat, at["f.cnf"]], limit, at["mi"])
                extra["minisat"] = conflicts(at["mi"], "minisat")
            r = runs["minisat"]
            print(f"{shown(r, limit):>8}{r.mb if r else 0:6.0f}{extra.get('minisat') or 0:9} |", end="", flush=True)
            r = runs["engine"] = run([engine, *(["--hints"] if words.hints else []), at["f.cnf"]], limit, at["stream"])
            check(at["f.cnf"], at["stream"], "engine")
            if r.code == 10 and not r.over:
                fault = values_fault(at["f.cnf"], at["stream"])
                faults += [f"values: {fault}"] if fault else []
            print(f"{shown(r, limit):>8}{r.mb:6.0f}{os.path.getsize(at['stream']) / 1e6:7.0f}{shown(checks.get('engine'), limit):>10} |", end="", flush=True)
            for tool, result in runs.items():
                if result and not result.over and ANSWERS.get(result.code) != ANSWERS[answer]:
                    faults.append(f"{tool} ends with {result.code}, right is {answer}")
            whole, done = None, "-"
            watch = Watch(engine)
            if name in DESIGNS and "whole" not in skip:
                _, _, _, _, mode, depth = DESIGNS[name]
                with open(os.path.join(folder, "x.sby"), "w") as file:
                    file.write(TASK.format(mode=mode, depth=depth, line="lrat cdcl_program --hints" if words.hints else "sat"))
                watch.start()
                whole = run([sby, "-f", "-d", "out", "x.sby"], 2 * limit, at["said"], folder, env, alone=True)
                watch.ended = True
                watch.join()
                found = re.search(r"DONE \((\w+), rc=\d+\)\s*$", read(at["said"]))
                done = "TIMEOUT" if whole.over else found[1] if found else "none"
                right = {("bmc", 20): "PASS", ("bmc", 10): "FAIL", ("prove", 20): "PASS", ("prove", 10): "UNKNOWN"}[mode, answer]
                if not whole.over and done != right:
                    faults.append(f"whole run ends {done}, right is {right}")
            user = watch.user or 0.0
            judge = whole.user - user if whole else 0.0
            looks = max(watch.looks, 1)
            print(f"{shown(encode, limit):>6}" + (f"{user:8.1f}{judge:8.1f}{whole.wall:8.1f}{100 * watch.waits // looks:5}{100 * watch.judge_waits // looks:5} |"
                  if whole else f"{'-':>8}{'-':>8}{'-':>8}{'-':>5}{'-':>5} |"), end="")
            row = {"name": name, "answer": answer, **{t: par2(x, limit) for t, x in runs.items() if x}}
            if whole:
                row["whole"] = 2.0 * limit if whole.over else max(whole.user, 0.01)
                if not whole.over and not runs["engine"].over:
                    row["judging"], row["wall"], row["alone"] = judge, whole.wall, runs["engine"].wall
            if "engine" in checks and whole and not whole.over:
                row["judge"], row["rup"] = judge, par2(checks["engine"], limit)
            table.append(row)

            def quotient(a, b):
                return f"{row[a] / max(row[b], 0.01):7.2f}" if a in row and b in row else f"{'-':>7}"
            print(quotient("engine", "cadical") + quotient("engine", "minisat") + quotient("whole", "cadical") + quotient("judge", "rup")
                  + f"  {done}" + (f" ca {extra['cadical']} conflicts" if extra.get("cadical") else "") + ("  WRONG" if faults else ""), flush=True)
            wrong += [f"{name}: {f}" for f in faults]
    for a, b in (("engine", "cadical"), ("engine", "minisat"), ("minisat", "cadical"), ("whole", "cadical"), ("judge", "rup")):
        for what, kind in (("all", (10, 20)), ("SAT", (10,)), ("UNSAT", (20,))):
            rows = [r for r in table if a in r and b in r and r["answer"] in kind]
            if rows:
                print(f"{a}/{b}, {what}: geometric mean {middle([r[a] / max(r[b], 0.01) for r in rows]):.2f} over {len(rows)}", end="; ")
        print()
    rows = [r for r in table if "wall" in r and r["alone"] > 1.0]
    if rows:
        print(f"by the clock, whole run/engine alone: geometric mean {middle([r['wall'] / r['alone'] for r in rows]):.2f}, "
              f"greatest {max(r['wall'] / r['alone'] for r in rows):.2f}; judging/engine: geometric mean "
              f"{middle([max(r['judging'], 0.01) / r['engine'] for r in rows]):.2f}, over {len(rows)} of more than a second")
    for tool in ("cadical", "minisat", "engine", "whole"):
        rows = [r for r in table if tool in r]
        if rows:
            print(f"{tool}: PAR2 {sum(r[tool] for r in rows) / len(rows):.1f} s in the mean over {len(rows)}, "
                  f"{sum(r[tool] >= 2 * limit for r in rows)} time-outs")
    print(f"{len(wrong)} wrong answers")
    print(*wrong, sep="\n", end="\n" if wrong else "")
    sys.exit(1 if wrong else 0)


if __name__ == "__main__":
    main()
