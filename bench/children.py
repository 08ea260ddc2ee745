"""Engines that misbehave, under the built sby: what is left after a kill, a limit, an interrupt and a crash.

    python3 -B bench/children.py --sby PATH [--engine PATH] [--only NAME]

Prints a line for each case, and last 'N passed, M failed'. Exit status 0 where none failed.
"""
import argparse
import os
import signal
import subprocess
import sys
import tempfile
import time

MARK = "SBY_CHILDREN_MARK"
DESIGN = """module \\t
  wire input 1 \\clk
  attribute \\init 1'0
  wire \\q
  wire \\d
  cell $not $n
    parameter \\A_SIGNED 0
    parameter \\A_WIDTH 1
    parameter \\Y_WIDTH 1
    connect \\A \\q
    connect \\Y \\d
  end
  cell $dff $f
    parameter \\CLK_POLARITY 1'1
    parameter \\WIDTH 1
    connect \\CLK \\clk
    connect \\D \\d
    connect \\Q \\q
  end
  cell $assert \\a0
    connect \\A \\d
    connect \\EN 1'1
  end
end
"""
# `0` alone is a certificate of the job of one cycle.
FILES = {
    "t.il": DESIGN,
    "proof.sh": "echo 0\n",
    "pipe.sh": "sleep 45 | cat\n",
    "daemon.sh": "setsid sleep 20 &\nsleep 45\n",
    "deaf.sh": "trap '' TERM INT HUP\nwhile :; do sleep 45; done\n",
    "writers.sh": "for i in 1 2 3 4 5 6 7 8 9 10; do (while :; do echo c $i; done) & done\nwait\n",
    "stopped.sh": "kill -STOP $$\nsleep 45\n",
    "closed.sh": "exec >&-\nsleep 45\n",
    "comments.sh": "yes 'c a comment of some length, which says nothing at all' | head -n 1800000\necho 0\n",
}
CASES = {}


def case(function):
    CASES[function.__name__] = function
    return function


class Bench:
    def __init__(self, sby, engine, folder, name):
        self.sby, self.folder = sby, folder
        self.environment = {**os.environ, MARK: f"{name}-{os.getpid()}"}
        if engine:
            self.environment["SBY_ENGINE"] = engine
        for file, content in FILES.items():
            with open(os.path.join(folder, file), "w", encoding="utf-8") as it:
                it.write(content)

    def task(self, engines, options=""):
        lines = ["[options]", "mode bmc", "depth 1", options, "[engines]", *engines, "[script]", "read_rtlil t.il", "[files]", "t.il", ""]
        with open(os.path.join(self.folder, "x.sby"), "w", encoding="utf-8") as file:
            file.write("\n".join(lines))

    def start(self, **how):
        return subprocess.Popen([self.sby, "x.sby"], cwd=self.folder, env=self.environment, stdin=subprocess.DEVNULL,
                                stdout=subprocess.PIPE, text=True, start_new_session=True, **how)

    def run(self, seconds, **how):
        """The last line of a run that has to end within these seconds, and the seconds that it took."""
        start, child = time.monotonic(), self.start(**how)
        try:
            out, _ = child.communicate(timeout=seconds)
        except subprocess.TimeoutExpired:
            child.kill()
            raise AssertionError(f"still running after {seconds} s")
        return out.splitlines()[-1] if out else "", time.monotonic() - start

    def left(self, allowed=0):
        """Waits at most a second until only the allowed processes of the run are left; the number of all that are left."""
        for _ in range(20):
            found = 0
            for it in os.listdir("/proc"):
                if it.isdigit():
                    try:
                        with open(f"/proc/{it}/environ", "rb") as file:
                            found += f"{MARK}={self.environment[MARK]}".encode() in file.read().split(b"\0")
                    except OSError:
                        pass
            if found <= allowed:
                return 0
            time.sleep(0.05)
        return found


def want(is_so, why):
    if not is_so:
        raise AssertionError(why)


@case
def limits_hold_whatever_the_engine_has_started(bench):
    for engine in ("pipe", "deaf", "writers", "stopped", "daemon"):
        bench.task([f"drup sh {engine}.sh"], "timeout 1")
        line, took = bench.run(10)
        want("DONE (TIMEOUT, rc=8)" in line and took < 4, f"{engine}: {line} after {took:.1f} s")
        want(not bench.left(1 if engine == "daemon" else 0), f"{engine}: {bench.left()} processes are left")


@case
def a_verdict_ends_the_other_lanes(bench):
    for engine in ("pipe", "deaf", "writers", "stopped", "daemon"):
        bench.task([f"drup sh {engine}.sh", "drup sh proof.sh"])
        line, took = bench.run(10)
        want("DONE (PASS, rc=0)" in line and took < 4, f"{engine}: {line} after {took:.1f} s")
        want(not bench.left(2 if engine == "daemon" else 0), f"{engine}: {bench.left()} processes are left")


@case
def a_closed_output_ends_its_job(bench):
    bench.task(["drup sh closed.sh"])
    line, took = bench.run(10)
    want("DONE (ERROR, rc=16)" in line and took < 4, f"{line} after {took:.1f} s")
    want(not bench.left(), f"{bench.left()} processes are left")


@case
def interrupts_leave_nothing(bench):
    for number, signed in enumerate((signal.SIGINT, signal.SIGTERM, signal.SIGHUP, signal.SIGKILL, signal.SIGSEGV) * 2):
        bench.task(["drup sh pipe.sh", "drup sh writers.sh", "drup sh deaf.sh"])
        child = bench.start()
        time.sleep(0.02 + 0.05 * number)
        child.send_signal(signed)
        child.wait(5)
        child.stdout.close()
        want(not bench.left(), f"{signed.name} after {0.02 + 0.05 * number:.2f} s: {bench.left()} processes are left")


@case
def comments_take_no_memory(bench):
    bench.task(["drup sh comments.sh"])
    line, took = bench.run(60)
    want("DONE (PASS, rc=0)" in line, line)


@case
def sixty_four_lanes(bench):
    bench.task(["drup sh pipe.sh"] * 63 + ["drup sh proof.sh"])
    line, took = bench.run(20)
    want("DONE (PASS, rc=0)" in line and took < 10, f"{line} after {took:.1f} s")
    want(not bench.left(), f"{bench.left()} processes are left")


@case
def an_ignored_end_of_children(bench):
    bench.task(["drup sh proof.sh"])
    line, _ = bench.run(10, preexec_fn=lambda: signal.signal(signal.SIGCHLD, signal.SIG_IGN))
    want("DONE (PASS, rc=0)" in line, line)


@case
def an_output_whose_reader_has_gone(bench):
    bench.task(["drup sh proof.sh"])
    child = bench.start()
    child.stdout.close()
    want(child.wait(10) in (16, -signal.SIGPIPE), f"exit status {child.returncode}")
    want(not bench.left(), f"{bench.left()} processes are left")


def main():
    words = argparse.ArgumentParser(description=__doc__.splitlines()[0])
    words.add_argument("--sby", required=True)
    words.add_argument("--engine")
    words.add_argument("--only", default="")
    words = words.parse_args()
    failed = passed = 0
    for name, run in CASES.items():
        if words.only not in name:
            continue
        with tempfile.TemporaryDirectory() as folder:
            start = time.monotonic()
            try:
                run(Bench(os.path.abspath(words.sby), words.engine and os.path.abspath(words.engine), folder, name))
                passed += 1
                print(f"{name}: ok, {time.monotonic() - start:.1f} s", flush=True)
            except AssertionError as fault:
                failed += 1
                print(f"{name}: {fault}", flush=True)
    print(f"{passed} passed, {failed} failed")
    return 1 if failed else 0


if __name__ == "__main__":
    sys.exit(main())
