#!/usr/bin/env python3
"""Tests of sby-yosys: ordinary SymbiYosys files with their statuses, traces replayed in a simulator, and what is refused.

    tools/tests/run.py [--sby PATH] [NAME ..]

Needs Yosys; with iverilog in the path the traces are replayed too. Prints a line for each test that fails, and last
'N passed, M failed', with a word after it where nothing was replayed. Exit status 0 where none failed.
"""
import argparse
import os
import re
import shutil
import signal
import subprocess
import sys
import tempfile
import time
from xml.etree import ElementTree

sys.dont_write_bytecode = True
HERE = os.path.dirname(os.path.realpath(__file__))
ROOT = os.path.join(HERE, "..", "..")
TOOL = os.path.join(HERE, "..", "sby-yosys")
sys.path[:0] = [HERE, os.path.join(HERE, "..", "sby_yosys")]

import config
import designs as d
import files
import replay
from files import sby_file

TESTS = {}


def test(function):
    TESTS[function.__name__] = function
    return function


class Bench:
    """An empty folder in which files lie and the tool runs."""

    def __init__(self, sby, folder):
        self.sby, self.folder = sby, folder

    def inner(self, name, **content):
        """A folder of its own in this one, with its files."""
        made = Bench(self.sby, os.path.join(self.folder, name))
        for key, text in content.items():
            made.put(key.replace("_", "."), text)
        return made

    def put(self, name, content):
        path = os.path.join(self.folder, name)
        os.makedirs(os.path.dirname(path), exist_ok=True)
        with open(path, "w", encoding="utf-8") as file:
            file.write(content)

    def program(self, name, content):
        self.put(name, content)
        os.chmod(os.path.join(self.folder, name), 0o755)
        return os.path.join(self.folder, name)

    def words(self, words, sby=None):
        sby = sby or self.sby
        return [sys.executable, TOOL, *(["--sby", sby] if sby else []), *words]

    def run(self, *words, programs=None, sby=None, text=None):
        """programs: a folder that comes first in the path; text: the standard input."""
        env = {**os.environ, "PATH": f"{os.path.join(self.folder, programs)}:{os.environ['PATH']}"} if programs else None
        run = subprocess.run(self.words(words, sby), cwd=self.folder, env=env, input=text or "", capture_output=True, text=True)
        return run.returncode, run.stdout + run.stderr

    def read(self, name):
        with open(os.path.join(self.folder, name), encoding="utf-8") as file:
            return file.read()

    def has(self, name):
        return os.path.exists(os.path.join(self.folder, name))

    def status(self, folder):
        return self.read(f"{folder}/status").split()[0]

    def replayed(self, folder, source):
        """Replays each trace of a work folder, and returns their number."""
        names = [it[:-5] for it in os.listdir(os.path.join(self.folder, folder, "engine_0")) if it.endswith("_tb.v")]
        for name in names if shutil.which("iverilog") else ():
            wrong = replay.differences(os.path.join(self.folder, folder), name, os.path.join(self.folder, source))
            want(not wrong, f"{folder}/{name}: {wrong[:3]}")
        return len(names)


def want(is_so, why):
    if not is_so:
        raise AssertionError(why)


@test
def ordinary_files(bench):
    """Their statuses, exit statuses and marks; each FAIL of bmc and prove has a trace, which plays in a simulator."""
    for name, design, text, statuses, code in files.TABLE:
        inner = bench.inner(name, top_v=design, x_sby=text)
        got, said = inner.run("x.sby")
        want(got == code, f"{name}: exit status {got}, wanted {code}:\n{said}")
        for folder, status in statuses.items():
            want(inner.status(folder) == status, f"{name}: {folder} is {inner.status(folder)}, wanted {status}")
            want(inner.has(f"{folder}/{status}") and inner.has(f"{folder}/{folder}.xml"), f"{name}: marks are missing")
            count = inner.replayed(folder, "top.v")
            want(count == 1 or status != "FAIL" or "mode cover" in text, f"{name}: {count} traces")


@test
def each_engine_in_each_mode(bench):
    options = "bmc: mode bmc\nprove: mode prove\ncover: mode cover\ndepth 5"
    for number, (engine, said_of_it) in enumerate(files.ENGINES.items()):
        inner = bench.inner(f"e{number}", top_v=d.counter(16), x_sby=sby_file(options, engines=engine, tasks="bmc\nprove\ncover"))
        got, said = inner.run("x.sby")
        want(f"[x_bmc] engine {engine} {said_of_it}" in said, f"{engine}: {said}")
        want(got == 0, f"{engine}: {got}\n{said}")
        for mode in ("bmc", "prove", "cover"):
            want(inner.status(f"x_{mode}") == "PASS", f"{engine}, {mode}: {inner.status(f'x_{mode}')}")


@test
def lines_name_the_source(bench):
    bench.put("top.v", d.counter(9))
    bench.put("x.sby", sby_file("mode bmc\ndepth 12\nstride 1"))
    _, said = bench.run("x.sby")
    want("top.v:7: assertion broken at cycle 9 (small)" in said, said)
    want(bench.read("x/FAIL").startswith("top.v:7: assertion broken at cycle 9 (small)"), bench.read("x/FAIL"))
    for line in ("engine_0: starting process ", "bytes in all", "base9: SAT", "trace: x/engine_0/trace.vcd", "trace: x/engine_0/trace_tb.v"):
        want(line in said, f"{line}: {said}")
    bench.put("y.sby", sby_file("mode cover\ndepth 2"))
    _, said = bench.run("y.sby")
    want("top.v:8: cover statement not reached in 2 cycles" in said, said)
    bench.put("z.sby", sby_file("mode cover\ndepth 4"))
    _, said = bench.run("z.sby")
    want("top.v:8: cover statement reached at cycle 3 (three)" in said, said)


@test
def traces_have_scopes_and_a_clock(bench):
    bench.put("top.v", d.HIERARCHY)
    bench.put("x.sby", sby_file("mode bmc\ndepth 6"))
    bench.run("x.sby")
    trace = bench.read("x/engine_0/trace.vcd")
    scopes = re.findall(r"\$scope module (\w+) \$end", trace)
    want(scopes == ["top", "left", "right"], scopes)
    code = re.search(r"\$var wire 1 (\S+) clk \$end", trace).group(1)
    edges = re.findall(rf"^([01]){re.escape(code)}$", trace, re.M)
    want(len(edges) >= 4 and edges == ["1", "0"] * (len(edges) // 2), f"clk: {edges}")


@test
def reports_for_ci(bench):
    bench.put("top.v", d.counter(9))
    bench.put("x.sby", sby_file("mode bmc\ndepth 12\nshort: depth 9\nhoped: expect fail", tasks="short\nlong\nhoped"))
    bench.run("x.sby")
    for task, status, code in (("short", "PASS", 0), ("long", "FAIL", 2), ("hoped", "FAIL", 0)):
        suite = ElementTree.parse(os.path.join(bench.folder, f"x_{task}/x_{task}.xml")).getroot().find("testsuite")
        want([suite.get(it) for it in ("package", "name", "tests", "errors")] == ["x", task, "1", "0"], suite.attrib)
        want(suite.get("failures") == ("1" if code else "0"), suite.attrib)
        case = suite.find("testcase")
        want((case.get("classname"), case.get("name")) == ("x", task), case.attrib)
        failure = case.find("failure")
        want((failure is not None) == (code != 0), f"{task}: failure")
        want(code == 0 or "top.v:7: assertion broken" in failure.get("message"), task)
        values = {it.get("name"): it.get("value") for it in suite.iter("property")}
        want((values["status"], values["expect"]) == (status, "FAIL" if task == "hoped" else "PASS"), values)
        want(re.fullmatch(rf"{status} {code} \d+\n", bench.read(f"x_{task}/status")), bench.read(f"x_{task}/status"))
    bench.put("y.sby", sby_file("mode bmc", files="missing.v"))
    bench.run("y.sby")
    suite = ElementTree.parse(os.path.join(bench.folder, "y/y.xml")).getroot().find("testsuite")
    want(suite.get("errors") == "1" and "there is no file missing.v" in suite.find("testcase/error").get("message"), suite.attrib)


@test
def warnings(bench):
    bench.put("top.v", d.PLAIN)
    for mode, wanted in (("bmc", "WARNING: the design has no assertion"), ("cover", "WARNING: the design has no cover statement")):
        bench.put("x.sby", sby_file(f"mode {mode}\ndepth 3"))
        code, said = bench.run("-f", "x.sby")
        want(code == 0 and wanted in said, said)
    for options in ("mode bmc\ndepth 10", "mode prove\ndepth 5"):
        bench.put("top.v", d.CONTRADICTION)
        bench.put("y.sby", sby_file(options))
        code, said = bench.run("-f", "y.sby")
        depth = options.split()[-1]
        want(code == 0 and f"WARNING: no run of {depth} cycles meets the assumptions" in said, said)
    bench.put("top.v", d.CONTRADICTION.replace("assert (n != 6)", "cover (n == 6)"))
    bench.put("z.sby", sby_file("mode cover\ndepth 9"))
    code, said = bench.run("z.sby")
    want(code == 2 and "WARNING: no run of 9 cycles meets the assumptions: nothing is reached so late" in said, said)
    bench.put("top.v", d.MEETABLE)
    code, said = bench.run("-f", "y.sby")
    want(code == 0 and "asking for a run of 5 cycles" in said and "WARNING" not in said, said)


@test
def refused_designs_are_explained(bench):
    for number, (design, options, wanted, *script) in enumerate(files.REFUSED_DESIGNS):
        inner = bench.inner(f"r{number}", top_v=design, x_sby=sby_file(options, *script))
        code, said = inner.run("x.sby")
        want(code == 16 and wanted in said and inner.status("x") == "ERROR", f"{wanted}: {code} {said}")
    inner = bench.inner("twice", top_v=d.STARTS_TWICE, x_sby=sby_file("mode bmc"), left_il=d.STARTS_TWICE_TEXT)
    lists = " ".join(f"../model/{name}.txt" for name in ("inouts", "boxes", "liveness"))
    stand_in = inner.program("yosys", f"#!/bin/sh\ncp {inner.folder}/left.il ../model/design.il\ntouch {lists}\n")
    code, said = inner.run("--yosys", stand_in, "x.sby")
    want(code == 16 and "starts with 0 and with 1" in said and "top.v:" in said, said)
    inner = bench.inner("unknown", top_v=d.NO_MODULE_OF, x_sby=sby_file("mode bmc"))
    code, said = inner.run("x.sby")
    want(code == 16 and "Module `\\secret' referenced in module `\\top' in cell `\\it' is not part of the design" in said, said)


@test
def what_is_refused(bench):
    bench.put("top.v", d.counter(9))
    for number, (text, wanted) in enumerate(files.REFUSED):
        bench.put(f"r{number}.sby", text)
        code, said = bench.run(f"r{number}.sby")
        want(code == 16 and wanted in said, f"{wanted}: {code} {said}")
    bench.put("x.sby", sby_file("mode bmc\ndepth 3"))
    bench.put("latin.sby", "")
    with open(os.path.join(bench.folder, "latin.sby"), "wb") as file:
        file.write(b"# \xe9\n")
    bench.put("own/x.sby", sby_file("mode bmc"))
    for words, wanted in ((["none.sby"], "none.sby: No such file"), (["latin.sby"], "latin.sby: not UTF-8"), (["top.v"], "ends in .sby"),
                          (["--sby", "none", "x.sby"], "there is no program none: build it by ./build, or name it by --sby"),
                          (["--yosys", "none", "x.sby"], "none: No such file"), (["-d", "a b", "x.sby"], "has no white space"),
                          (["-f", "-d", "own", "own/x.sby"], "own has the task file in it"), (["-j", "0", "x.sby"], "0 isn't a number")):
        code, said = bench.run(*words)
        want(code == (2 if words[0] == "-j" else 16) and wanted in said, f"{wanted}: {code} {said}")
    want(bench.has("own/x.sby"), "a task file is removed")
    sby = bench.program("bin/broken", "#!/bin/sh\nexit 3\n")
    code, said = bench.run("-f", "x.sby", sby=sby)
    want(code == 16 and "sby ended with 3 and no status" in said, said)


@test
def what_is_changed_is_said(bench):
    bench.put("top.v", d.counter(9))
    bench.put("x.sby", sby_file("mode bmc\ndepth 9\nappend 3\nvcd off\ntbtop t", engines="smtbmc z3\nbtor none\nabc bmc3\nitp"))
    _, said = bench.run("x.sby")
    for line in ("option append 3 is left out: runs end in the cycle that they are about",
                 "option vcd off is left out: a trace is written wherever there is a run",
                 "option tbtop t is left out: the testbench names the design's top", "engine smtbmc z3 becomes sat, whose proofs sby checks",
                 "engine btor none becomes sat: its program isn't in the path", "engine abc bmc3 becomes sat", "engine itp is left out"):
        want(line in said, f"{line}: {said}")
    want(bench.read("x/config.sby").split("[engines]\n")[1].startswith("sat\n\n"), bench.read("x/config.sby"))
    bench.put("p.sby", sby_file("mode prove\ndepth 9\nskip 3\nvcd on\nappend 0", engines="smtbmc"))
    _, said = bench.run("p.sby")
    for line in ("engine smtbmc becomes sat, whose proofs sby checks", "option skip is left out: it has no meaning in mode prove"):
        want(line in said, f"{line}: {said}")
    want("option vcd" not in said and "option append" not in said, said)
    bench.put("all.sby", sby_file("mode bmc\ndepth 2\n" + "".join(f"{it} x\n" for it in config.DROPPED)))
    _, said = bench.run("all.sby")
    for name, why in config.DROPPED.items():
        want(f"option {name} x is left out: {why}" in said, f"{name}: {said}")
    bench.put("top.v", d.CLOCKS)
    bench.put("y.sby", sby_file("mode bmc\ndepth 4\nskip 1\nmulticlock on"))
    _, said = bench.run("y.sby")
    want("depth is 8: with several clocks each cycle is half a clock" in said and "skip is 2: it is doubled as depth is" in said, said)
    for design, line in ((d.BLACKBOX, "black box it: what it drives has any value"), (d.LIVE, "is left out: sby proves safety alone"),
                         (d.INOUT.replace("CLAIM", "1"), "port bus of both directions is an inner wire: free where nothing drives it")):
        bench.put("top.v", design)
        bench.put("z.sby", sby_file("mode bmc\ndepth 2"))
        _, said = bench.run("-f", "z.sby")
        want(line in said, f"{line}: {said}")


@test
def programs_that_read_words(bench):
    """They get the bound that SymbiYosys gives them, and sat decides where they show no run."""
    bench.put("top.v", d.counter(9))
    for name, wanted in (("btormc", "-kmax 8 --trace-gen-full"), ("pono", "--witness -k 8 -e bmc --trace-gen-full"), ("own", "--trace-gen-full")):
        bench.program(f"bin/{name}", f'#!/bin/sh\necho "$@" > {bench.folder}/{name}.words\n')
        engines = f"btor {name} --trace-gen-full" + ("\nsat" if name == "own" else "")
        bench.put(f"{name}.sby", sby_file("mode bmc\ndepth 9\nwait on", engines=engines))
        code, said = bench.run(f"{name}.sby", programs="bin")
        want(code == 0 and bench.status(name) == "PASS", said)
        want(bench.read(f"{name}.words").strip() == f"{wanted} {name}/model/base.btor", bench.read(f"{name}.words"))
        want((f"engine btor {name} --trace-gen-full becomes btor {name} {wanted}, and sat" in said) == (name != "own"), said)
    bench.put("top.v", d.counter(16))
    bench.put("prove.sby", sby_file("mode prove\ndepth 2", engines="btor btormc"))
    code, said = bench.run("prove.sby", programs="bin")
    want(code == 0 and "engine btor btormc becomes sat: it shows runs alone, and mode prove needs a proof" in said, said)
    want("\n[engines]\nsat\n\n" in bench.read("prove/config.sby"), bench.read("prove/config.sby"))


@test
def invariants(bench):
    """abc pdr of mode prove is an invariant that pdr_program finds, with sat beside it; DEEP has no induction at this depth."""
    bench.put("top.v", d.DEEP)
    for name, options, engines, wanted in (("x", "", "abc pdr", "by invariant\n\n[engines]\ninv pdr_program\nsat\n"),
                                           ("y", "", "smtbmc\nabc pdr", "by invariant\n\n[engines]\nsat\ninv pdr_program\n"),
                                           ("z", "\nby induction", "abc --keep-going pdr", "by induction\n\n[engines]\nsat\n")):
        bench.put(f"{name}.sby", sby_file(f"mode prove\ndepth 2{options}", engines=engines))
        code, said = bench.run(f"{name}.sby")
        want(bench.status(name) == ("UNKNOWN" if options else "PASS"), said)
        want(wanted in bench.read(f"{name}/config.sby"), bench.read(f"{name}/config.sby"))
        line = "engine abc pdr becomes inv pdr_program with option by invariant, and sat beside it, which finds runs"
        want((line in said) == (not options), said)
    bench.put("top.v", d.counter(9))
    bench.put("f.sby", sby_file("mode prove\ndepth 12", engines="abc pdr"))
    code, said = bench.run("f.sby")
    want(code == 2 and bench.status("f") == "FAIL" and "top.v:7: assertion broken at cycle " in said, said)
    bench.put("g.sby", sby_file("mode prove\ndepth 4", engines="abc pdr"))
    code, said = bench.run("g.sby")
    want(code == 4 and bench.status("g") == "UNKNOWN" and "[g] base: UNSAT" in said and "engine_0 inv: unknown" in said, said)


@test
def folders(bench):
    bench.put("top.v", d.counter(9))
    bench.put("x.sby", sby_file("mode bmc\ndepth 12", tasks="a\nb"))
    bench.run("x.sby", "a")
    code, said = bench.run("x.sby", "a")
    want(code == 16 and "x_a is there already: -f removes it, --keep writes into it" in said, said)
    bench.put("x_a/old", "")
    code, _ = bench.run("--keep", "x.sby", "a")
    want(code == 2 and bench.has("x_a/old"), "--keep removes")
    code, _ = bench.run("-f", "x.sby", "a")
    want(code == 2 and not bench.has("x_a/old"), "-f leaves")
    code, _ = bench.run("-d", "elsewhere/", "x.sby", "b")
    want(code == 2 and bench.status("elsewhere") == "FAIL" and bench.has("elsewhere/elsewhere.xml"), "-d")
    code, said = bench.run("-d", "elsewhere", "x.sby")
    want(code == 16 and "-d names one work folder" in said, said)
    code, _ = bench.run("-", text=sby_file("mode bmc\ndepth 9"))
    want(code == 0 and bench.status("stdin") == "PASS", "standard input")


@test
def kept_folders_tell_of_the_last_run(bench):
    bench.put("top.v", d.counter(9))
    bench.put("x.sby", sby_file("mode bmc\ndepth 12"))
    bench.run("x.sby")
    want(bench.has("x/FAIL") and bench.has("x/trace.vcd") and bench.has("x/engine_0/trace_tb.v"), "no trace")
    bench.put("x.sby", sby_file("mode bmc\ndepth 9"))
    code, said = bench.run("--keep", "x.sby")
    want(code == 0 and bench.status("x") == "PASS" and bench.has("x/PASS") and "trace:" not in said, said)
    for name in ("FAIL", "trace.vcd", "engine_0/trace.vcd", "engine_0/trace_tb.v"):
        want(not bench.has(f"x/{name}"), f"x/{name} of the earlier run is there")


@test
def words(bench):
    bench.put("top.v", d.counter(9))
    bench.put("x.sby", sby_file("mode bmc\ndepth 12", tasks="a\nb default\nc"))
    for words, wanted in ((["--dumptasks"], "a\nb\nc\n"), (["--dumpdefaults"], "b\n")):
        code, said = bench.run(*words, "x.sby")
        want((code, said) == (0, wanted), said)
    code, said = bench.run("--dumpcfg", "x.sby", "a")
    want(code == 0 and said.startswith("[options]\nmode bmc\ndepth 12\n"), said)
    code, said = bench.run("x.sby", "none")
    want(code == 16 and "there is no task none" in said, said)
    code, said = bench.run("-q", "x.sby")
    want(code == 2 and len(said.splitlines()) == 1 and said.rstrip().endswith("[x_b] DONE (FAIL, rc=2)"), said)
    code, said = bench.run("--version")
    want(code == 0 and said.startswith("sby-yosys "), said)
    code, said = bench.run("--help")
    want(code == 0 and all(f" {it}" in said for it in ("-d", "-f", "--keep", "-j", "--dumptasks", "--version")), said)


STAND_IN = """#!/bin/sh
echo "$@" >> {folder}/sby.words
folder=$(echo "$@" | sed 's/.*-d \\([^ ]*\\).*/\\1/')
echo $$ > $folder/pid
{then}
echo "SBY [$folder] DONE (PASS, rc=0)"
"""


@test
def at_the_same_time(bench):
    """-j N is shared out: at most N tasks, and N engines over all of them."""
    bench.put("top.v", d.counter(9))
    bench.put("x.sby", sby_file("mode bmc\ndepth 12", tasks="a\nb\nc"))
    stand_in = bench.program("bin/sby", STAND_IN.format(folder=bench.folder, then=""))
    for words, wanted in ((["x.sby"], ""), (["-j", "1", "x.sby"], "-j 1 "), (["-j", "7", "x.sby"], "-j 2 "), (["-j", "5", "x.sby", "a"], "-j 5 ")):
        code, said = bench.run("-f", *words, sby=stand_in)
        started = bench.read("sby.words").splitlines()
        want(code == 0 and len(started) == (1 if "a" in words else 3), said)
        want(all(it.startswith(f"{wanted}-d x_") for it in started), started)
        os.remove(os.path.join(bench.folder, "sby.words"))
    code, said = bench.run("-f", "-j", "2", "x.sby")
    want(code == 2 and said.count("] DONE (FAIL, rc=2)") == 3, said)


def is_there(pid):
    try:
        os.kill(int(pid), 0)
    except ProcessLookupError:
        return False
    return True


@test
def a_kill_ends_what_runs(bench):
    bench.put("top.v", d.counter(9))
    bench.put("x.sby", sby_file("mode bmc\ndepth 12", tasks="a\nb\nc"))
    stand_in = bench.program("bin/sby", STAND_IN.format(folder=bench.folder, then="exec sleep 1000"))
    for words, folders in ((["x.sby"], ["x_a"]), (["-j", "2", "x.sby"], ["x_a", "x_b"])):
        tool = subprocess.Popen(bench.words(["-f", *words], stand_in), cwd=bench.folder, stdout=subprocess.DEVNULL, stderr=subprocess.DEVNULL)
        until = time.time() + 100
        while time.time() < until and not all(bench.has(f"{it}/pid") and bench.read(f"{it}/pid") for it in folders):
            time.sleep(0.1)
        pids = [bench.read(f"{it}/pid") for it in folders]
        tool.send_signal(signal.SIGTERM)
        want(tool.wait(100) == 143, f"exit status {tool.returncode}")
        want(not any(is_there(it) for it in pids), f"{words}: a process is left")
        want(not bench.has("x_c"), f"{words}: a task starts after the kill")


@test
def files_of_the_task_file(bench):
    bench.put("rtl/half.v", d.counter(9))
    bench.put("parts/one/words.vh", "// nothing\n")
    text = sby_file("mode bmc\ndepth 9", "read -formal top.v use.vh more/one/words.vh\nprep -top top",
                    files="top.v rtl/half.v\nmore parts\n\n[file use.vh]\n// nothing")
    bench.put("x.sby", text)
    code, said = bench.run("x.sby")
    want(code == 0 and bench.read("x/src/use.vh").startswith("// nothing") and bench.has("x/src/more/one/words.vh"), said)


@test
def front_page(bench):
    """The five minutes of README.md: its files, its command, and the lines that it shows."""
    with open(os.path.join(ROOT, "README.md"), encoding="utf-8") as file:
        part = file.read().split("## Five minutes")[1].split("\n## ")[0]
    design, task_file, lines = [re.sub("^    ", "", it, flags=re.M) for it in re.findall(r"(?:^(?:    .*)?\n)*^    .*\n", part, re.M)]
    bench.put("top.v", design.strip("\n") + "\n")
    bench.put("top.sby", task_file.strip("\n") + "\n")
    code, said = bench.run("top.sby")
    said = [re.sub(r"SBY \S+ ", "SBY ", it) for it in said.splitlines()]
    for line in lines.strip("\n").splitlines():
        want(re.sub(r"SBY \S+ ", "SBY ", line) in said, f"{line}: {said}")
    want(code == 2, code)


@test
def examples(bench):
    """Each task has the status that its file expects, and the traces play in a simulator. Where CaDiCaL isn't there cdcl_program
    proves for inv_abc.py."""
    inner = bench.inner("examples")
    os.makedirs(inner.folder)
    for name in os.listdir(os.path.join(ROOT, "examples")):
        if os.path.isfile(os.path.join(ROOT, "examples", name)):
            shutil.copy(os.path.join(ROOT, "examples", name), inner.folder)
    shutil.copytree(os.path.join(ROOT, "examples", "engines"), os.path.join(inner.folder, "engines"))
    for name in sorted(it for it in os.listdir(inner.folder) if it.endswith(".sby") and it != "counter.sby"):
        code, said = inner.run("-j", "2", name, programs=os.path.dirname(bench.sby or os.path.join(ROOT, "bin", "sby")))
        want(code == 0, f"{name}: {code}\n{said}")
        for folder in sorted(it for it in os.listdir(inner.folder) if it.startswith(name[:-4] + "_")):
            inner.replayed(folder, name[:-4] + ".v")


def main():
    words = argparse.ArgumentParser(description=__doc__.splitlines()[0])
    words.add_argument("--sby", default=os.environ.get("SBY"), help="path of sby (default: $SBY, bin/sby of this repository, or that in the path)")
    words.add_argument("names", nargs="*", help="tests to run (none: all)")
    words = words.parse_args()
    failed = 0
    names = words.names or list(TESTS)
    for name in names:
        with tempfile.TemporaryDirectory() as folder:
            try:
                TESTS[name](Bench(words.sby and os.path.abspath(words.sby), folder))
            except AssertionError as fault:
                failed += 1
                print(f"{name}: {fault}")
    unplayed = "" if shutil.which("iverilog") else "; no trace was replayed: iverilog isn't in the path"
    print(f"{len(names) - failed} passed, {failed} failed{unplayed}")
    return 1 if failed else 0


if __name__ == "__main__":
    sys.exit(main())
