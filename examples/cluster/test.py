#!/usr/bin/env python3
"""The wrappers of this folder for real: an sshd and a Slurm of one node, both of this test alone and below a temporary folder.

    python3 -B examples/cluster/test.py [--sby PATH [--engine PATH]] [--only NAME]

Of each wrapper: its bytes and its exit status are those of the same solver run here, and where it is killed, alone or with
its process group, its solver, its connection and its place in the queue are gone soon after. With --sby the built program
runs cluster.sby and lanes of all wrappers, and is killed itself. Debian's packages are cadical, openssh-server, slurm-wlm,
munge and parallel; what isn't installed is skipped. Nothing outside the temporary folder is changed, but root's sshd needs
/run/sshd.

Prints a line for each case, and last 'N passed, M failed'. Exit status 0 where none failed.
"""
import argparse
import contextlib
import getpass
import os
import pathlib
import shlex
import shutil
import signal
import socket
import subprocess
import sys
import tempfile
import time

HERE = pathlib.Path(__file__).resolve().parent
# How long a solver may take to start, and a kill to end everything, in seconds; this test may have to share its machine.
START = 60.0
SOON = 20.0
# How long nobody reads: longer than the EioTimeout of the test's Slurm.
SLOW = 12.0
SOLVERS = {
    "quiet.sh": 'echo c started\nexec sleep "$1"\n',
    "writing.sh": "while :; do echo c nothing; done\n",
    "deaf.sh": 'trap "" TERM INT HUP\necho c started\nsleep "$1" &\nsleep "$1"\nsleep "$1"\n',
    "words.sh": 'for word; do printf "<%s>\\n" "$word"; done\ncat\nexit 10\n',
}
FORMULAS = {
    "refuted": [[1, 2], [1, -2], [-1, 2], [-1, -2]],
    "satisfied": [[1, 2, 3], [-1, -2], [-2, -3], [2, 3]],
}
ODD_WORDS = ["it's", '"', "$HOME", "*", "a  b", "\\n", "", "`id`", "-n", "''", "#"]


def pigeons(holes):
    """One pigeon too many: its proof is long."""
    at = lambda pigeon, hole: pigeon * holes + hole + 1
    some = [[at(p, h) for h in range(holes)] for p in range(holes + 1)]
    return some + [[-at(p, h), -at(q, h)] for h in range(holes) for p in range(holes + 1) for q in range(p)]


def dimacs(clauses):
    variables = max(abs(literal) for clause in clauses for literal in clause)
    return f"p cnf {variables} {len(clauses)}\n" + "".join(" ".join(map(str, clause)) + " 0\n" for clause in clauses)


def want(is_so, why):
    if not is_so:
        raise AssertionError(why)


def within(seconds, holds):
    """Whether this holds within these seconds."""
    end = time.monotonic() + seconds
    while not holds():
        if time.monotonic() > end:
            return False
        time.sleep(0.05)
    return True


def free_port():
    with socket.socket() as it:
        it.bind(("127.0.0.1", 0))
        return it.getsockname()[1]


def processes_with(mark):
    """The command lines that have the mark in them."""
    found = []
    for it in pathlib.Path("/proc").iterdir():
        if it.name.isdigit():
            with contextlib.suppress(OSError):
                line = (it / "cmdline").read_bytes().replace(b"\0", b" ").decode(errors="replace")
                if mark in line:
                    found.append(line.strip())
    return found


class Site:
    """A folder, the services in it, and the environment in which wrappers find them."""

    def __init__(self, folder):
        self.folder = pathlib.Path(folder)
        self.environment = {name: value for name, value in os.environ.items() if not name.startswith("SLURM_")}
        self.environment["PATH"] = f"{folder}/bin:{os.environ['PATH']}:/usr/sbin:/sbin"
        self.services = []
        self.marks = 0
        self.examples = self.folder / "examples"
        (self.folder / "bin").mkdir()
        self.examples.mkdir()
        for name in ("cadical.sh", "counter.il", "counter_fixed.il", "counter.sby"):
            shutil.copy(HERE.parent / name, self.examples)
        for name in ("cluster", "engines"):
            shutil.copytree(HERE.parent / name, self.examples / name)
        for name, text in SOLVERS.items():
            (self.folder / name).write_text(text)
        for name, clauses in {**FORMULAS, "long": pigeons(7)}.items():
            (self.folder / f"{name}.cnf").write_text(dimacs(clauses))

    def which(self, program):
        return shutil.which(program, path=self.environment["PATH"])

    def serve(self, *words):
        log = open(self.folder / f"{pathlib.Path(words[0]).name}.log", "wb")
        self.services.append(subprocess.Popen(words, env=self.environment, stdin=subprocess.DEVNULL, stdout=log, stderr=log))
        log.close()

    def stop(self):
        if self.queue():
            self.run("scancel", "--quiet", f"--user={getpass.getuser()}")
            within(SOON, lambda: not self.queue())
        within(SOON, lambda: not self.strays())
        for stray in self.strays():
            with contextlib.suppress(OSError):
                os.kill(stray, signal.SIGKILL)
        for service in reversed(self.services):
            service.terminate()
            try:
                service.wait(timeout=10)
            except subprocess.TimeoutExpired:
                service.kill()
                service.wait()

    def strays(self):
        """What this test's Slurm, or a case that failed, has left, by the environment."""
        found = []
        for it in pathlib.Path("/proc").iterdir() if "SLURM_CONF" in self.environment else []:
            if it.name.isdigit() and int(it.name) not in [service.pid for service in self.services]:
                with contextlib.suppress(OSError):
                    is_ours = f"SLURM_CONF={self.folder}/slurm.conf".encode() in (it / "environ").read_bytes().split(b"\0")
                    # The helper of slurmctld ends with it.
                    if is_ours and not (it / "cmdline").read_bytes().startswith(b"slurmctld"):
                        found.append(int(it.name))
        return found

    def run(self, *words, **environment):
        return subprocess.run(words, env={**self.environment, **environment}, cwd=self.examples, stdin=subprocess.DEVNULL, capture_output=True,
                              timeout=120)

    def mark(self):
        """A number of seconds that no other command line has: solvers sleep for so long."""
        self.marks += 1
        return f"{3600 + self.marks}.{os.getpid()}"

    def start_ssh(self):
        """The host `near` is this machine; at `closed` nothing listens."""
        for name in ("key", "host_key"):
            subprocess.run(["ssh-keygen", "-q", "-t", "ed25519", "-N", "", "-f", self.folder / name], check=True)
        port, closed = free_port(), free_port()
        host_key = (self.folder / "host_key.pub").read_text()
        (self.folder / "known_hosts").write_text(f"[127.0.0.1]:{port} {host_key}")
        (self.folder / "sshd_config").write_text(
            f"Port {port}\nListenAddress 127.0.0.1\nHostKey {self.folder}/host_key\nAuthorizedKeysFile {self.folder}/key.pub\n"
            "PidFile none\nStrictModes no\nPermitRootLogin yes\nMaxStartups 100\n")
        (self.folder / "ssh_config").write_text(
            f"Host near\n  Port {port}\nHost closed\n  Port {closed}\nHost *\n  HostName 127.0.0.1\n  User {getpass.getuser()}\n"
            f"  IdentityFile {self.folder}/key\n  IdentitiesOnly yes\n  UserKnownHostsFile {self.folder}/known_hosts\n")
        ssh = self.folder / "bin" / "ssh"
        ssh.write_text(f'#!/bin/sh\nexec {shutil.which("ssh")} -F {self.folder}/ssh_config "$@"\n')
        ssh.chmod(0o755)
        if os.getuid() == 0:
            os.makedirs("/run/sshd", exist_ok=True)
        self.serve(self.which("sshd"), "-D", "-e", "-f", str(self.folder / "sshd_config"))
        want(within(10, lambda: self.run("ssh", "near", "true").returncode == 0), "sshd doesn't answer")

    def start_slurm(self):
        """A node of two processors, so the third job waits."""
        host, port, node_port, user = socket.gethostname().split(".")[0], free_port(), free_port(), getpass.getuser()
        (self.folder / "munge.key").write_bytes(os.urandom(128))
        (self.folder / "munge.key").chmod(0o600)
        munge = [f"--{name}={self.folder}/munge.{end}" for name, end in
                 [("key-file", "key"), ("socket", "socket"), ("pid-file", "pid"), ("log-file", "log"), ("seed-file", "seed")]]
        self.serve(self.which("munged"), "--foreground", "--force", *munge)
        want(within(10, (self.folder / "munge.socket").exists), "munged doesn't start")
        (self.folder / "slurm.conf").write_text(
            f"ClusterName=test\nSlurmctldHost={host}(127.0.0.1)\nSlurmctldPort={port}\nSlurmdPort={node_port}\n"
            f"SlurmUser={user}\nSlurmdUser={user}\nAuthType=auth/munge\nAuthInfo=socket={self.folder}/munge.socket\n"
            "ProctrackType=proctrack/pgid\nTaskPlugin=task/none\nMpiDefault=none\nReturnToService=2\n"
            "EioTimeout=3\nSelectType=select/cons_tres\nSelectTypeParameters=CR_CPU\nSlurmdParameters=config_overrides\n"
            f"StateSaveLocation={self.folder}/state\nSlurmdSpoolDir={self.folder}/spool\n"
            f"SlurmctldPidFile={self.folder}/slurmctld.pid\nSlurmdPidFile={self.folder}/slurmd.pid\n"
            f"NodeName={host} NodeAddr=127.0.0.1 CPUs=2 State=UNKNOWN\nPartitionName=all Nodes={host} Default=YES State=UP\n")
        for name in ("state", "spool"):
            (self.folder / name).mkdir()
        self.environment["SLURM_CONF"] = str(self.folder / "slurm.conf")
        self.serve(self.which("slurmctld"), "-D")
        self.serve(self.which("slurmd"), "-D")
        want(within(60, lambda: b"idle" in self.run("sinfo", "--noheader", "--format=%T").stdout), "Slurm doesn't start")

    def queue(self, *words):
        if "SLURM_CONF" not in self.environment:
            return []
        return self.run("squeue", "--noheader", "--format=%j %T", *words).stdout.decode().splitlines()


class Wrapper:
    def __init__(self, site, name, words, sends):
        self.site, self.name, self.words, self.sends = site, name, ["sh", f"cluster/{name}.sh", *words], sends

    def line(self, solver, *words):
        """The words of a lane: a wrapper that sends the job gets its path last, and its solver reads it as its input."""
        return [*self.words, "sh", str(self.site.folder / solver), *words, *([str(self.site.folder / "refuted.cnf")] if self.sends else [])]

    def cadical(self, name):
        file = str(self.site.folder / f"{name}.cnf")
        return [*self.words, *(["cadical", "-q", "--no-binary", "-", "-"] if self.sends else ["sh", "cadical.sh"]), file]

    def popen(self, words, **environment):
        """As a lane starts its engine: no input, the output on a pipe, in a session of its own."""
        return subprocess.Popen(words, env={**self.site.environment, **environment}, cwd=self.site.examples, stdin=subprocess.DEVNULL,
                                stdout=subprocess.PIPE, stderr=subprocess.DEVNULL, start_new_session=True)

    def start(self, solver, mark, **environment):
        child = self.popen(self.line(solver, mark), **environment)
        want(child.stdout.read(8), "the solver doesn't start")
        want(processes_with(mark), "the solver isn't seen")
        return child


def kill(child, with_group):
    if with_group:
        os.killpg(child.pid, signal.SIGKILL)
    else:
        child.kill()


def ends(child):
    """Reads the rest of a killed child's output; answers after how many seconds nobody held it any more."""
    start = time.monotonic()
    os.set_blocking(child.stdout.fileno(), False)

    def has_ended():
        while True:
            piece = child.stdout.read(65536)
            if not piece:
                return piece == b""

    want(within(SOON, has_ended), "the killed wrapper's output doesn't end")
    child.wait()
    return time.monotonic() - start


def nothing_is_left(site, mark):
    want(within(SOON, lambda: not processes_with(mark)), f"left: {processes_with(mark)}")
    want(within(SOON, lambda: not site.queue()), f"in the queue: {site.queue()}")


def same_bytes(wrapper):
    folder = wrapper.site.folder
    for name in (*FORMULAS, "long"):
        here = wrapper.site.run("sh", "cadical.sh", str(folder / f"{name}.cnf"))
        there = wrapper.site.run(*wrapper.cadical(name))
        want(here.returncode in (10, 20), f"{name}: cadical's exit status is {here.returncode}")
        want(there.stdout == here.stdout, f"{name}: {len(there.stdout)} bytes for {len(here.stdout)}: {there.stderr.decode()[-300:]}")
        want(there.returncode == here.returncode, f"{name}: exit status {there.returncode} for {here.returncode}")


def same_words(wrapper):
    there = wrapper.site.run(*wrapper.line("words.sh", *ODD_WORDS))
    job = (wrapper.site.folder / "refuted.cnf").read_bytes() if wrapper.sends else b""
    want(there.stdout == "".join(f"<{word}>\n" for word in ODD_WORDS).encode() + job, f"other words: {there.stdout} {there.stderr}")
    want(there.returncode == 10, f"exit status {there.returncode}")


def same_proof_file(wrapper):
    folder = wrapper.site.folder
    for words, name in ((wrapper.words, "far.proof"), ([], "here.proof")):
        wrapper.site.run(*words, "cadical", "-q", "--no-binary", str(folder / "long.cnf"), str(folder / name))
    want((folder / "far.proof").read_bytes() == (folder / "here.proof").read_bytes(), "another proof")


def six_read_slowly(wrapper):
    """Six at once, of which nothing is read for long after they have ended."""
    here = wrapper.site.run("sh", "cadical.sh", str(wrapper.site.folder / "long.cnf")).stdout
    children = [wrapper.popen(wrapper.cadical("long")) for _ in range(6)]
    time.sleep(SLOW)
    want([child.communicate(timeout=120)[0] == here for child in children] == [True] * 6, "other bytes")


def killed(solver, with_group):
    def kill_it(wrapper):
        mark = wrapper.site.mark()
        child = wrapper.start(solver, mark)
        kill(child, with_group)
        ends(child)
        nothing_is_left(wrapper.site, mark)

    return kill_it


def killed_at_once(wrapper):
    """At any moment of the start too."""
    for milliseconds in (0, 5, 10, 20, 40, 80, 160):
        mark = wrapper.site.mark()
        child = wrapper.popen(wrapper.line("quiet.sh", mark))
        time.sleep(milliseconds / 1000)
        kill(child, True)
        ends(child)
        nothing_is_left(wrapper.site, mark)
        time.sleep(0.5)
        nothing_is_left(wrapper.site, mark)


def killed_in_the_queue(wrapper):
    site, mark = wrapper.site, wrapper.site.mark()
    running = [wrapper.start("quiet.sh", site.mark()) for _ in range(2)]
    for with_group in (True, False):
        waiting = wrapper.popen(wrapper.line("quiet.sh", mark))
        want(within(START, lambda: len(site.queue()) == 3), f"in the queue: {site.queue()}")
        kill(waiting, with_group)
        ends(waiting)
        want(within(SOON, lambda: len(site.queue()) == 2), f"in the queue: {site.queue()}")
        want(within(SOON, lambda: not processes_with(mark)), f"left: {processes_with(mark)}")
    for child in running:
        kill(child, True)
        ends(child)
    want(within(SOON, lambda: not site.queue()), f"in the queue: {site.queue()}")


def killed_in_a_job(wrapper):
    """Where sby runs in a job: the engines are steps of it, and end with it."""
    site, marks = wrapper.site, [wrapper.site.mark() for _ in range(3)]
    site.run("salloc", "--quiet", "--no-shell", "--ntasks=2", "--job-name=outer")
    job = site.run("squeue", "--noheader", "--format=%i").stdout.decode().strip()
    want(job.isdigit(), f"no job: {job}")
    for mark, with_group in zip(marks, (True, False, True)):
        other = wrapper.start("quiet.sh", site.mark(), SLURM_JOB_ID=job)
        child = wrapper.start("quiet.sh", mark, SLURM_JOB_ID=job)
        want(site.queue() == ["outer RUNNING"], f"in the queue: {site.queue()}")
        if mark == marks[-1]:
            site.run("scancel", job)
        else:
            kill(child, with_group)
        ends(child)
        want(within(SOON, lambda: not processes_with(mark)), f"left: {processes_with(mark)}")
        if mark != marks[-1]:
            want(other.poll() is None, "another's step was killed too")
            kill(other, True)
        ends(other)
    want(within(SOON, lambda: not site.queue()), f"in the queue: {site.queue()}")


def closed_host(wrapper):
    words = list(wrapper.words)
    words[2] = "closed"
    start = time.monotonic()
    it = wrapper.site.run(*words, "cadical", "-q", str(wrapper.site.folder / "refuted.cnf"))
    want(it.returncode not in (10, 20) and not it.stdout and time.monotonic() - start < SOON, f"{it} after {time.monotonic() - start:.1f} s")


def passes_closed_hosts_over(wrapper):
    (wrapper.site.folder / "closed").write_text("closed\n")
    words = [*wrapper.words[:2], str(wrapper.site.folder / "closed")]
    it = wrapper.site.run(*words, "cadical", "-q", str(wrapper.site.folder / "refuted.cnf"))
    want(it.returncode == 16 and not it.stdout, f"{it}")


def start_services(site):
    """The wrappers whose programs are installed, after their services were started."""
    wrappers = []
    has_ssh, has_slurm = site.which("sshd"), site.which("slurmctld") and site.which("slurmd") and site.which("munged")
    if has_slurm:
        site.start_slurm()
        wrappers += [Wrapper(site, "far_srun", [], False), Wrapper(site, "send_srun", [], True)]
    else:
        print("skipped: srun (slurm-wlm or munge isn't installed)")
    if has_ssh:
        site.start_ssh()
        wrappers += [Wrapper(site, "far_ssh", ["near"], False), Wrapper(site, "send_ssh", ["near"], True)]
    else:
        print("skipped: ssh (openssh-server isn't installed)")
    if has_ssh and site.which("parallel"):
        (site.folder / "hosts").write_text("closed\nnear\n")
        wrappers.append(Wrapper(site, "parallel", [str(site.folder / "hosts")], True))
    elif has_ssh:
        print("skipped: parallel (it isn't installed)")
    return wrappers


KILLS = {f"killed_{name}_{how}": killed(f"{name}.sh", how == "with_group")
         for name in ("quiet", "writing", "deaf") for how in ("alone", "with_group")}
COMMON = {it.__name__: it for it in (same_bytes, same_words, six_read_slowly, killed_at_once)}
OWN = {
    "far_srun": [same_proof_file, killed_in_the_queue, killed_in_a_job],
    "send_srun": [killed_in_the_queue],
    "far_ssh": [same_proof_file, closed_host],
    "send_ssh": [closed_host],
    "parallel": [passes_closed_hosts_over],
}


class Runs:
    """Runs of the built sby in the copied examples, each with engine lines of its own."""

    def __init__(self, site, wrappers, sby, engine):
        self.site, self.wrappers, self.sby = site, wrappers, str(pathlib.Path(sby).resolve())
        self.engine = str(pathlib.Path(engine).resolve() if engine else pathlib.Path(self.sby).parent / "cdcl_program")
        site.environment["SBY_ENGINE"] = self.engine

    def words(self, engines, depth=6, options=""):
        lines = ["[options]", "mode bmc", f"depth {depth}", options, "[engines]", *engines, "[script]", "read_rtlil counter.il", "[files]", "counter.il", ""]
        (self.site.examples / "x.sby").write_text("\n".join(lines))
        return [self.sby, "x.sby"]

    def last_line(self, *words):
        return (self.site.run(*words).stdout.decode().splitlines() or [""])[-1]

    def lanes(self, solver):
        """For each wrapper a line whose solver is this one, and the solver's mark."""
        for wrapper in self.wrappers:
            mark = self.site.mark()
            yield wrapper.name, " ".join(["drup", *wrapper.words, "sh", str(self.site.folder / solver), mark]), mark


def cluster_sby(runs):
    """Beside the engine at a port, and without it: its lane then fails to start, and the others decide."""
    if not any(wrapper.name == "far_srun" for wrapper in runs.wrappers):
        return
    for is_served in (True, False):
        server = subprocess.Popen([runs.engine, "--serve", "127.0.0.1:4700", "--count", "2"], stdin=subprocess.DEVNULL) if is_served else None
        try:
            it = runs.site.run(runs.sby, "cluster/cluster.sby")
        finally:
            if server:
                server.kill()
                server.wait()
        done = [line.split("] ")[1] for line in it.stdout.decode().splitlines() if "DONE" in line]
        want(done == ["DONE (PASS, rc=0)", "DONE (FAIL, rc=0)", "DONE (PASS, rc=0)"] and it.returncode == 0, it.stdout.decode())
        want(within(SOON, lambda: not runs.site.queue()), f"in the queue: {runs.site.queue()}")


def each_lane_decides_alone(runs):
    for wrapper in runs.wrappers:
        words = " ".join(wrapper.words)
        other = f"lrat {words} {runs.engine} --hints /dev/stdin" if wrapper.sends else f"proof {words} cadical -q --no-binary {{cnf}} {{proof}}"
        for line in ("drup " + " ".join(wrapper.cadical("")[:-1]), other):
            want("DONE (PASS, rc=0)" in runs.last_line(*runs.words([line])), f"{line}: no PASS")
            want("DONE (FAIL, rc=2)" in runs.last_line(*runs.words([line], depth=7)), f"{line}: no FAIL")


def sat_lines_go_through_slurm(runs):
    """By a script in the place of the engine."""
    if any(wrapper.name == "far_srun" for wrapper in runs.wrappers):
        script = runs.site.examples / "engine.sh"
        script.write_text(f'#!/bin/sh\nexec sh {runs.site.examples}/cluster/far_srun.sh {runs.engine} "$@"\n')
        script.chmod(0o755)
        jobs = len(runs.site.queue("--states=all"))
        it = runs.site.run(*runs.words(["sat"]), SBY_ENGINE=str(script))
        want(b"DONE (PASS, rc=0)" in it.stdout, it.stdout.decode())
        want(len(runs.site.queue("--states=all")) == jobs + 1, "no job of Slurm's")


def another_lane_decides(runs):
    for name, line, mark in runs.lanes("quiet.sh"):
        want("DONE (PASS, rc=0)" in runs.last_line(*runs.words([line, "sat"])), f"{name}: no PASS")
        nothing_is_left(runs.site, mark)


def a_closed_host_is_no_fault(runs):
    for wrapper in runs.wrappers:
        if "near" in wrapper.words:
            line = " ".join(["drup", *wrapper.words, "cadical"]).replace(" near ", " closed ")
            want("DONE (PASS, rc=0)" in runs.last_line(*runs.words([line, "sat"])), f"{wrapper.name}: no PASS")


def limits_hold(runs):
    for solver in ("quiet.sh", "writing.sh", "deaf.sh"):
        for name, line, mark in runs.lanes(solver):
            line = runs.last_line(*runs.words([line], options="timeout 4"))
            want("DONE (TIMEOUT, rc=8)" in line, f"{name}, {solver}: {line}")
            nothing_is_left(runs.site, mark)


def nothing_outlives_a_killed_sby(runs):
    for solver in ("quiet.sh", "deaf.sh"):
        for name, line, mark in runs.lanes(solver):
            child = subprocess.Popen(runs.words([line]), env=runs.site.environment, cwd=runs.site.examples, stdin=subprocess.DEVNULL,
                                     stdout=subprocess.DEVNULL, stderr=subprocess.DEVNULL, start_new_session=True)
            want(within(START, lambda: any(it.startswith(f"sleep {mark}") for it in processes_with(mark))), f"{name}: the solver doesn't start")
            child.kill()
            child.wait()
            nothing_is_left(runs.site, mark)


def parallels(runs):
    """GNU parallel above sby, here and over ssh."""
    if any(wrapper.name == "parallel" for wrapper in runs.wrappers):
        yield "parallel --will-cite --keep-order"
        yield f"parallel --will-cite --keep-order -S near --workdir {shlex.quote(str(runs.site.examples))} --env SBY_ENGINE"


def tasks_by_parallel(runs):
    sby = shlex.quote(runs.sby)
    for parallel in parallels(runs):
        it = runs.site.run("sh", "-c", f"{sby} --dumptasks counter.sby | {parallel} {sby} counter.sby {{}}")
        done = [line.split("] ")[1] for line in it.stdout.decode().splitlines() if "DONE" in line]
        want(done == [f"DONE ({status}, rc=0)" for status in ("PASS", "FAIL", "FAIL", "PASS", "PASS", "PASS")], f"{it}")
        want(it.returncode == 0, f"exit status {it.returncode}")


def parallel_passes_a_term_on(runs):
    for parallel in parallels(runs):
        mark = runs.site.mark()
        words = runs.words([f"drup sh {runs.site.folder}/deaf.sh {mark}"])
        child = subprocess.Popen([*shlex.split(parallel), *words[:1], ":::", *words[1:]], env=runs.site.environment, cwd=runs.site.examples,
                                 stdin=subprocess.DEVNULL, stdout=subprocess.DEVNULL, stderr=subprocess.DEVNULL, start_new_session=True)
        want(within(START, lambda: any(it.startswith(f"sleep {mark}") for it in processes_with(mark))), "the solver doesn't start")
        child.terminate()
        nothing_is_left(runs.site, mark)
        child.wait(timeout=SOON)


SBY = [cluster_sby, each_lane_decides_alone, sat_lines_go_through_slurm, another_lane_decides, a_closed_host_is_no_fault, limits_hold,
       nothing_outlives_a_killed_sby, tasks_by_parallel, parallel_passes_a_term_on]


def cases(site, options):
    """All cases by name."""
    wrappers = start_services(site)
    for wrapper in wrappers:
        for name, case in {**COMMON, **{it.__name__: it for it in OWN[wrapper.name]}, **KILLS}.items():
            yield f"{wrapper.name}.{name}", lambda case=case, wrapper=wrapper: case(wrapper)
    if options.sby:
        runs = Runs(site, wrappers, options.sby, options.engine)
        for case in SBY:
            yield f"sby.{case.__name__}", lambda case=case: case(runs)


def try_all(site, options):
    passed = failed = 0
    for name, case in cases(site, options):
        if options.only and options.only not in name:
            continue
        start = time.monotonic()
        try:
            case()
            passed, line = passed + 1, f"passed: {name}"
        except (AssertionError, subprocess.TimeoutExpired) as fault:
            failed, line = failed + 1, f"FAILED: {name}: {fault}"
        print(f"{line} ({time.monotonic() - start:.1f} s)", flush=True)
    print(f"{passed} passed, {failed} failed")
    return 1 if failed else 0


def main():
    parser = argparse.ArgumentParser(description=__doc__, formatter_class=argparse.RawDescriptionHelpFormatter)
    parser.add_argument("--only", help="the cases whose names have this in them")
    parser.add_argument("--sby", help="the built sby, whose lanes are tried too")
    parser.add_argument("--engine", help="the engine of its lines sat, where it isn't beside sby")
    options = parser.parse_args()
    signal.signal(signal.SIGTERM, lambda *_: sys.exit(1))
    with tempfile.TemporaryDirectory(prefix="sby_cluster_") as folder:
        site = Site(folder)
        if not site.which("cadical"):
            print("skipped: all (cadical isn't installed)")
            return 0
        try:
            return try_all(site, options)
        finally:
            site.stop()


if __name__ == "__main__":
    sys.exit(main())
