"""Runs sby on a prepared task, and logs what happens."""
import os
import re
import subprocess
import threading
import time

import config
import processes
import rtlil

PRINTING = threading.Lock()


def printer(is_quiet):
    """What prints a task's lines; where it is quiet the last one alone."""

    def say(line, is_last=True):
        if is_last or not is_quiet:
            with PRINTING:
                print(line, flush=True)

    return say


class Log:
    """The lines of a task: on the terminal, and in WORKDIR/logfile.txt."""

    def __init__(self, folder, say):
        self.folder, self.tell = folder, say
        self.file = open(os.path.join(folder, "logfile.txt"), "w", encoding="utf-8")
        self.summary = []

    def line(self, text, is_last):
        line = f"SBY {time.strftime('%H:%M:%S')} [{self.folder}] {text}"
        self.file.write(line + "\n")
        self.file.flush()
        self.tell(line, is_last)

    def say(self, text):
        self.line(text, False)

    def sum(self, text):
        """A line that the marker file repeats."""
        self.summary.append(text)
        self.say(f"summary: {text}")

    def last(self, text):
        self.line(text, True)
        self.file.close()


def task_file(task, folder, design="model/design.il"):
    """The task for sby: one task, one design, the same options."""
    options = [f"{name} {value}" for name, value in task.options.items() if name != "multiclock"]
    engines = [" ".join(it) for it in task.engines]
    return "\n".join(["[options]", *options, "", "[engines]", *engines, "", "[script]", "read_rtlil design.il", "",
                      "[files]", f"design.il {folder}/{design}", ""])


def told(line):
    """A line of sby's own log, in the words of the terminal, or None."""
    found = re.fullmatch(r"\s*[\d.]+ (.*)", line.rstrip("\n"))
    text = found.group(1) if found else line.rstrip("\n")
    started = re.fullmatch(r"task \d+, lane (\d+): child (\d+) is (.*)", text)
    if started:
        return f"engine_{started.group(1)}: starting process {started.group(2)}: {started.group(3)}"
    return text


def watch(pipe, log):
    for line in pipe:
        log.say(told(line))


class Sby:
    """The program sby, with at most this many engines of a task at a time (None: all)."""

    def __init__(self, program, jobs):
        self.front = [program] if jobs is None else [program, "-j", str(min(jobs, 64))]

    def run(self, folder, path, env, log):
        """Runs a task file; the lines of sby, and its exit status. Its log comes on its standard error."""
        with processes.Process([*self.front, "-d", folder, path], stderr=subprocess.PIPE, env=env) as child:
            watcher = threading.Thread(target=watch, args=(child.stderr, log), daemon=True)
            watcher.start()
            lines = child.stdout.read().splitlines()
        watcher.join(5)
        return lines, child.returncode


class Silent:
    def say(self, text):
        pass


def own_lines(lines, folder):
    """What sby says of the task, without the traces."""
    front = f"SBY [{folder}] "
    return [it[len(front) :] for it in lines if it.startswith(front)]


def run(task, folder, sby, log):
    """Runs the task by sby; the status, and the exit status."""
    path = os.path.join(folder, "config.sby")
    with open(path, "w", encoding="utf-8") as file:
        file.write(task_file(task, folder))
    lines, code = sby.run(folder, path, {**os.environ, "SBY_LOG": "-"}, log)
    with open(os.path.join(folder, "sby.out"), "w", encoding="utf-8") as file:
        file.write("\n".join(lines) + "\n")
    task.said = own_lines(lines, folder)
    for line in task.said:
        log.say(line if not line.startswith("DONE") else f"sby: {line}")
    done = re.fullmatch(r"DONE \((\w+), rc=\d+\)", task.said[-1]) if task.said else None
    if done is None:
        raise config.Refused(f"sby ended with {code} and no status (see {folder}/logfile.txt)")
    return done.group(1), code


def is_in_doubt(task, design, status):
    """Whether the status says nothing where no run meets the assumptions: PASS, and of mode cover FAIL."""
    return design.count("$assume") > 0 and status == ("FAIL" if task.mode() == "cover" else "PASS")


def warn_if_vacuous(task, design, folder, sby, log):
    """Asks by one more cover job whether any run of the task's depth meets the assumptions."""
    with open(os.path.join(folder, "model", "design.il"), encoding="utf-8") as file:
        text = rtlil.asking_for_a_run(file.read(), task.depth())
    inner = os.path.join(folder, "assumptions")
    os.makedirs(inner, exist_ok=True)
    with open(os.path.join(inner, "design.il"), "w", encoding="utf-8") as file:
        file.write(text)
    asked = config.Task(None, "-")
    asked.options = {"mode": "cover", "depth": str(task.depth())}
    if "timeout" in task.options:
        asked.options["timeout"] = task.options["timeout"]
    asked.engines = [it for it in task.engines if it[0] != "inv"] or [["sat"]]
    path = os.path.join(inner, "config.sby")
    with open(path, "w", encoding="utf-8") as file:
        file.write(task_file(asked, inner, "design.il"))
    log.say(f"assumptions: asking for a run of {task.depth()} cycles that meets them")
    lines, _ = sby.run(inner, path, None, Silent())
    said = own_lines(lines, inner)
    if said and said[-1].startswith("DONE (FAIL"):
        nothing = "nothing is reached so late" if task.mode() == "cover" else "PASS says nothing of such runs"
        log.sum(f"WARNING: no run of {task.depth()} cycles meets the assumptions: {nothing}")
    elif not (said and said[-1].startswith("DONE (PASS")):
        log.say("assumptions: no answer")
