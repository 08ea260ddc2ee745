"""From a task's script to the RTLIL text that sby reads."""
import os
import shutil
import subprocess

import config
import processes
import rtlil

# After the task's own script: one module without memories, latches and tristates, as sby reads it.
HEAD = ["hierarchy -auto-top", "proc", "flatten"]
# A port in both directions becomes an inner wire, and a net of tristates has any value where none of them drives it.
TRISTATES = ["delete -port i:* o:* %i", "tribuf -merge", "techmap -map ../model/tristate.v"]
TRISTATE = """(* techmap_celltype = "$tribuf" *)
module tristate #(parameter WIDTH = 1) (input [WIDTH-1:0] A, input EN, output [WIDTH-1:0] Y);
  assign Y = EN ? A : {WIDTH{1'bx}};
endmodule
"""
# What is changed by that or left out: a name, what is selected, and what is said of each.
CHANGED = [
    ("inouts", "i:* o:* %i", "port {} of both directions is an inner wire: free where nothing drives it"),
    ("boxes", "t:* t:$* %d", "black box {}: what it drives has any value"),
    ("liveness", "t:$live t:$fair", "{} is left out: sby proves safety alone"),
]
ONE_CLOCK = ["async2sync", "memory_map"]
CLOCKS = ["memory_map", "write_rtlil ../model/clocks.il", "clk2fflogic"]
# The outputs of a black box may have any value.
BOXES = ["cutpoint t:* t:$* %d", "delete =A:blackbox"]
TAIL = ["chformal -early", "chformal -live -fair -remove", "opt_clean"]


def copy_files(task, folder):
    """Puts the task's files into WORKDIR/src, where its script is run."""
    into = os.path.join(folder, "src")
    for name, source in task.files:
        path = os.path.join(task.folder, os.path.expanduser(source))
        to = os.path.join(into, name)
        os.makedirs(os.path.dirname(to), exist_ok=True)
        if os.path.isdir(path):
            shutil.copytree(path, to, dirs_exist_ok=True)
        elif os.path.isfile(path):
            shutil.copyfile(path, to)
        else:
            raise config.Refused(f"there is no file {path}")
    for name, content in task.contents.items():
        to = os.path.join(into, name)
        os.makedirs(os.path.dirname(to), exist_ok=True)
        with open(to, "w", encoding="utf-8") as file:
            file.write(content)


def script_of(task):
    clocks = CLOCKS if task.is_multiclock() else ONE_CLOCK
    changed = [f"select -write ../model/{name}.txt {selection}" for name, selection, _ in CHANGED]
    return [*task.script, *HEAD, *changed, *TRISTATES, *BOXES, *clocks, *TAIL, "write_rtlil ../model/design.il"]


def what_failed(output):
    """The line of Yosys's output that says why it failed."""
    lines = [it.strip() for it in output.splitlines() if "ERROR" in it]
    return lines[-1] if lines else "it gives no reason"


def write_script(task, folder):
    model = os.path.join(folder, "model")
    with open(os.path.join(model, "tristate.v"), "w", encoding="utf-8") as file:
        file.write(TRISTATE)
    with open(os.path.join(model, "design.ys"), "w", encoding="utf-8") as file:
        file.write(f"# running in {folder}/src/\n" + "\n".join(script_of(task)) + "\n")


def prepare(task, folder, yosys, log):
    """Runs Yosys, and returns the design that it leaves."""
    copy_files(task, folder)
    write_script(task, folder)
    log.say(f"yosys: running the script in {folder}/src")
    words = [yosys, "-ql", "../model/design.log", "../model/design.ys"]
    with processes.Process(words, cwd=os.path.join(folder, "src"), stderr=subprocess.STDOUT) as child:
        output = child.stdout.read()
    for line in output.splitlines():
        if line.startswith("Warning:"):
            log.say(f"yosys: {line}")
    path = os.path.join(folder, "model", "design.il")
    if child.returncode != 0 or not os.path.isfile(path):
        raise config.Refused(f"yosys: {what_failed(output)} (see {folder}/model/design.log)")
    design = rtlil.Design(path)
    if task.is_multiclock():
        before = rtlil.Design(os.path.join(folder, "model", "clocks.il"))
        design.clocks, design.states = before.clocks, before.states
    for name, _, said in CHANGED:
        with open(os.path.join(folder, "model", name + ".txt"), encoding="utf-8") as file:
            for line in file:
                log.say(said.format(line.strip().split("/", 1)[1]))
    look_at(task, design, log)
    return design


def look_at(task, design, log):
    """Warns of a design with nothing to prove."""
    log.say("design: " + ", ".join(f"{design.count('$' + it)} {it}" for it in ("assert", "assume", "cover")))
    if task.mode() == "cover" and not design.count("$cover"):
        log.sum("WARNING: the design has no cover statement: PASS says nothing")
    if task.mode() != "cover" and not design.count("$assert"):
        log.sum("WARNING: the design has no assertion: PASS says nothing")
