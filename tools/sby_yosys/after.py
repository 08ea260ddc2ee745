"""What a task leaves: explanations by source lines, status files, a report for CI, traces for viewers and simulators."""
import os
import re
import shutil
import sys
import time
from xml.sax.saxutils import escape, quoteattr

import rtlil
import vcd

STATUSES = ("PASS", "FAIL", "UNKNOWN", "ERROR", "TIMEOUT", "MEMORY")

# What helps with a cell that sby doesn't take.
HELP = {
    "$pow": "no pass takes powers away: write the product",
    "$allconst": "quantifiers over all values aren't served",
    "$allseq": "quantifiers over all values aren't served",
    "$anyinit": "formalff -anyinit2ff in the script takes it away",
}
GATES = "gates aren't read: leave simplemap, techmap and abc out of the script"
# What is wrong with a cell or wire, by the kind of fault.
FAULTS = {
    "WidthLimit": "is too wide: arithmetic and orders have at most 128 bits, other cells 4096",
    "TwoDrivers": "is driven twice",
    "MultiClock": "and another register have different clocks or edges: option multiclock on takes several",
    "InitConflict": "starts with 0 and with 1",
    "Loop": "is on a loop of combinational cells",
}


def clear(folder):
    """Removes what tells of an earlier run in a work folder."""
    for part in ("model", "engine_0", "assumptions"):
        shutil.rmtree(os.path.join(folder, part), ignore_errors=True)
    own = {*STATUSES, "status", "logfile.txt", "sby.out", os.path.basename(folder) + ".xml"}
    for name in os.listdir(folder):
        if name in own or re.fullmatch(r"trace\d*\.vcd", name):
            os.remove(os.path.join(folder, name))


def explain_fault(design, folder, line, log):
    """Where the cell, wire or text is that a fault of sby names."""
    found = re.match(r"ERROR: design (\w+) (\S+)", line)
    if found and found.group(2) in design.sources:
        kind, name = found.groups()
        what = design.types.get(name, "wire " + rtlil.unescaped(name))
        help_with = GATES if what.startswith("$_") else HELP.get(what)
        said = FAULTS.get(kind, f"isn't served ({kind})" + (f": {help_with}" if help_with else ""))
        log.sum(f"{what} at {design.place(name)} {said}")
    found = re.match(r"ERROR: rtlil byte (\d+): (\w+)", line)
    if found:
        number, text = rtlil.line_at(os.path.join(folder, "model", "design.il"), int(found.group(1)))
        at = f"{folder}/model/design.il:{number}: "
        log.sum(at + (f"{text} isn't served ({found.group(2)})" if text else "Yosys left no module: is it the right top?"))


def explain(task, design, folder, log):
    """Adds to each line of sby that names a cell where it is in the source, and writes the traces."""
    for line in task.said:
        found = re.fullmatch(r"(broken|reached): (\S+) at cycle (\d+)", line)
        if found:
            kind, name, cycle = found.group(1), found.group(2), int(found.group(3))
            what = "assertion broken" if kind == "broken" else "cover statement reached"
            label = "" if name.startswith("$") else f" ({rtlil.unescaped(name)})"
            log.sum(f"{design.place(name)}: {what} at cycle {cycle}{label}")
            continue
        found = re.fullmatch(r"unreached: (\S+)", line)
        if found:
            log.sum(f"{design.place(found.group(1))}: cover statement not reached in {task.depth()} cycles")
            continue
        explain_fault(design, folder, line, log)
    for path in sorted(os.listdir(folder)):
        if re.fullmatch(r"trace\d*\.vcd", path):
            for made in vcd.write(os.path.join(folder, path), design, os.path.join(folder, "engine_0"), task.is_multiclock()):
                log.sum(f"trace: {made}")


def suite(task, status, code, seconds, log):
    """A JUnit report, as SymbiYosys leaves it."""
    suite_name, case_name = quoteattr(task.base), quoteattr(task.name or "default")
    wrong = code != 0 and status in ("ERROR", "MEMORY")
    failed = code != 0 and not wrong
    text = "\n".join(log.summary)
    case = ""
    if code:
        case = f"<{'error' if wrong else 'failure'} type={quoteattr(status)} message={quoteattr(text or status)}/>"
    stamp = time.strftime("%Y-%m-%dT%H:%M:%S")
    return (
        '<?xml version="1.0" encoding="UTF-8"?>\n'
        f'<testsuites><testsuite timestamp="{stamp}" hostname="localhost" package={suite_name} id="0" name={case_name} '
        f'tests="1" errors="{int(wrong)}" failures="{int(failed)}" time="{seconds:.1f}" skipped="0">\n'
        f'<properties><property name="os" value={quoteattr(sys.platform)}/><property name="expect" '
        f'value={quoteattr(", ".join(task.expected()))}/><property name="status" value="{status}"/></properties>\n'
        f'<testcase classname={suite_name} name={case_name} time="{seconds:.1f}">{case}</testcase>\n'
        f"<system-out>{escape(text)}</system-out><system-err/>\n</testsuite></testsuites>\n"
    )


def leave_marks(task, folder, status, code, seconds, log):
    """WORKDIR/status, a file named as the status, and the report."""
    files = {
        "status": f"{status} {code} {int(seconds)}\n",
        status: "".join(it + "\n" for it in log.summary),
        os.path.basename(folder) + ".xml": suite(task, status, code, seconds, log),
    }
    for name, content in files.items():
        with open(os.path.join(folder, name), "w", encoding="utf-8") as file:
            file.write(content)
    log.say(f"summary: elapsed time {int(seconds)} s")
