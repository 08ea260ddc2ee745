"""Replays a trace in iverilog, and compares each value of each cycle."""
import os
import subprocess

import vcd

MIDDLE = 4  # units after a cycle begins, when its inputs have come and its clock hasn't fallen


def simulated(path):
    """The values at each time, of the names below testbench.UUT."""
    codes, scopes, now, time, found = {}, [], {}, 0, {}
    with open(path, encoding="utf-8") as file:
        for line in file:
            words = line.split()
            if words[:1] == ["$scope"]:
                scopes.append(words[2])
            elif words[:1] == ["$upscope"]:
                scopes.pop()
            elif words[:1] == ["$var"] and scopes[:2] == ["testbench", "UUT"]:
                codes.setdefault(words[3], []).append(".".join([*scopes[2:], words[4]]))
            elif line[:1] == "#":
                found[time] = dict(now)
                time = int(line[1:])
            elif line[:1] in "01xz" and len(words) == 1:
                now.update((it, words[0][0]) for it in codes.get(words[0][1:], []))
            elif line[:1] == "b":
                now.update((it, words[0][1:]) for it in codes.get(words[1], []))
    found[time] = dict(now)
    return found


def differences(folder, name, source):
    """What the simulation has otherwise than the trace, clocks aside; or that nothing could be compared."""
    out = os.path.join(folder, "sim")
    words = ["iverilog", "-g2012", "-o", out, f"{folder}/engine_0/{name}_tb.v", source]
    made = subprocess.run(words, capture_output=True, text=True)
    if "Could not find variable" in made.stderr:  # registers of the checks
        made = subprocess.run([*words, "-DFORMAL"], capture_output=True, text=True)
    if made.returncode:
        return [made.stderr]
    subprocess.run(["vvp", "-n", out, "+vcd"], cwd=folder, capture_output=True)
    trace, values = vcd.Trace(os.path.join(folder, name + ".vcd")), simulated(os.path.join(folder, "testbench.vcd"))
    times, wrong, count = sorted(values), [], 0
    for cycle in range(len(trace.cycles)):
        at = values[max(it for it in times if it <= vcd.TICK * cycle + MIDDLE)]
        for wire, width in trace.widths.items():
            if wire in at and not wire.split(".")[-1].startswith("clk"):
                value = at[wire].rjust(width, "x" if at[wire][0] == "x" else "0")
                count += 1
                if value != trace.value(cycle, wire):
                    wrong.append(f"cycle {cycle} {wire}: simulated {value}, trace {trace.value(cycle, wire)}")
    return wrong if count else ["nothing compared"]
