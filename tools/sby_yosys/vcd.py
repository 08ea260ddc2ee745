"""From the trace that sby checked to one with scopes and a clock that ticks, and to a testbench that replays it."""
import os
import re

import rtlil

TICK = 10  # units of time in a cycle
NAME = re.compile(r"[A-Za-z_]\w*(?:(?:\[\d+\])?\.[A-Za-z_]\w*)*")


class Trace:
    """The values of all wires in each cycle."""

    def __init__(self, path):
        self.widths, self.cycles = {}, []
        codes, now = {}, {}
        with open(path, encoding="utf-8", errors="replace") as file:
            for line in file:
                words = line.split()
                if words[:1] == ["$var"]:
                    name = re.sub(r"\[(\d+):\1\]$", r"[\1]", words[4])
                    codes[words[3]] = name
                    self.widths[name] = int(words[2])
                elif line.startswith("#"):
                    now = dict(now)
                    self.cycles.append(now)
                elif line[:1] in "01" and line[1:].strip() in codes:
                    now[codes[line[1:].strip()]] = line[0]
                elif line[:1] == "b" and len(words) == 2 and words[1] in codes:
                    name = codes[words[1]]
                    now[name] = words[0][1:].rjust(self.widths[name], "0")
        self.cycles.pop()  # the end of the last cycle

    def value(self, cycle, name):
        return self.cycles[cycle].get(name, "0" * self.widths[name])


def short(number):
    """A code of VCD for a number."""
    text = ""
    while True:
        text += chr(33 + number % 94)
        number //= 94
        if number == 0:
            return text


def scopes_of(names):
    """Names by the scopes that their dots make."""
    tree = {}
    for name in names:
        parts = name.split(".") if not name.startswith("$") else [name]
        at = tree
        for part in parts[:-1]:
            at = at.setdefault(part + ".", {})
        at[parts[-1]] = name
    return tree


def declare(file, tree, trace, codes):
    for part, inner in sorted(tree.items()):
        if isinstance(inner, dict):
            file.write(f"$scope module {part[:-1]} $end\n")
            declare(file, inner, trace, codes)
            file.write("$upscope $end\n")
        else:
            width = trace.widths[inner]
            words = re.fullmatch(r"(.*)\[(\d+)\]", part)
            label = f"{words.group(1)}<{words.group(2)}>" if words else part.replace(":", "_")
            ranged = f" [{width - 1}:0]" if width > 1 else ""
            file.write(f"$var wire {width} {codes[inner]} {label}{ranged} $end\n")


def change(name, value, codes):
    return f"b{value} {codes[name]}\n" if len(value) > 1 else f"{value}{codes[name]}\n"


def write_vcd(path, trace, top, clocks):
    """The trace with its names by scopes. A clock rises where a cycle begins and falls in its middle."""
    codes = {name: short(number) for number, name in enumerate(trace.widths)}
    with open(path, "w", encoding="utf-8") as file:
        file.write(f"$timescale 1ns $end\n$scope module {top} $end\n")
        declare(file, scopes_of(trace.widths), trace, codes)
        file.write("$upscope $end\n$enddefinitions $end\n")
        before = {}
        for cycle in range(len(trace.cycles)):
            file.write(f"#{TICK * cycle}\n")
            for name in trace.widths:
                value = "1" if name in clocks else trace.value(cycle, name)
                if name in clocks or before.get(name) != value:
                    file.write(change(name, value, codes))
                before[name] = value
            if clocks:
                file.write(f"#{TICK * cycle + TICK // 2}\n" + "".join(change(name, "0", codes) for name in sorted(clocks)))
        file.write(f"#{TICK * len(trace.cycles)}\n")


def literal(value):
    return f"{len(value)}'b{value}"


def places(names, trace):
    """The names that a testbench can write to."""
    return sorted(it for it in (rtlil.unescaped(name) for name in names) if NAME.fullmatch(re.sub(r"\[\d+\]$", "", it)) and it in trace.widths)


def is_word(name):
    return name.endswith("]")


def start_lines(trace, states):
    """Registers hold their values of the first cycle, and go on from there."""
    held = [it for it in states if not is_word(it)]
    lines = [f"    UUT.{it} = {literal(trace.value(0, it))};" for it in states if is_word(it)]
    lines += [f"    force UUT.{it} = {literal(trace.value(0, it))};" for it in held]
    return lines, [f"    release UUT.{it};" for it in held]


def input_lines(trace, cycle, inputs, frees):
    lines = [f"    PI_{it} = {literal(trace.value(cycle, it))};" for it in inputs]
    return lines + [f"    force UUT.{it} = {literal(trace.value(cycle, it))};" for it in frees]


def write_testbench(path, trace, design, is_multiclock):
    """A module that takes the design through the run. Its cycles are those of the trace beside it."""
    ports = [rtlil.unescaped(it) for it in design.inputs]
    clocks = [it for it in ports if "\\" + it in design.clocks]
    inputs = [it for it in ports if it in trace.widths and (it not in clocks)]
    states, frees = places(design.states, trace), places(design.frees, trace)
    states = [it for it in states if it not in frees]
    held, freed = start_lines(trace, states)
    declared = [f"  reg [{trace.widths.get(it, 1) - 1}:0] PI_{it};" for it in ports]
    joined = ", ".join(f".{it}(PI_{it})" for it in ports)
    tick = [f"    PI_{it} = 1;" for it in clocks]
    tock = [f"    #{TICK // 2 - 1};", *(f"    PI_{it} = 0;" for it in clocks), f"    #{TICK - TICK // 2};"]
    lines = ["`timescale 1ns/1ns", "module testbench;", *declared, f"  {design.top} UUT({joined});", "  initial begin",
             '    if ($test$plusargs("vcd")) begin $dumpfile("testbench.vcd"); $dumpvars(0, testbench); end']
    lines += [f"    PI_{it} = 0;" for it in clocks] if not is_multiclock else step_lines(trace, 0, clocks)
    lines += [*input_lines(trace, 0, inputs, frees), *held, "    #1;", *freed]
    for cycle in range(1, len(trace.cycles)):
        lines += ["", f"    // cycle {cycle}"]
        if is_multiclock:
            lines += [f"    #{TICK - 1};", *step_lines(trace, cycle, clocks), "    #1;", *input_lines(trace, cycle, inputs, frees)]
        else:
            lines += [*tock, *tick, "    #1;", *input_lines(trace, cycle, inputs, frees)]
    lines += ["", *([f"    #{TICK - 1};"] if is_multiclock else [*tock, *tick, "    #1;"]), "    $finish;", "  end", "endmodule", ""]
    with open(path, "w", encoding="utf-8") as file:
        file.write("\n".join(lines))


def step_lines(trace, cycle, clocks):
    return [f"    PI_{it} = {literal(trace.value(cycle, it))};" for it in clocks if it in trace.widths]


def write(path, design, folder, is_multiclock):
    """Writes both beside each other, and returns their paths."""
    trace = Trace(path)
    clocks = set() if is_multiclock else {rtlil.unescaped(it) for it in design.clocks} & set(trace.widths)
    base = os.path.join(folder, os.path.basename(path)[:-4])
    write_vcd(base + ".vcd", trace, design.top, clocks)
    write_testbench(base + "_tb.v", trace, design, is_multiclock)
    return base + ".vcd", base + "_tb.v"
