"""Worked rows of the table of cells, each evaluated by Yosys: prints the tests' table of them.

Yosys evaluates each row by `eval` and by `sat`. Beside it each row is worked out by the table's own line, written out
here once more; by it alone where Yosys says x or doesn't have the cell. Exit status 1: Yosys says another bit.
"""
import argparse
import itertools
import re
import subprocess
import sys
import tempfile

from measure import program

OPERANDS = ("A_SIGNED", "A_WIDTH", "B_SIGNED", "B_WIDTH", "Y_WIDTH")
RESETS = {"SRST": ("SRST_POLARITY", "SRST_VALUE"), "ARST": ("ARST_POLARITY", "ARST_VALUE")}


class Group:
    """Cells with the same ports, the output last, and the same parameters."""

    def __init__(self, name, ports, parameters):
        self.name, self.ports, self.parameters = name, ports, parameters
        self.cells = []

    def cell(self, kind, values, rows, outputs=None):
        """The rows are words of bits at the inputs, highest first."""
        cell = Cell(self, kind, [str(value) for value in values], [row.split() for row in rows])
        cell.outputs = outputs or by_table(cell)
        self.cells.append(cell)


class Cell:
    def __init__(self, group, kind, values, rows):
        self.group, self.kind, self.values, self.inputs = group, kind, values, rows
        self.parameters = dict(zip(group.parameters, values, strict=True))
        self.outputs = []

    def number(self, name):
        return int(self.parameters[name])

    def width(self):
        """Of the output."""
        if "Y_WIDTH" in self.parameters:
            return self.number("Y_WIDTH")
        if "WIDTH" in self.parameters:
            return self.number("WIDTH")
        return self.number("A_WIDTH") + self.number("B_WIDTH") if self.kind == "$concat" else 1

    def is_register(self):
        return self.group.ports[-1] == "Q"

    def module(self, name):
        """The cell alone, each port a wire; a register starts with 2."""
        lines = [f"module \\{name}"]
        *inputs, output = self.group.ports
        for place, port in enumerate(inputs):
            lines.append(f"wire width {len(self.inputs[0][place])} input {place + 1} \\{port}")
        if self.is_register():
            lines.append(f"attribute \\init {self.width()}'{fit(2, self.width())}")
        lines += [f"wire width {self.width()} output {len(inputs) + 1} \\{output}", f"cell {self.kind} \\c"]
        lines += [f"parameter \\{key} {value}" for key, value in self.parameters.items()]
        lines += [f"connect \\{port} \\{port}" for port in self.group.ports]
        return "\n".join([*lines, "end", "end", ""])

    def questions(self):
        """The Yosys commands that evaluate the rows, whose answers end the log's part."""
        *inputs, output = self.group.ports
        if self.is_register():
            words = [f"-set-at {cycle + 1} {port} {len(word)}'b{word}" for cycle, row in enumerate(self.inputs)
                     for port, word in zip(inputs, row)]
            return [f"sat -seq {len(self.inputs)} {' '.join(words)} -show {output}"]
        sets = [" ".join(f"-set {port} {len(word)}'b{word}" for port, word in zip(inputs, row)) for row in self.inputs]
        return [f"{how} {each} -show {output}" for each in sets for how in ("eval", "sat")]


def signed(word, is_signed=True):
    number = int(word, 2)
    return number - (1 << len(word)) if is_signed and word[0] == "1" else number


def fit(number, width):
    return f"{number % (1 << width):0{width}b}"


def divided(kind, a, b):
    if b == 0:
        return (-1 if a >= 0 else 1) if kind == "$div" else a
    quotient = abs(a) // abs(b) * (1 if (a < 0) == (b < 0) else -1)
    return quotient if kind == "$div" else a - b * quotient


UNARY = {"$not": lambda a: ~a, "$pos": lambda a: a, "$neg": lambda a: -a}
BINARY = {
    "$and": lambda a, b: a & b, "$or": lambda a, b: a | b, "$xor": lambda a, b: a ^ b, "$xnor": lambda a, b: ~(a ^ b),
    "$add": lambda a, b: a + b, "$sub": lambda a, b: a - b, "$mul": lambda a, b: a * b,
    "$div": lambda a, b: divided("$div", a, b), "$mod": lambda a, b: divided("$mod", a, b),
}
REDUCE = {
    "$reduce_and": lambda a: "0" not in a, "$reduce_or": lambda a: "1" in a,
    "$reduce_xor": lambda a: a.count("1") % 2 == 1, "$reduce_xnor": lambda a: a.count("1") % 2 == 0,
    "$reduce_bool": lambda a: "1" in a, "$logic_not": lambda a: "1" not in a,
}
LOGIC = {"$logic_and": lambda a, b: "1" in a and "1" in b, "$logic_or": lambda a, b: "1" in a or "1" in b}
COMPARE = {
    "$eq": lambda a, b: a == b, "$ne": lambda a, b: a != b, "$eqx": lambda a, b: a == b, "$nex": lambda a, b: a != b,
    "$lt": lambda a, b: a < b, "$le": lambda a, b: a <= b, "$gt": lambda a, b: a > b, "$ge": lambda a, b: a >= b,
}
SHIFTS = ("$shl", "$sshl", "$shr", "$sshr", "$shift", "$shiftx")


def shifted(cell, a, b):
    width = max(cell.number("A_WIDTH"), cell.width())
    value, by = signed(a, cell.number("A_SIGNED")), int(b, 2)
    if cell.kind in ("$shl", "$sshl"):
        return value << by
    if cell.kind == "$sshr":
        return value >> by
    value %= 1 << width
    if cell.kind == "$shr":
        return value >> by
    by = signed(b, cell.number("B_SIGNED"))
    return value >> by if by >= 0 else value << -by


def slice_of(word, number, width):
    """Slice number 0 is the lowest."""
    end = len(word) - number * width
    return word[end - width:end]


def chosen(cell, row):
    if cell.kind == "$mux":
        return row[1] if row[2] == "1" else row[0]
    if cell.kind == "$pmux":
        lowest = row[2][::-1].find("1")
        return row[0] if lowest < 0 else slice_of(row[1], lowest, cell.width())
    if cell.kind == "$bmux":
        return slice_of(row[0], int(row[1], 2), cell.width())
    if cell.kind == "$slice":
        end = len(row[0]) - cell.number("OFFSET")
        return row[0][end - cell.width():end]
    return row[1] + row[0]


def combinational(cell, row):
    """By the table's line of the cell."""
    kind, width = cell.kind, cell.width()
    if kind in UNARY:
        return fit(UNARY[kind](signed(row[0], cell.number("A_SIGNED"))), width)
    if kind in REDUCE:
        return fit(REDUCE[kind](row[0]), width)
    if kind in LOGIC:
        return fit(LOGIC[kind](*row), width)
    if kind in SHIFTS:
        return fit(shifted(cell, *row), width)
    if kind in BINARY or kind in COMPARE:
        numbers = (signed(row[0], cell.number("A_SIGNED")), signed(row[1], cell.number("B_SIGNED")))
        return fit((BINARY if kind in BINARY else COMPARE)[kind](*numbers), width)
    return chosen(cell, row)


def registered(cell):
    """Q in each cycle, by the table's line of the register; the reset of `$adff` and `$adffe` shows at once."""
    held, shown = fit(2, cell.width()), []
    for row in cell.inputs:
        at = dict(zip(cell.group.ports, row))
        reset = next((name for name in RESETS if name in at), None)
        value = cell.parameters[f"{reset}_VALUE"].split("'")[1] if reset else None
        is_reset = reset is not None and (at[reset] == "1") == (cell.number(f"{reset}_POLARITY") != 0)
        is_enabled = "EN" not in at or (at["EN"] == "1") == (cell.number("EN_POLARITY") != 0)
        shown.append(value if reset == "ARST" and is_reset else held)
        if is_reset and (is_enabled or cell.kind != "$sdffce"):
            held = value
        elif is_enabled:
            held = at["D"]
    return shown


def by_table(cell):
    return registered(cell) if cell.is_register() else [combinational(cell, row) for row in cell.inputs]


EVAL = re.compile(r"^Eval result: \\\w+ = (?:\d+')?([01x]+)\.", re.M)
SAT = re.compile(r"^  +(?:\d+ )?\\[YQ] +-?\d+ +[0-9a-f]+ +([01]+)$", re.M)


def is_asked(cell):
    """Not of sources, and of what Yosys doesn't have: a shift by a signed number, a signed `$shiftx`, a flag of 2."""
    signs = int(cell.parameters.get("A_SIGNED", 0)), int(cell.parameters.get("B_SIGNED", 0))
    is_shift_by_signed = cell.kind in SHIFTS[:4] and signs[1] == 1
    return cell.inputs[0] and not is_shift_by_signed and signs[0] <= (cell.kind != "$shiftx")


def log_of(script, yosys):
    with tempfile.NamedTemporaryFile("w", suffix=".ys") as file:
        file.write("\n".join(script) + "\n")
        file.flush()
        told = subprocess.run([yosys, "-Q", "-T", "-s", file.name], capture_output=True, text=True)
    if told.returncode:
        raise SystemExit(told.stdout[-300:] + told.stderr[-2000:])
    return told.stdout


def by_yosys(cells, yosys):
    """For each cell what Yosys says to each question: None, or a word for each row that it asks for."""
    modules = (cell.module(f"m{number}") for number, cell in enumerate(cells))
    script = ["read_rtlil <<EOT", *modules, "EOT", "async2sync"]
    for number, cell in enumerate(cells):
        script.append(f"cd m{number}")
        for question in cell.questions():
            script += ["log QUESTION", question]
        script.append("cd ..")
    answers = iter(re.split(r"^QUESTION$", log_of(script, yosys), flags=re.M)[1:])
    for cell in cells:
        yield [answer(part, cell.width()) for part in itertools.islice(answers, len(cell.questions()))]


def answer(part, width):
    found = EVAL.findall(part) or SAT.findall(part)
    return [word.rjust(width, "x" if word[0] == "x" else "0") for word in found] or None


def is_other(said, wanted):
    """Whether a digit that Yosys says is another; x is none."""
    return said is None or any(p not in ("x", q) for p, q in zip(said, wanted, strict=True))


def differences(cells, yosys):
    """Where Yosys says another bit, and where it says x: cell, row, what the table has, and what Yosys says."""
    other, unsaid = [], []
    for cell, answers in zip(cells, by_yosys(cells, yosys)):
        if cell.is_register():
            if answers[0] != cell.outputs:
                other.append((cell, cell.inputs, cell.outputs, answers[0]))
            continue
        for row, wanted, *said in zip(cell.inputs, cell.outputs, answers[::2], answers[1::2]):
            by_eval, by_sat = (words and words[0] for words in said)
            has_x = by_eval is not None and "x" in by_eval
            if is_other(by_eval, wanted) or not has_x and by_sat != wanted:
                other.append((cell, row, wanted, by_eval, by_sat))
            elif has_x:
                unsaid.append((cell, row, wanted, by_eval, by_sat))
    return other, unsaid


def corners(width):
    """The least number with a sign, the greatest, all ones, and one in between."""
    return ["1" + "0" * (width - 1), "0" + "1" * (width - 1), "1" * width, ("0110" * width)[:width]]


def pairs(a, b):
    least, most, ones, some = zip(corners(a), corners(b))
    return [f"{least[0]} {ones[1]}", f"{most[0]} {least[1]}", f"{ones[0]} {most[1]}", f"{some[0]} {some[1]}"]


def equals(a, b):
    """Equal as numbers with a sign, equal without one, and two that aren't equal."""
    return [f"{fit(-1, a)} {fit(-1, b)}", f"{fit(1, a)} {fit(1, b)}", *pairs(a, b)[:2]]


def one_operand():
    group = Group("ONE_OPERAND", ("A", "Y"), ("A_SIGNED", "A_WIDTH", "Y_WIDTH"))
    for kind in UNARY:
        for sign, (a, y) in itertools.product((0, 1), ((4, 4), (3, 5), (5, 3))):
            group.cell(kind, (sign, a, y), corners(a))
    for kind in REDUCE:
        for sign, a, y in ((0, 1, 1), (0, 3, 1), (1, 3, 2)):
            group.cell(kind, (sign, a, y), [fit(number, a) for number in ((0, 1) if a == 1 else (0, 1, 2, 5, 6, 7))])
    return group


def two_operands():
    group = Group("TWO_OPERANDS", ("A", "B", "Y"), OPERANDS)
    for kind in BINARY:
        for sign, (a, b, y) in itertools.product((0, 1), ((2, 3, 5), (4, 2, 3), (3, 2, 5), (2, 4, 3))):
            group.cell(kind, (sign, a, sign, b, y), pairs(a, b))
    for kind in LOGIC:
        for a_sign, b_sign, a, b, y in ((0, 0, 2, 3, 1), (1, 1, 3, 1, 2), (0, 1, 1, 2, 1)):
            numbers = ((0, 0), (0, 1), (1 << (a - 1), 0), (1, 1 << (b - 1)))
            group.cell(kind, (a_sign, a, b_sign, b, y), [f"{fit(p, a)} {fit(q, b)}" for p, q in numbers])
    for kind in COMPARE:
        for sign, (a, b, y) in itertools.product((0, 1), ((2, 3, 1), (4, 2, 2))):
            group.cell(kind, (sign, a, sign, b, y), equals(a, b))
    return group


def divisions():
    group = Group("DIVISIONS_BY_ZERO", ("A", "B", "Y"), OPERANDS)
    for kind in ("$div", "$mod"):
        for sign, (a, b, y) in itertools.product((0, 1), ((4, 2, 3), (2, 3, 5))):
            group.cell(kind, (sign, a, sign, b, y), [f"{word} {'0' * b}" for word in (*corners(a), "0" * a)])
    return group


def shifted_rows(a, b, moves):
    """One of A's corners by each number."""
    return [f"{corners(a)[place]} {fit(by, b)}" for place, by in moves]


def shifts():
    """By 0, 1, 2, A's width, and past all widths; `$shift` also up."""
    group, by_signed = Group("SHIFTS", ("A", "B", "Y"), OPERANDS), Group("SHIFTS_BY_SIGNED", ("A", "B", "Y"), OPERANDS)
    for kind in SHIFTS[:4]:
        for sign, (a, b, y) in itertools.product((0, 1), ((3, 3, 5), (4, 3, 2), (4, 4, 4))):
            group.cell(kind, (sign, a, 0, b, y), shifted_rows(a, b, ((0, 0), (2, 1), (0, 2), (2, a), (2, -1))))
        for sign in (0, 1):
            by_signed.cell(kind, (sign, 4, 1, 3, 5), shifted_rows(4, 3, ((2, 1), (2, 4), (2, -1))))
    for a_sign, b_sign, (a, y) in itertools.product((0, 1), (0, 1), ((3, 2), (3, 5), (4, 2), (4, 5))):
        moves = ((0, 1), (2, a - 1), (2, -1), (3, -2), (2, -4))
        group.cell("$shift", (a_sign, a, b_sign, 3, y), shifted_rows(a, 3, moves))
    for b_sign, y in itertools.product((0, 1), (1, 2)):
        group.cell("$shiftx", (0, 5, b_sign, 3, y), shifted_rows(5, 3, ((3, 0), (3, 1), (0, 3))))
    return group, by_signed


def parts():
    """`$shiftx` past A's bits."""
    group = Group("PARTS_PAST_THE_WORD", ("A", "B", "Y"), OPERANDS)
    for a_sign, b_sign, y in itertools.product((0, 1), (0, 1), (2, 5)):
        moves = ((3, 1), (2, 3), (2, -1), (3, -2), (2, -4))
        group.cell("$shiftx", (a_sign, 4, b_sign, 3, y), shifted_rows(4, 3, moves))
    return group


def choices():
    mux = Group("MUX", ("A", "B", "S", "Y"), ("WIDTH",))
    mux.cell("$mux", (1,), ["0 1 0", "0 1 1"])
    mux.cell("$mux", (3,), ["101 010 0", "101 010 1", "011 110 1"])
    pmux = Group("PMUX", ("A", "B", "S", "Y"), ("S_WIDTH", "WIDTH"))
    pmux.cell("$pmux", (1, 2), ["10 01 0", "10 01 1"])
    pmux.cell("$pmux", (3, 2), ["11 100100 000", "11 100100 001", "11 100100 010", "11 100100 100"])
    pmux.cell("$pmux", (2, 3), ["111 100010 00", "111 100010 01", "111 100010 10"])
    several = Group("SEVERAL_SELECTS", ("A", "B", "S", "Y"), ("S_WIDTH", "WIDTH"))
    several.cell("$pmux", (3, 2), ["11 100100 011", "11 100100 110", "11 100100 111"])
    several.cell("$pmux", (2, 3), ["111 100010 11"])
    bmux = Group("BMUX", ("A", "S", "Y"), ("S_WIDTH", "WIDTH"))
    bmux.cell("$bmux", (1, 3), ["100010 0", "100010 1"])
    bmux.cell("$bmux", (2, 2), ["11100100 00", "11100100 01", "11100100 10", "11100100 11"])
    cut = Group("SLICE", ("A", "Y"), ("A_WIDTH", "OFFSET", "Y_WIDTH"))
    cut.cell("$slice", (5, 0, 2), ["01101"])
    cut.cell("$slice", (5, 2, 3), ["01101", "10010"])
    cut.cell("$slice", (5, 4, 1), ["01101", "10010"])
    joined = Group("CONCAT", ("A", "B", "Y"), ("A_WIDTH", "B_WIDTH"))
    joined.cell("$concat", (2, 3), ["10 011", "01 100"])
    joined.cell("$concat", (3, 1), ["110 0", "001 1"])
    return [mux, pmux, several, bmux, cut, joined]


REGISTERS = {
    "$ff": "D", "$dff": "CLK D", "$dffe": "CLK D EN", "$sdff": "CLK D SRST", "$sdffe": "CLK D EN SRST",
    "$sdffce": "CLK D EN SRST", "$adff": "ARST CLK D", "$adffe": "ARST CLK D EN",
}


PARAMETERS = {"CLK": ["CLK_POLARITY"], "EN": ["EN_POLARITY"], "D": ["WIDTH"], **RESETS}
# D, CLK, EN and the reset in each cycle
CYCLES = (("11", "0", "0", "1"), ("00", "1", "1", "0"), ("11", "0", "1", "1"), ("00", "0", "0", "0"), ("11", "1", "1", "0"))


def registers():
    """Each over five cycles, for each polarity: EN and the reset come alone, together, and not at all."""
    groups = {}
    cycles = [{"D": d, "CLK": clock, "EN": enable, "SRST": reset, "ARST": reset} for d, clock, enable, reset in CYCLES]
    for kind, ports in REGISTERS.items():
        ports = ports.split()
        parameters = sorted(name for port in ports for name in PARAMETERS[port])
        group = groups.setdefault(tuple(ports), Group("_".join(("REGISTERS", *ports)), (*ports, "Q"), parameters))
        levels = [name for name in parameters if name.endswith("POLARITY")]
        rows = [" ".join(cycle[port] for port in ports) for cycle in cycles]
        for level in itertools.product((1, 0), repeat=len(levels)):
            values = {**dict(zip(levels, level)), "SRST_VALUE": "2'01", "ARST_VALUE": "2'01", "WIDTH": 2}
            group.cell(kind, [values[name] for name in parameters], rows)
    return list(groups.values())


def sources():
    group, first = Group("SOURCES", ("Y",), ("WIDTH",)), Group("INITIAL", ("Y",), ())
    group.cell("$anyconst", (2,), ["", "", ""], ["10", "10", "10"])
    group.cell("$anyseq", (2,), ["", "", ""], ["10", "01", "11"])
    first.cell("$initstate", (), ["", "", ""], ["1", "0", "0"])
    return group, first


def flags():
    group = Group("FLAGS", ("A", "Y"), ("A_SIGNED", "A_WIDTH", "Y_WIDTH"))
    group.cell("$pos", (2, 2, 3), ["10", "01"])
    return group


def groups():
    """Groups that Yosys evaluates, and the others with what is said of each."""
    moved, by_signed = shifts()
    free, first = sources()
    mux, pmux, several, bmux, cut, joined = choices()
    by_yosys = [one_operand(), two_operands(), moved, mux, pmux, bmux, cut, joined, *registers()]
    others = {
        divisions(): "By the line alone, since Yosys has x: over zero.",
        by_signed: "By the line alone, since Yosys has no such cells: B is read without its sign.",
        parts(): "By the line alone, since Yosys has x past the word, and no signed `$shiftx`.",
        several: "By the line alone, since Yosys has x: the lowest select counts.",
        flags(): "By the line alone, since Yosys has no such flag: what isn't 0 is 1.",
        free: "By hand: one value for the run, and one in each cycle.",
        first: "By hand: the first cycle.",
    }
    return by_yosys, others


HEAD = """// Cells with worked rows, as `bench/cell_rows.py` prints them: as Yosys evaluates them, or by the cell's line of the table where Yosys has
// no value.

/// Cells that have the same ports and parameters.
#[derive(Clone, Copy)]
pub struct Cells {
    /// The ports, in the order of a row's words.
    pub inputs: &'static [&'static str],
    pub output: &'static str,
    pub parameters: &'static [&'static str],
    /// A line for each cell: its type and the values of its parameters, then a row for each cycle: the bits at the inputs and at the
    /// output, highest first.
    pub lines: &'static str,
}
"""


def quoted(names):
    return "&[" + ", ".join(f'"{name}"' for name in names) + "]"


def line_of(cell):
    rows = ", ".join(" ".join([*row, "=", out]) for row, out in zip(cell.inputs, cell.outputs))
    return " ".join([cell.kind, *cell.values]) + ": " + rows


def print_group(group, note=None):
    *inputs, output = group.ports
    lines = "\n".join(map(line_of, group.cells))
    if note:
        print(f"// {note}")
    print(f"""pub const {group.name}: Cells = Cells {{
    inputs: {quoted(inputs)},
    output: "{output}",
    parameters: {quoted(group.parameters)},
    lines: "{lines}",
}};
""")


def main():
    words = argparse.ArgumentParser(description=__doc__)
    words.add_argument("--yosys", default="yosys")
    yosys = program(words.parse_args().yosys)
    asked, others = groups()
    wrong = []
    for group in (*asked, *others):
        cells = [cell for cell in group.cells if is_asked(cell)]
        other, unsaid = differences(cells, yosys)
        wrong += other + (unsaid if group in asked else [])
    for cell, row, wanted, *said in wrong:
        print(f"{cell.kind} {cell.parameters} {row}: {wanted}, Yosys: {said}", file=sys.stderr)
    print(HEAD)
    for group in asked:
        print_group(group)
    for group, note in others.items():
        print_group(group, note)
    sys.exit(1 if wrong else 0)


if __name__ == "__main__":
    main()
