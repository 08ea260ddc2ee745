"""What is looked up in the RTLIL text that sby reads: statements and their places, ports, clocks and registers."""
import re

REGISTERS = ("$dff", "$dffe", "$sdff", "$sdffe", "$sdffce", "$adff", "$adffe", "$aldff", "$aldffe", "$dffsr", "$ff")
FREE = ("$anyconst", "$anyseq", "$allconst", "$allseq")


def unescaped(name):
    """A name without the backslash that a public one begins with."""
    return name[1:] if name.startswith("\\") else name


def names_in(signal):
    return re.findall(r"[\\$][^\s{}]+", signal)


def line_at(path, byte):
    """The number of the line that holds a byte of the text, and the line."""
    with open(path, "rb") as file:
        text = file.read()
    start = text.rfind(b"\n", 0, byte) + 1
    return text.count(b"\n", 0, byte) + 1, text[start:].split(b"\n", 1)[0].decode("utf-8", "replace").strip()


class Cell:
    def __init__(self, kind, name):
        self.kind, self.name, self.is_open = kind, name, False  # open: a multiplexer with any value where nothing is selected


class Design:
    """The one module of a flat text."""

    def __init__(self, path):
        self.top, self.sources, self.types = "top", {}, {}
        self.widths, self.inputs = {}, []
        self.clocks, self.states, self.frees, self.driven, self.same = set(), set(), set(), set(), []
        with open(path, encoding="utf-8", errors="replace") as file:
            self.read(file)
        self.frees |= set(self.widths) - set(self.inputs) - self.driven
        for _ in self.same:  # names of one wire, in chains of any length
            added = {b for a, b in self.same if a in self.clocks} | {a for a, b in self.same if b in self.clocks}
            if added <= self.clocks:
                break
            self.clocks |= added

    def read(self, file):
        source, cell = None, None
        for line in file:
            words = line.split()
            if not words:
                continue
            if words[0] == "attribute":
                if words[1] == "\\src":
                    source = line.split('"', 1)[1].rsplit('"', 1)[0].split("|")[0]
                continue
            if words[0] == "module":
                self.top = unescaped(words[1])
            elif words[0] == "wire":
                self.wire(words)
                self.sources[words[-1]] = source
            elif words[0] == "cell":
                cell = Cell(words[1], words[2])
                self.types[words[2]] = words[1]
                self.sources[words[2]] = source
            elif words[0] == "connect" and cell is None:
                self.driven.update(names_in(line.split(None, 1)[1].split("}")[0] if words[1] == "{" else words[1]))
                if len(words) == 3:
                    self.same.append((words[1], words[2]))
            elif words[0] == "connect":
                self.port(cell, words[1], line.split(None, 2)[2].strip())
            elif words[0] == "end":
                cell = None
            source = None

    def wire(self, words):
        name, width = words[-1], 1
        if "width" in words:
            width = int(words[words.index("width") + 1])
        self.widths[name] = width
        if "input" in words:
            self.inputs.append(name)

    def port(self, cell, port, signal):
        """A port of a cell. Its output comes after its inputs."""
        names = names_in(signal)
        if port == "\\CLK" and cell.kind in REGISTERS:
            self.clocks.update(names)
        elif port == "\\A" and cell.kind in ("$mux", "$pmux"):
            cell.is_open = re.fullmatch(r"\d+'x+", signal) is not None
        elif port in ("\\Q", "\\Y"):
            self.driven.update(names)
            if cell.kind in REGISTERS:
                self.states.update(names)
            if cell.kind in FREE or cell.is_open:
                self.frees.update(names)
            if cell.kind in FREE and names:  # Yosys leaves their cells without a line
                self.sources[cell.name] = self.sources.get(names[0])

    def count(self, kind):
        return sum(1 for it in self.types.values() if it == kind)

    def place(self, name):
        """Where a cell is in the source, as fifo.v:31, or its name."""
        source = self.sources.get(name)
        if source is None:
            return unescaped(name)
        found = re.match(r"(.*?):(\d+)", source)
        return f"{found.group(1)}:{found.group(2)}" if found else source


LAST_CYCLE = """  attribute \\init {width}'{zero}
  wire width {width} $asked$cycle
  wire width {width} $asked$next
  wire $asked$last
  cell $add $asked$add
    parameter \\A_SIGNED 0
    parameter \\A_WIDTH {width}
    parameter \\B_SIGNED 0
    parameter \\B_WIDTH {width}
    parameter \\Y_WIDTH {width}
    connect \\A $asked$cycle
    connect \\B {width}'{one}
    connect \\Y $asked$next
  end
  cell $ff $asked$ff
    parameter \\WIDTH {width}
    connect \\D $asked$next
    connect \\Q $asked$cycle
  end
  cell $eq $asked$eq
    parameter \\A_SIGNED 0
    parameter \\A_WIDTH {width}
    parameter \\B_SIGNED 0
    parameter \\B_WIDTH {width}
    parameter \\Y_WIDTH 1
    connect \\A $asked$cycle
    connect \\B {width}'{last}
    connect \\Y $asked$last
  end
  cell $cover $asked$cover
    connect \\A $asked$last
    connect \\EN 1'1
  end"""


def last_cycle(depth):
    """A cover statement that a run of this many cycles reaches, in its last one, and a register that counts them."""
    width = max(1, (depth - 1).bit_length())
    digits = {name: f"{value:0{width}b}" for name, value in (("zero", 0), ("one", 1), ("last", depth - 1))}
    return LAST_CYCLE.format(width=width, **digits)


def asking_for_a_run(text, depth):
    """The text with one statement in place of its assertions and cover statements: that a run of this many cycles is reached."""
    lines, skipped, pending = [], False, []
    for line in text.split("\n"):
        words = line.split()
        if words[:1] == ["attribute"] and not skipped:
            pending.append(line)
            continue
        if words[:1] == ["cell"] and words[1] in ("$assert", "$cover"):
            skipped, pending = True, []
            continue
        if skipped:
            skipped = words[:1] != ["end"]
            continue
        if line.rstrip() == "end":
            lines.append(last_cycle(depth))
        lines += pending + [line]
        pending = []
    return "\n".join(lines)
