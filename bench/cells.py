"""Small designs at random, each with a cell of one type at random widths, free inputs, registers and statements."""
from rtlil import Module, bits

UNARY = ("not", "pos", "neg", "reduce_and", "reduce_or", "reduce_xor", "reduce_xnor", "reduce_bool", "logic_not")
ONE_SIGN = ("and", "or", "xor", "xnor", "add", "sub", "mul", "div", "mod", "eq", "ne", "eqx", "nex", "lt", "le", "gt", "ge")
TWO_SIGNS = ("logic_and", "logic_or", "shl", "sshl", "shr", "sshr", "shift", "shiftx")
SHIFTS = TWO_SIGNS[2:]
HARD = ("mul", "div", "mod")
PLACES = ("mux", "pmux", "bmux", "slice", "concat")
REGISTERS = ("ff", "dff", "dffe", "sdff", "sdffe", "sdffce", "adff", "adffe")
FREE = ("anyconst", "anyseq", "initstate")
COMBINATIONAL = UNARY + ONE_SIGN + TWO_SIGNS + PLACES + FREE
KINDS = COMBINATIONAL + REGISTERS


class Machine(Module):
    """Wires that may be read so far, with their widths; a cell reads earlier ones, so there is no loop."""

    def __init__(self, dice):
        super().__init__()
        self.dice, self.pool, self.inputs, self.subject = dice, [], [], []

    def put(self, width, digits=None):
        """A wire that others may read; digits: those it starts with."""
        if digits:
            self.parts.append(f"attribute \\init {width}'{digits}\n")
        self.pool.append((self.wire(width), width))
        return self.pool[-1][0]

    def digits(self, width, letters):
        return "".join(self.dice.choice(letters) for _ in range(width))

    def part(self, width, pool):
        """A whole wire or part of one, a constant, or bits from here and there."""
        dice = self.dice
        wide = [it for it in pool if it[1] >= width]
        way = dice.random()
        if not pool or way < 0.12:
            return f"{width}'{self.digits(width, '0011x' if dice.random() < 0.2 else '01')}"
        if wide and way < 0.8:
            name, most = dice.choice(wide)
            low = dice.randint(0, most - width)
            return name if most == width else f"{name} [{low}]" if width == 1 else f"{name} [{low + width - 1}:{low}]"
        return "{ " + " ".join(dice.choice(bits(*dice.choice(pool))) for _ in range(width)) + " }"

    def signal(self, width, pool=None):
        pool, dice = self.pool if pool is None else pool, self.dice
        if width == 1 or dice.random() < 0.7:
            return self.part(width, pool)
        at = dice.randrange(1, width)
        return f"{{ {self.part(at, pool)} {self.part(width - at, pool)} }}"

    def size(self, kind=""):
        """A width; sometimes a larger one, but not where solvers find that hard."""
        return self.dice.randint(7, 40) if self.dice.random() < 0.08 and kind not in HARD else self.dice.randint(1, 5)

    def combinational(self, kind):
        dice, a, b, y = self.dice, self.size(kind), self.size(kind), self.size(kind)
        if kind in UNARY:
            self.cell(kind, {"A_SIGNED": dice.randrange(2), "A_WIDTH": a, "Y_WIDTH": y}, {"A": self.signal(a), "Y": self.put(y)})
        elif kind in ONE_SIGN or kind in TWO_SIGNS:
            if kind in SHIFTS and dice.random() < 0.7:
                b = dice.randint(1, 3)
            signs = [dice.randrange(2)] * 2 if kind in ONE_SIGN else [dice.randrange(2), dice.randrange(2)]
            self.cell(kind, {"A_SIGNED": signs[0], "A_WIDTH": a, "B_SIGNED": signs[1], "B_WIDTH": b, "Y_WIDTH": y},
                      {"A": self.signal(a), "B": self.signal(b), "Y": self.put(y)})
        elif kind in ("mux", "pmux", "bmux"):
            self.choice(kind, a, dice.randint(1, 4))
        elif kind == "slice":
            low = dice.randint(0, a - 1)
            y = dice.randint(1, a - low)
            self.cell(kind, {"OFFSET": low, "A_WIDTH": a, "Y_WIDTH": y}, {"A": self.signal(a), "Y": self.put(y)})
        elif kind == "concat":
            self.cell(kind, {"A_WIDTH": a, "B_WIDTH": b}, {"A": self.signal(a), "B": self.signal(b), "Y": self.put(a + b)})
        else:
            self.cell(kind, {} if kind == "initstate" else {"WIDTH": y}, {"Y": self.put(1 if kind == "initstate" else y)})

    def choice(self, kind, width, selects):
        if kind == "bmux":
            selects = min(selects, 3)
            parameters, ports = {"S_WIDTH": selects}, {"A": self.signal(width << selects)}
        elif kind == "pmux":
            parameters, ports = {"S_WIDTH": selects}, {"A": self.signal(width), "B": self.signal(width * selects)}
        else:
            parameters, ports, selects = {}, {"A": self.signal(width), "B": self.signal(width)}, 1
        self.cell(kind, {"WIDTH": width, **parameters}, {**ports, "S": self.signal(selects), "Y": self.put(width)})

    def register(self, kind, q, width, pool):
        dice, parameters, ports = self.dice, {"WIDTH": width}, {"D": self.signal(width, pool), "Q": q}
        if kind != "ff":
            parameters["CLK_POLARITY"], ports["CLK"] = 1, self.clock
        if kind in ("dffe", "sdffe", "sdffce", "adffe"):
            parameters["EN_POLARITY"], ports["EN"] = dice.randrange(2), self.signal(1)
        if kind.startswith("sdff"):
            parameters["SRST_POLARITY"], ports["SRST"] = dice.randrange(2), self.signal(1)
            parameters["SRST_VALUE"] = f"{width}'{self.digits(width, '0011x' if dice.random() < 0.2 else '01')}"
        if kind.startswith("adff"):  # shows at once, so a value that depends on registers could make a loop
            parameters["ARST_POLARITY"], ports["ARST"] = dice.randrange(2), self.signal(1, self.inputs)
            parameters["ARST_VALUE"] = f"{width}'{self.digits(width, '01')}"
        self.cell(kind, parameters, ports)

    def statement(self, kind, start=None):
        """About some bits, that they are or aren't a constant, mostly bits of the cell that the design is around. Where all of them
        start as one digit, the constant has the other one."""
        dice = self.dice
        width = dice.choice([1, 1, 2, 3] if start else [1, 2, 3, 4])
        said = self.signal(width, self.subject if start or dice.random() < 0.7 else self.pool)
        digits = self.digits(width, "01")
        if start == digits[0] and len(set(digits)) == 1:
            digits = digits[1:] + ("1" if start == "0" else "0")
        if width > 1 or start:
            is_equal = kind == "cover" if start else dice.random() < 0.5
            said = self.op("eq" if is_equal else "ne", said, f"{width}'{digits}", width=width)
        self.cell(kind, {}, {"A": said, "EN": "1'1" if dice.random() < 0.7 else self.signal(1)})


def design(kind, dice, goal, cells=0):
    """A design around a cell of this kind, with this many others beside it; goal: assert or cover. In some the statements are about a
    register that starts as one digit and takes what the cell gives, so that runs have several cycles."""
    m, start = Machine(dice), dice.choice(["0", "1", None])
    for _ in range(dice.randint(1, 3)):
        m.put(m.size())
    m.inputs = list(m.pool)
    states = []
    for i in range(dice.randint(1, 2)):
        it = kind if kind in REGISTERS and i == 0 else dice.choice(REGISTERS)
        width = dice.randint(2, 5) if start else m.size()
        first = start if i == 0 and start else dice.choice(["0", "01", "01x", None])
        states.append((it, m.put(width, first and m.digits(width, first)), width))
    for it in [dice.choice(COMBINATIONAL) for _ in range(cells)] + ([kind] if kind in COMBINATIONAL else []):
        m.combinational(it)
    for it in states:
        m.register(*it, m.pool[-1:] if start and dice.random() < 0.7 else m.pool)
    m.subject = [it[1:] for it in states[:1]] if start or kind in REGISTERS else m.pool[-1:]
    if dice.random() < 0.3:
        m.statement("assume")
    for _ in range(1 if goal == "cover" else dice.randint(1, 3)):
        m.statement(goal, start)
    return m
