"""A SymbiYosys file, read for one task."""
import os
import re
import shutil

# What a prefix of a line may look like, and what makes a word of [tasks] a pattern.
PREFIX = re.compile(r"(~?)([^\s:~]+):\s*(.*)")
PATTERN = re.compile(r"[(?*.\[\]|)]")

STATUSES = ("PASS", "FAIL", "UNKNOWN", "ERROR", "TIMEOUT")
MODES = ("bmc", "prove", "cover")

# Options that sby has too, and those that change nothing here, since sby plays and checks each run itself.
KEPT = ("mode", "depth", "skip", "stride", "timeout", "expect", "wait", "multiclock", "by")
DROPPED = {
    "append": "runs end in the cycle that they are about",
    "append_assume": "no cycles are appended",
    "tbtop": "the testbench names the design's top",
    "vcd": "a trace is written wherever there is a run",
    "vcd_sim": "traces are checked by sby itself",
    "fst": "traces are VCD",
    "aigsmt": "runs are played by sby itself",
    "aigvmap": "there is no AIGER file",
    "aigfolds": "there is no AIGER file",
    "aigsyms": "there is no AIGER file",
    "make_model": "one model serves all",
    "assume_early": "assumptions count in the cycle in which they stand",
    "cycle_width": "a cycle has ten units of time",
    "witrename": "there is no witness file",
    "diagnostics": "sby says what it did",
    "skip_prep": "sby needs the preparation",
}
# Options whose loss would change what a verdict says.
UNSERVED = {
    "smtc": ": a verdict without its constraints would be about something else",
    "cover_assert": ": assertions don't end a run of mode cover",
}


class Refused(Exception):
    """What can't be run, in a sentence."""


def outputs_of(code, task, tags):
    """The lines that a Python block gives, for a task and its tags."""
    lines = []
    scope = {"task": task, "tags": set(tags), "output": lambda text: lines.extend(str(text).split("\n"))}
    try:
        exec(compile(code, "--pycode-begin--", "exec"), scope)
    except Exception as fault:
        raise Refused(f"a Python block fails: {fault}")
    return lines


def fits(word, task):
    """Whether a first word of [tasks], a name or a pattern, speaks of the task."""
    try:
        return word == task or bool(PATTERN.search(word) and re.fullmatch(word, task))
    except re.error as fault:
        raise Refused(f"{word} is no pattern: {fault}")


class Reader:
    """The lines of a file that hold for a task. Prefixes and Python blocks are resolved as SymbiYosys does it."""

    def __init__(self, task):
        self.task, self.active, self.all = task, set(), set()
        self.names, self.lines = [], []
        self.by_default = []  # words of [tasks] with the tag default, names or patterns
        self.in_tasks = False
        self.is_block = self.is_skipped = False

    def add_tasks(self, line):
        words = line.split("#")[0].split()
        if not words:
            return
        if ":" in words:
            at = words.index(":")
            names, tags = words[:at], words[at + 1 :]
        elif words[0].endswith(":"):
            names, tags = [words[0][:-1]], words[1:]
        else:
            names, tags = words[:1], words[1:]
        self.all |= set(tags) - {"default"}
        for name in names:
            if not PATTERN.search(name) and name not in self.names:
                self.names.append(name)
                self.all.add(name)
            if "default" in tags:
                self.by_default.append(name)
            if self.task is not None and fits(name, self.task):
                self.active |= {self.task, *tags} - {"default"}

    def defaults(self):
        return [it for it in self.names if any(fits(word, it) for word in self.by_default)]

    def holds(self, line):
        """The rest of a line if it holds for the task, else None. A tag alone begins a block, which `--` ends."""
        if self.is_block and line == "--":
            self.is_block = self.is_skipped = False
            return None
        found = PREFIX.fullmatch(line)
        if found and found.group(2) in self.all:
            is_active = (found.group(2) in self.active) != (found.group(1) == "~")
            if found.group(3) == "":
                self.is_block, self.is_skipped = True, not is_active
                return None
            return found.group(3) if is_active and not self.is_skipped else None
        return None if self.is_skipped else line

    def line(self, line):
        if self.in_tasks and line.startswith("["):
            self.in_tasks = False
        if self.in_tasks:
            self.add_tasks(line)
            return
        line = self.holds(line)
        if line is None:
            return
        if line.strip() == "[tasks]":
            self.in_tasks = True
            return
        self.lines.append(line)

    def read(self, text):
        code = None
        for line in text.split("\n"):
            line = line.rstrip("\r")
            if code is not None:
                if line == "--pycode-end--":
                    for given in outputs_of("\n".join(code) + "\n", self.task, self.active):
                        self.line(given)
                    code = None
                else:
                    code.append(line)
            elif line == "--pycode-begin--":
                code = []
            else:
                self.line(line)
        if code is not None:
            raise Refused("a Python block isn't ended")
        return self


def tasks_of(text, path):
    """The names of all tasks, and of the default ones."""
    found = Reader(None).read(text)
    return found.names, found.defaults()


class Task:
    """What holds for one task: options, engine words, script, files to copy, files with content."""

    def __init__(self, name, path):
        self.name, self.folder = name, os.path.dirname(path)
        self.base = "stdin" if path == "-" else os.path.basename(path).removesuffix(".sby")
        self.options, self.engines, self.script = {}, [], []
        self.files, self.contents, self.changes = [], {}, []
        self.engine_modes = {}

    def mode(self):
        return self.options["mode"]

    def expected(self):
        return [it.upper() for it in self.options.get("expect", "pass").split(",")]

    def depth(self):
        return int(self.options.get("depth", "20"))

    def is_multiclock(self):
        """Whether clocks are signals of the run itself."""
        return self.options.get("multiclock", "off") == "on"

    def dump(self):
        """The task as a SymbiYosys file of its own."""
        lines = ["[options]", *(f"{it} {value}" for it, value in self.options.items()), "", "[engines]"]
        lines += [*(" ".join(it) for it in self.engines), "", "[script]", *self.script, "", "[files]"]
        lines += [source if name == os.path.basename(source) else f"{name} {source}" for name, source in self.files]
        for name, content in self.contents.items():
            lines += ["", f"[file {name}]", content.rstrip("\n")]
        return "\n".join(lines) + "\n"


def add_line(task, section, line):
    """One line of a section that holds for the task."""
    if section[0] == "file":
        task.contents[section[1]] += line + "\n"
        return
    line = line.strip()
    if not line or line.startswith("#"):
        return
    if section[0] != "script" and line.split()[0].endswith(":"):
        raise Refused(f"{line.split()[0]} is no task and no tag")
    if section[0] == "options":
        words = line.split(None, 1)
        if len(words) != 2:
            raise Refused(f"an option without a value: {line}")
        task.options[words[0]] = words[1].split(" #")[0].strip()
    elif section[0] == "engines":
        words = line.split(" #")[0].split()
        task.engine_modes.setdefault(section[1], []).append(words)
    elif section[0] == "script":
        task.script.append(line)
    elif section[0] == "files":
        words = line.split(" #")[0].split()
        if len(words) > 2:
            raise Refused(f"a line of [files] has more than two words: {line}")
        task.files.append((words[0], words[1]) if len(words) == 2 else (os.path.basename(words[0]), words[0]))


def section_of(task, header):
    """What a header begins."""
    words = header.split()
    if len(words) == 2 and words[0] == "file":
        task.contents[words[1]] = ""
        return ("file", words[1])
    if words[:1] == ["engines"] and len(words) <= 2:
        return ("engines", words[1] if len(words) == 2 else "")
    if words in (["options"], ["script"], ["files"]):
        return (words[0], "")
    raise Refused(f"[{header}] isn't served")


def serve_options(task):
    """Takes the options that sby has; says of the others why they change nothing, and refuses those that would."""
    for name in list(task.options):
        value = task.options[name]
        if name in DROPPED:
            del task.options[name]
            if value not in (("on",) if name == "vcd" else ("0", "off", "none")):
                task.changes.append(f"option {name} {value} is left out: {DROPPED[name]}")
        elif name == "cover_assert" and value == "off":
            del task.options[name]
        elif name not in KEPT:
            raise Refused(f"option {name} isn't served" + UNSERVED.get(name, ""))
    mode = task.options.get("mode")
    if mode is None:
        raise Refused("the task has no mode")
    if mode not in MODES:
        raise Refused(f"mode {mode} isn't served: bmc, prove and cover are")
    for name in ("skip", "stride") if mode != "bmc" else ():
        if task.options.pop(name, "0") != "0":
            task.changes.append(f"option {name} is left out: it has no meaning in mode {mode}")
    for name in ("depth", "skip", "stride", "timeout"):
        if name in task.options and not task.options[name].isdecimal():
            raise Refused(f"option {name} isn't a number: {task.options[name]}")
    for status in task.expected():
        if status not in STATUSES:
            raise Refused(f"option expect names no status: {status.lower()}")
    if task.is_multiclock():
        double(task)


def double(task):
    """With several clocks a cycle of the design is two steps of the run."""
    task.options["depth"] = str(2 * task.depth())
    task.changes.append(f"depth is {task.depth()}: with several clocks each cycle is half a clock")
    if int(task.options.get("skip", "0")):
        task.options["skip"] = str(2 * int(task.options["skip"]))
        task.changes.append(f"skip is {task.options['skip']}: it is doubled as depth is")


def word_engine(words, mode, depth):
    """The engine lines for a program that reads BTOR2, and what is said of them. It shows runs alone, so sat stands beside those of
    SymbiYosys, which get the bound that they get there."""
    line, last = " ".join(words), str(depth - 1)
    bounds = {"btormc": ["-kmax", last], "pono": ["--witness", "-k", last, "-e", "bmc"]}
    if mode == "prove":
        return ["sat"], f"engine {line} becomes sat: it shows runs alone, and mode prove needs a proof"
    if len(words) < 2 or not shutil.which(words[1]):
        return ["sat"], f"engine {line} becomes sat: its program isn't in the path"
    if words[1] not in bounds:
        return [line], None
    bounded = " ".join(["btor", words[1], *bounds[words[1]], *words[2:]])
    return [bounded, "sat"], f"engine {line} becomes {bounded}, and sat beside it: it shows runs alone"


def without_options(words):
    """An engine, and which of its kind."""
    return [it for it in words if not it.startswith("-")]


def served_engine(words, mode, depth, by):
    """The engine lines of sby for one of SymbiYosys's, and what is said of them."""
    line, [name, *kind] = " ".join(words), without_options(words) or [""]
    if name in ("sat", "drup", "lrat", "proof", "proofb", "inv"):
        return [line], None
    if name == "btor":
        return word_engine(words, mode, depth)
    if name == "abc" and kind[:1] == ["pdr"] and by == "invariant":
        return ["inv pdr_program", "sat"], f"engine {line} becomes inv pdr_program with option by invariant, and sat beside it, which finds runs"
    if name in ("smtbmc", "aiger") or (name == "abc" and kind[:1] in (["bmc3"], ["sim3"], ["pdr"])):
        return ["sat"], f"engine {line} becomes sat, whose proofs sby checks"
    if name in ("itp", "none"):
        return [], f"engine {line} is left out: sby has nothing like it"
    raise Refused(f"engine {line} isn't known")


def serve_engines(task):
    """The engine lines, each once. An invariant is sought where abc pdr would seek one, unless the file says how to prove."""
    lines = task.engine_modes.get(task.mode(), []) + task.engine_modes.get("", [])
    if not lines:
        raise Refused("the task has no engine")
    if task.mode() == "prove" and any(without_options(words)[:2] == ["abc", "pdr"] for words in lines):
        task.options.setdefault("by", "invariant")
    found = []
    for words in lines:
        served, said = served_engine(words, task.mode(), task.depth(), task.options.get("by", "induction"))
        if said:
            task.changes.append(said)
        found += [line for line in served if line not in found]
    if not found:
        raise Refused("no engine of the task is served: " + ", ".join(" ".join(words) for words in lines))
    task.engines = [it.split() for it in found]


def task_of(text, name, path):
    """The task of this name (None: of a file without tasks)."""
    task, section = Task(name, path), None
    for line in Reader(name).read(text).lines:
        header = re.fullmatch(r"\s*\[\s*([^\]]*?)\s*\]\s*", line)
        if header and not (section and section[0] == "file" and not line.startswith("[")):
            section = section_of(task, header.group(1))
        elif section is None:
            if line.strip() and not line.strip().startswith("#"):
                raise Refused(f"words before any section: {line.strip()}")
        else:
            add_line(task, section, line)
    serve_options(task)
    serve_engines(task)
    if not task.script:
        raise Refused("the task has no script")
    return task
