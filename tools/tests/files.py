"""Task files of the tests: ordinary ones with their statuses, and those that are refused."""
import designs as d


def sby_file(options, script="read -formal top.v\nprep -top top", engines="smtbmc", files="top.v", tasks=""):
    front = f"[tasks]\n{tasks}\n\n" if tasks else ""
    return f"{front}[options]\n{options}\n\n[engines]\n{engines}\n\n[script]\n{script}\n\n[files]\n{files}\n"


# Ordinary files: a name, the design, the file, the wanted status of each work folder, and the exit status.
TABLE = [
    ("bmc_pass", d.counter(9), sby_file("mode bmc\ndepth 9"), {"x": "PASS"}, 0),
    ("bmc_fail", d.counter(9), sby_file("mode bmc\ndepth 12"), {"x": "FAIL"}, 2),
    ("expected_fail", d.counter(9), sby_file("mode bmc\ndepth 12\nexpect fail"), {"x": "FAIL"}, 0),
    ("pass_not_expected", d.counter(9), sby_file("mode bmc\ndepth 9\nexpect fail"), {"x": "PASS"}, 1),
    ("prove_pass", d.counter(16), sby_file("mode prove\ndepth 2"), {"x": "PASS"}, 0),
    ("prove_unknown", d.DEEP, sby_file("mode prove\ndepth 2"), {"x": "UNKNOWN"}, 4),
    ("expected_unknown", d.DEEP, sby_file("mode prove\ndepth 2\nexpect unknown,fail"), {"x": "UNKNOWN"}, 0),
    ("prove_fail", d.counter(3), sby_file("mode prove\ndepth 6"), {"x": "FAIL"}, 2),
    ("cover_pass", d.counter(9), sby_file("mode cover\ndepth 6"), {"x": "PASS"}, 0),
    ("cover_fail", d.counter(9), sby_file("mode cover\ndepth 2"), {"x": "FAIL"}, 2),
    ("timeout", d.HARD, sby_file("mode bmc\ndepth 1\ntimeout 1"), {"x": "TIMEOUT"}, 8),
    ("skip", d.counter(3), sby_file("mode bmc\ndepth 12\nskip 4"), {"x": "FAIL"}, 2),
    ("stride", d.counter(9), sby_file("mode bmc\ndepth 12\nstride 1"), {"x": "FAIL"}, 2),
    ("memory", d.MEMORY.replace("BUG", ""), sby_file("mode bmc\ndepth 5"), {"x": "PASS"}, 0),
    ("memory_bug", d.MEMORY.replace("BUG", "+ (last == 9)"), sby_file("mode bmc\ndepth 5"), {"x": "FAIL"}, 2),
    ("fifo", d.FIFO, sby_file("mode bmc\ndepth 8", "read -formal -DGUARD top.v\nprep -top fifo"), {"x": "PASS"}, 0),
    ("fifo_unguarded", d.FIFO, sby_file("mode bmc\ndepth 8", "read -formal top.v\nprep -top fifo"), {"x": "FAIL"}, 2),
    ("hierarchy", d.HIERARCHY, sby_file("mode bmc\ndepth 6"), {"x": "FAIL"}, 2),
    ("unflattened", d.HIERARCHY, sby_file("mode bmc\ndepth 3", "read_verilog -formal -sv top.v\nhierarchy -top top"), {"x": "PASS"}, 0),
    ("no_top", d.HIERARCHY, sby_file("mode bmc\ndepth 6", "read -formal top.v"), {"x": "FAIL"}, 2),
    ("generated", d.GENERATED, sby_file("mode bmc\ndepth 3"), {"x": "FAIL"}, 2),
    ("async_reset", d.RESET, sby_file("mode prove\ndepth 2"), {"x": "PASS"}, 0),
    ("two_clocks", d.CLOCKS, sby_file("mode bmc\ndepth 4\nmulticlock on"), {"x": "FAIL"}, 2),
    ("two_clocks_memory", d.CLOCK_MEMORY.replace("BUG", ""), sby_file("mode bmc\ndepth 3\nmulticlock on"), {"x": "PASS"}, 0),
    ("two_clocks_memory_bug", d.CLOCK_MEMORY.replace("BUG", "+ (last == 9)"), sby_file("mode bmc\ndepth 3\nmulticlock on"), {"x": "FAIL"}, 2),
    ("tristate", d.TRISTATE, sby_file("mode prove\ndepth 2"), {"x": "PASS"}, 0),
    ("lone_tristate", d.LONE, sby_file("mode bmc\ndepth 2"), {"x": "FAIL"}, 2),
    ("inout", d.INOUT.replace("CLAIM", "!drove || seen == last"), sby_file("mode prove\ndepth 1"), {"x": "PASS"}, 0),
    ("inout_bug", d.INOUT.replace("CLAIM", "seen == 0 || seen == last"), sby_file("mode bmc\ndepth 3"), {"x": "FAIL"}, 2),
    ("blackbox", d.BLACKBOX, sby_file("mode bmc\ndepth 6"), {"x": "FAIL"}, 2),
    ("undriven", d.UNDRIVEN, sby_file("mode bmc\ndepth 4"), {"x": "FAIL"}, 2),
    ("free_values", d.FREE, sby_file("mode bmc\ndepth 8"), {"x": "FAIL"}, 2),
    ("latch", d.LATCH, sby_file("mode bmc\ndepth 4"), {"x": "PASS"}, 0),
    ("liveness", d.LIVE, sby_file("mode bmc\ndepth 4"), {"x": "PASS"}, 0),
    ("several_engines", d.counter(9), sby_file("mode bmc\ndepth 9", engines="smtbmc --syn z3\nbtor btormc\nabc bmc3"), {"x": "PASS"}, 0),
    ("engines_of_modes", d.counter(9), sby_file("mode cover\ndepth 6", engines="itp\n\n[engines cover]\nsmtbmc"), {"x": "PASS"}, 0),
    ("own_lines", d.counter(9), sby_file("mode bmc\ndepth 9", engines="sat --conflicts 100000"), {"x": "PASS"}, 0),
    ("dropped_options", d.counter(9), sby_file("mode bmc\ndepth 9\nappend 3\ntbtop top\nvcd off"), {"x": "PASS"}, 0),
    ("parameters", d.PARAMETER,
     sby_file("mode bmc\ndepth 8", "read -formal top.v\nwide: chparam -set LIMIT 4 top\nprep -top top", tasks="narrow\nwide"),
     {"x_narrow": "FAIL", "x_wide": "PASS"}, 2),
    ("tags_and_blocks", d.counter(9),
     sby_file("bounded:\nmode bmc\nshort: depth 9\n~short: depth 12\n--\nseen: mode cover\nseen: depth 5", tasks="a bounded short\nb bounded\nseen"),
     {"x_a": "PASS", "x_b": "FAIL", "x_seen": "PASS"}, 2),
    ("patterns_and_default", d.counter(9),
     sby_file("mode bmc\nshort: depth 9\nlong: depth 12", tasks="run_a short\nrun_b\nrun_c\nrun_a : default\nrun_[bc] : long"),
     {"x_run_a": "PASS"}, 0),
    ("patterns_before_names", d.counter(9),
     sby_file("mode bmc\nlong: depth 12\n~long: depth 9", tasks="run_[bc] long default\nrun_a\nrun_b\nrun_b: all"), {"x_run_b": "FAIL"}, 2),
    ("python_blocks", d.counter(9),
     "--pycode-begin--\noutput('[tasks]')\nfor n in (9, 12):\n    output(f'd{n} all')\n--pycode-end--\n"
     + sby_file("mode bmc\n--pycode-begin--\nif 'all' in tags: output('depth ' + task[1:])\n--pycode-end--"),
     {"x_d9": "PASS", "x_d12": "FAIL"}, 2),
]

# Engines of SymbiYosys, and what sby_yosys says of them in mode bmc.
ENGINES = {
    "smtbmc": "becomes sat, whose proofs sby checks",
    "smtbmc --presat --unroll boolector": "becomes sat, whose proofs sby checks",
    "abc bmc3": "becomes sat, whose proofs sby checks",
    "abc sim3 -F 10": "becomes sat, whose proofs sby checks",
    "abc pdr": "becomes sat, whose proofs sby checks",
    "aiger suprove": "becomes sat, whose proofs sby checks",
    "aiger avy": "becomes sat, whose proofs sby checks",
    "aiger aigbmc": "becomes sat, whose proofs sby checks",
    "btor btormc": "becomes",
    "btor pono": "becomes",
}

# What is refused: a task file, and a part of what is said.
REFUSED = [
    *((sby_file(f"mode {mode}\ndepth 3"), f"mode {mode} isn't served: bmc, prove and cover are") for mode in ("live", "prep", "equiv")),
    (sby_file("depth 3"), "the task has no mode"),
    (sby_file("mode bmc\nfancy 1"), "option fancy isn't served"),
    (sby_file("mode bmc\nsmtc x.smtc"), "option smtc isn't served: a verdict without its constraints would be about something else"),
    (sby_file("mode cover\ncover_assert on"), "option cover_assert isn't served: assertions don't end a run of mode cover"),
    (sby_file("mode bmc\ndepth"), "an option without a value: depth"),
    (sby_file("mode bmc\ndepth many"), "option depth isn't a number"),
    (sby_file("mode bmc\nexpect good"), "option expect names no status: good"),
    (sby_file("mode bmc\nshort: depth 3", tasks="long"), "short: is no task and no tag"),
    (sby_file("mode bmc", engines="magic"), "engine magic isn't known"),
    *((sby_file(f"mode {mode}", engines=engine), f"no engine of the task is served: {engine}")
      for mode in ("bmc", "prove", "cover") for engine in ("itp", "none")),
    (sby_file("mode bmc", engines=""), "the task has no engine"),
    (sby_file("mode bmc", script=""), "the task has no script"),
    (sby_file("mode bmc", files="missing.v"), "there is no file missing.v"),
    (sby_file("mode bmc", files="a b c"), "a line of [files] has more than two words: a b c"),
    (sby_file("mode bmc", "read -formal top.v\nprep -top nothing"), "yosys: ERROR: Module `nothing' not found!"),
    (sby_file("mode bmc") + "[autotune]\n", "[autotune] isn't served"),
    ("mode bmc\n" + sby_file("mode bmc"), "words before any section: mode bmc"),
    (sby_file("mode bmc", tasks="a(b\nb"), "a(b is no pattern"),
    ("--pycode-begin--\noutput(1 / 0)\n--pycode-end--\n" + sby_file("mode bmc"), "a Python block fails: division by zero"),
    ("--pycode-begin--\n", "a Python block isn't ended"),
]

# Designs that sby or Yosys refuses: the options, what is said of the place, and a script if it isn't the ordinary one.
PREP = "read -formal top.v\nprep -top top"
REFUSED_DESIGNS = [
    (d.POWER, "mode bmc\ndepth 3", "$pow at top.v:4 isn't served (UnknownCell): no pass takes powers away"),
    (d.ALL_VALUES, "mode bmc\ndepth 3", "$allconst at top.v:3 isn't served"),
    (d.ALL_CYCLES, "mode bmc\ndepth 3", "$allseq at top.v:3 isn't served (LeftOut): quantifiers over all values aren't served"),
    (d.UNSTARTED, "mode bmc\ndepth 3", "$anyinit at top.v:5 isn't served (UnknownCell): formalff -anyinit2ff in the script takes it away",
     f"{PREP}\nformalff -clk2ff -ff2anyinit"),
    (d.UNSTARTED, "mode bmc\ndepth 3", "$_DFF_P_ at top.v:5 isn't served (LeftOut): gates aren't read: leave simplemap, techmap and abc out of the script",
     f"{PREP}\nsimplemap"),
    (d.STARTS_TWICE, "mode bmc\ndepth 3", "yosys: ERROR: Conflicting init values for signal \\q"),
    (d.CLOCKS, "mode bmc\ndepth 3", "$dff at top.v:4 and another register have different clocks or edges: option multiclock on takes several"),
    (d.LOOP, "mode bmc\ndepth 3", "$and at top.v:4 is on a loop of combinational cells"),
    (d.DRIVEN_TWICE, "mode bmc\ndepth 3", "wire y at top.v:2 is driven twice"),
    (d.WIDE, "mode bmc\ndepth 3", "$add at top.v:3 is too wide: arithmetic and orders have at most 128 bits"),
    (d.EMPTY, "mode bmc\ndepth 3", "Yosys left no module: is it the right top?"),
]
