#!/usr/bin/env python3
"""Prints docs/PROVED.md from the sources: what each crate promises, by the comments of its public contracts.

    tools/proved.py            prints the page
    tools/proved.py --check    exits with 1 where docs/PROVED.md is another page, and says so

The rule, for each crate but those of tests, of what `src/lib.rt` makes public (of a program, of all its functions):

- each law: a function without a result and without a `&mut` parameter, so that its contract is all that there is of it;
- each function one of whose `ensures` names a relation, a capitalized definition that isn't the library's;
- each method of which this holds, if it changes its object (`&mut self`);
- each trait with an `ensures`.

How many functions and methods with an `ensures` are left out is said in the crate's line. The layers are those of
docs/ARCHITECTURE.md; other crates in crates.txt, or another order, are an error.
"""
import pathlib
import re
import sys

ROOT = pathlib.Path(__file__).resolve().parent.parent
HEAD = """# What is proved

Made by `tools/proved.py` from the comments of the public contracts: run it again, don't edit this page. Every function
with a body meets its contract, as the source states it, and `rt ci` checks that from nothing. A contract says no more
than its clauses; the sentences here only say which contract is where. `THEOREM.md` leads through those that carry a
printed verdict, and says what is tested alone.

Listed are, crate by crate in the order of `ARCHITECTURE.md`: each *law*, a function that computes nothing and whose
contract is a theorem; each public function whose contract names a relation of the definitions; each public method of
which that holds, if it changes its object; and each trait with clauses. The crate's line counts the others, most of
which give a value by a function.
"""
# The library's words in clauses, which say how a result is split and not what it is.
LIBRARY = set("OnOk OnErr IfOk IsOk IsErr IsTrue IsFalse Ok Err Some None IfSome OnSome IsSome IsNone List Contains".split())


def layers():
    """Yields (layer, crates) as docs/ARCHITECTURE.md has them, without the tests."""
    table = (ROOT / "docs/ARCHITECTURE.md").read_text().split("\n## Crate by crate\n")[1]
    for part in table.split("\n| **")[1:]:
        name, _, rows = part.partition("** |")
        if name != "Tests":
            yield name, re.findall(r"^\| (\w+) \|", rows, re.M)


def sentence(text):
    """The first sentence of a comment."""
    text = re.sub(r"^A law: (\w)", lambda found: found[1].upper(), " ".join(text.split()))
    found = re.match(r"(.*?)[.:](?= [A-Z]| `|$)", text)
    return (found[1] if found else text).rstrip(".:") + "."


def main_file(crate):
    """The lib.rt of a library, the main.rt of a program."""
    source = ROOT / "crates" / crate / "src"
    return next(file for file in (source / "lib.rt", source / "main.rt") if file.exists())


def functions(text, program):
    """Yields (owner or None, name, comment, lines of signature and clauses) of a file's functions: public ones, or all."""
    owner, comment, lines = None, [], text.split("\n")
    for at, line in enumerate(lines):
        if found := re.match(r"impl(?:<.*?>)? (\w+)", line):
            owner = None if " for " in line else found[1]
        elif line == "}":
            owner = None
        if found := re.match(r"\s*(?:///|// )(.*)", line):
            comment.append(found[1])
            continue
        if found := re.match(r"pub trait (\w+)", line):
            yield None, found[1], " ".join(comment), lines[at : lines.index("}", at)]
        if found := re.match(r"(\s*)" + ("" if program else "pub ") + r"(?:const )?fn (\w+)", line):
            end = next(k for k in range(at, len(lines)) if re.fullmatch(found[1] + r"(\{(\})?|\S.* \{(\})?)", lines[k]))
            if not found[1] or owner:
                yield owner, found[2], " ".join(comment), lines[at : end + 1]
        if not re.match(r"\s*#\[", line):
            comment = []


def listed(owner, lines):
    """Whether a function is a law, is listed as a function, or is one of those that are counted; None without `ensures`."""
    text = "\n".join(lines)
    clauses = re.findall(r"^\s*ensures.*(?:\n(?!\s*(?:ensures|requires|\{)).*)*", text, re.M)
    if not clauses:
        return None
    if lines[0].startswith("pub trait"):
        return "trait"
    signature = re.split(r"\n\s*(?:ensures|requires)\b", text)[0]
    if "->" not in signature and "&mut" not in signature:
        return "law"
    words = set(re.findall(r"(?<![.\w])[A-Z]\w*(?![.\w])", " ".join(clauses))) - LIBRARY
    return "function" if words and (not owner or "&mut self" in signature) else "counted"


def crate_part(crate):
    """The lines of a crate."""
    top = main_file(crate)
    text = top.read_text()
    names = set(re.findall(r"\w+", " ".join(re.findall(r"^pub use ([^;]*);", text, re.M))))
    modules = set(re.findall(r"^pub mod (\w+);", text, re.M))
    lines, counted = [], 0
    for file in sorted(top.parent.rglob("*.rt")):
        where = file.relative_to(top.parent)
        for owner, name, comment, body in functions(file.read_text(), top.name == "main.rt"):
            if file != top and where.parts[0].removesuffix(".rt") not in modules and (owner or name) not in names:
                continue
            kind = listed(owner, body)
            counted += kind == "counted"
            if kind in ("law", "trait", "function"):
                module = where.parts[0].removesuffix(".rt")
                path = "::".join([module] * (module in modules) + [owner] * bool(owner) + [name])
                word = f"{f'*{kind}* ' * (kind != 'function')}[`{path}`](../crates/{crate}/src/{where})"
                lines.append(f"  - {word}: {sentence(comment)}" if comment else f"  - {word}")
    about = sentence(" ".join(line[3:] for line in re.findall(r"^//!.*", text, re.M)))
    more = f" ({'and ' * bool(lines)}{counted} {'more' if lines else 'function' + 's' * (counted > 1)})" if counted else ""
    return "\n".join([f"- **{crate}**: {about.rstrip('.')}{more}."] + lines)


def page():
    """The whole page; ends the program where crates.txt and docs/ARCHITECTURE.md have other crates, or another order."""
    parts = [(layer, crates) for layer, crates in layers()]
    there = re.findall(r"^(\w+):", (ROOT / "crates.txt").read_text(), re.M)
    wanted = [crate for crate in there if not crate.endswith("_tests") and crate not in ("test_designs", "run_scenes")]
    named = [crate for _, crates in parts for crate in crates]
    if wanted != named:
        sys.exit(f"crates.txt and docs/ARCHITECTURE.md differ in {', '.join(sorted(set(wanted) ^ set(named))) or 'their order'}")
    told = [f"## {layer}\n\n" + "\n".join(map(crate_part, crates)) + "\n" for layer, crates in parts]
    return "\n".join([HEAD, *told])


def main():
    if sys.argv[1:] not in ([], ["--check"]):
        sys.exit(__doc__)
    made = page()
    if not sys.argv[1:]:
        sys.stdout.write(made)
    elif (ROOT / "docs/PROVED.md").read_text() != made:
        sys.exit("docs/PROVED.md isn't what tools/proved.py prints: tools/proved.py > docs/PROVED.md")


if __name__ == "__main__":
    main()
