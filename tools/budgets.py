#!/usr/bin/env python3
"""budgets.py: whether the repository keeps the budgets of CONTRIBUTING.md, and whether each crate stands on what its group may stand on.

The groups are those of crates.txt: a line `# NAME, on OTHERS: what it is` begins one. Run it at the top. It prints what is out of
bounds, and ends with status 1 where something is. It takes a second and proves nothing.
"""
import glob
import os
import re
import sys

FUNCTIONS, LINES, CHAIN, EDITS, ALL_EDITS, TESTS = 100, 800, 15, 8, 90, 40
PROGRAM = "mscjudge"
TEST_CRATES = ("text_tests", "graph_tests", "calculus_tests", "command_tests", "term_bench")


def needs():
    """The crates of this repository that each crate names."""
    named = {}
    for line in open("crates.txt"):
        line = line.split("#")[0].strip()
        if ":" in line:
            crate, libraries = line.split(":", 1)
            named[crate.split()[0]] = libraries.split()
    return named


def files(crate, endings):
    """The crate's files with one of these endings, without what is made."""
    for folder in ("src", "specs", "proofs"):
        for ending in endings:
            yield from glob.glob(f"crates/{crate}/{folder}/**/*{ending}", recursive=True)


def depth(crate, named, known):
    if crate not in known:
        known[crate] = 1 + max([depth(d, named, known) for d in named[crate] if d in named], default=0)
    return known[crate]


def groups():
    """The group of each crate, and the groups that each group may stand on."""
    group_of, stands_on, group = {}, {}, None
    for line in open("crates.txt"):
        head = re.match(r"# (\w+)(?:, on ([\w ]+))?: ", line)
        if head:
            group = head[1]
            stands_on[group] = {group, *(head[2] or "").split()}
        elif ":" in line and not line.startswith("#"):
            group_of[line.split(":")[0].split()[0]] = group
    return group_of, stands_on


def of_groups(named):
    """Crates that stand on a crate of a group that theirs may not know."""
    group_of, stands_on = groups()
    for crate, libraries in named.items():
        for library in libraries:
            if library in group_of and group_of[library] not in stands_on[group_of[crate]]:
                yield f"crates.txt: {crate}, of {group_of[crate]}, stands on {library}, of {group_of[library]}"


def of_crate(crate, libraries):
    """What of a crate is out of bounds."""
    texts = {path: open(path).read() for path in files(crate, (".rt", ".antt"))}
    code = [text for path, text in texts.items() if path.endswith(".rt")]
    functions = sum(len(re.findall(r"^\s*(?:pub(?:\([a-z]+\))? )?fn ", text, re.M)) for text in code)
    tests = sum(text.count("#[test]") for text in code)
    edits = len(glob.glob(f"crates/{crate}/must-fail/*.edit"))
    if functions > FUNCTIONS:
        yield f"{crate}: {functions} functions"
    if tests > (TESTS if crate in TEST_CRATES else 0):
        yield f"{crate}: {tests} tests"
    if edits > EDITS:
        yield f"{crate}: {edits} must-fail edits"
    for path, text in texts.items():
        if text.count("\n") > LINES:
            yield f"{path}: {text.count(chr(10))} lines"
    for library in libraries:
        if not any(re.search(rf"\b{library}(::|;)|Rattle\.{library}\b", text) for text in texts.values()):
            yield f"crates.txt: {crate} doesn't name {library}"


def main():
    named, known = needs(), {}
    found = [line for crate in named for line in of_crate(crate, named[crate])]
    found += [f"{PROGRAM}: a chain of {depth(PROGRAM, named, known)} crates"] if depth(PROGRAM, named, known) > CHAIN else []
    found += of_groups(named)
    edits = len(glob.glob("crates/*/must-fail/*.edit"))
    found += [f"{edits} must-fail edits in all"] if edits > ALL_EDITS else []
    print("\n".join(found) or "the budgets are kept")
    return 1 if found else 0


sys.exit(main())
