#!/usr/bin/env python3
"""unused.py: what is public and used by nobody: functions, types and constants of src/, and definitions of specs/.

An item is used where its name stands in another line than that of its definition and those that only hand it on: in the code of a
crate of the program, in a clause, or in a definition or a proof. Tests and benchmarks don't count. A law, that is a function that
does nothing but carry a clause, is used where a page names it. What waits for a form that isn't built yet isn't listed, if the
README.md of its crate names it in a sentence with 'No crate calls'. Names are looked for as words, so an item may count as used for
another of its name. Run it at the top; it ends with status 1 where something is found, and takes some seconds.
"""
import collections
import glob
import os
import re
import sys

TESTS = ("msc_rows", "text_tests", "graph_tests", "calculus_tests", "command_tests", "term_bench")
WORD = re.compile(r"[A-Za-z_]\w*")
CODE = re.compile(r"^ *pub (?:const )?(fn|struct|enum|trait|type|const) (\w+)")
DEFINITION = re.compile(r"^ *(?:abbrev |unfoldable |opaque )*pub (?:abbrev |unfoldable |opaque )*(?:record |data )?(\w+) *(?:\(|\{|:)")


def crates():
    return [line.split(":")[0].split()[0] for line in open("crates.txt") if ":" in line and not line.lstrip().startswith("#")]


def texts():
    """The lines of each file of code, definitions and proofs, without comments."""
    for crate in crates():
        for part in ("src", "specs", "proofs"):
            for folder, _, names in os.walk(f"crates/{crate}/{part}"):
                for path in (f"{folder}/{name}" for name in sorted(names) if name.endswith((".rt", ".antt"))):
                    comment = r"//.*" if path.endswith(".rt") else r"(^|\s)--.*"
                    yield path, [re.sub(comment, "", line) for line in open(path).read().splitlines()]


def is_handing_on(path, line):
    return re.match(r"\s*(pub use|pub mod|mod|use|ghost use)\b", line) is not None


def main():
    lines = dict(texts())
    uses, found = collections.Counter(), []
    for path, held in lines.items():
        if path.split("/")[1] not in TESTS:
            for line in held:
                if not is_handing_on(path, line):
                    uses.update(set(WORD.findall(line)))
    pages = {word for page in glob.glob("docs/*.md") + glob.glob("*.md") + glob.glob("crates/*/README.md") for word in WORD.findall(open(page).read())}
    waiting = {crate: set(WORD.findall(" ".join(re.findall(r"[Nn]o crate calls[^.;]*", open(f"crates/{crate}/README.md").read())))) for crate in crates()}
    for path, held in lines.items():
        crate, part = path.split("/")[1:3]
        if crate in TESTS or part == "proofs":
            continue
        for number, line in enumerate(held, 1):
            item = (CODE if part == "src" else DEFINITION).match(line)
            name = item and item[item.lastindex]
            # each function by equations names itself in its type and in each equation
            own = sum(1 for other in held if re.match(rf"\s*(?:abbrev |pub )*{re.escape(name)}\b", other)) if name and part == "specs" else 1
            is_law = path.endswith(("/laws.rt", "/worked.rt"))
            if name and uses[name] <= own and name not in waiting[crate] and not (is_law and name in pages):
                found.append(f"{path}:{number}: {name}")
    print("\n".join(found) or "nothing that is public is unused")
    return 1 if found else 0


if __name__ == "__main__":
    sys.exit(main())
