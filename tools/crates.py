#!/usr/bin/env python3
"""crates.py [--check]: writes the section 'Crates' of docs/ARCHITECTURE.md, a line for each crate.

The groups, with what they stand on, are those of crates.txt; what a crate is, is the first sentence of its README.md. With --check
nothing is written, and the status is 1 where the page has another section. Run it at the top.
"""
import re
import sys

PAGE = "docs/ARCHITECTURE.md"


def first_sentence(crate):
    """What a crate is, by its README."""
    text = open(f"crates/{crate}/README.md").read().split("\n\n")[1].replace("\n", " ")
    return re.match(r"(?:[^.`]|`[^`]*`|\.(?=\S))*\.", text)[0]


def section():
    rows = ["## Crates", "", "Each crate in one sentence, by the groups of [crates.txt](../crates.txt). A group stands on the groups that are named, and on no others: `tools/budgets.py` checks it. A crate's README.md has its modules, its definitions and what is proved.", ""]
    for line in open("crates.txt").read().splitlines()[1:]:
        head = re.match(r"# (\w+)(?:, on ([\w ]+))?: (.*)", line)
        if head:
            on = f" It stands on {', '.join(head[2].split())}." if head[2] else ""
            rows += [f"### {head[1]}", "", f"{head[3][0].upper()}{head[3][1:]}.{on}", "", "| Crate | What it is |", "|---|---|"]
        elif ":" in line:
            crate = line.split(":")[0].split()[0]
            rows.append(f"| [{crate}](../crates/{crate}/README.md) | {first_sentence(crate)} |")
        else:
            rows.append("")
    return re.sub(r"\n{3,}", "\n\n", "\n".join(rows)).strip() + "\n\n"


def main():
    page = open(PAGE).read()
    written = re.sub(r"^## Crates\n.*?(?=^## )", lambda _: section(), page, flags=re.M | re.S)
    if "--check" in sys.argv:
        if written != page:
            print(f"{PAGE}: the section Crates isn't what crates.txt and the READMEs say: run tools/crates.py")
        return written != page
    open(PAGE, "w").write(written)
    return 0


if __name__ == "__main__":
    sys.exit(main())
