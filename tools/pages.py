#!/usr/bin/env python3
"""pages.py: whether the links of the pages lead somewhere, and whether the pages say what the code and the benchmarks say.

Looked at are all pages. A link to a file or a heading has to be there, and a link whose text is one name in backquotes
to a file of code or specs/ asks that the file has the name. A page of the repository that is named in running text is to be
a link. Beside that:
- docs/RULES.md has the rules of msc_rules, and docs/PROVED.md names contracts that are there;
- docs/DEFINITIONS.md lists the files that tools/believed.py reaches, with their lines;
- the limits in the README are those of msc_base, and times and sizes in the README, docs/ARCHITECTURE.md and docs/PROVED.md
  stand in bench/README.md, or, in minutes, in CONTRIBUTING.md;
- docs/ARCHITECTURE.md has the crates of crates.txt as tools/crates.py writes them, and docs/PROVED.md a row for each that carries a claim.
Run it at the top; it prints what is wrong, and ends with status 1 where something is. It takes some seconds.
"""
import glob
import os
import re
import subprocess
import sys

LINK = re.compile(r"\[((?:[^\[\]`]|`[^`]*`)*)\]\(([^)\s]+)\)")
# pages that may be named without a link: those that every crate, or a folder, has
COMMON = ("README.md",)


def pages():
    for folder, folders, files in os.walk("."):
        folders[:] = sorted(name for name in folders if name not in (".git", "out"))
        yield from (os.path.normpath(os.path.join(folder, name)) for name in sorted(files) if name.endswith(".md"))


def plain(text):
    """The text without blocks of code, line by line as it was."""
    return re.sub(r"^```.*?^```$", lambda found: "\n" * found[0].count("\n"), text, flags=re.M | re.S)


def anchors(page):
    """The headings of a page, as links name them."""
    found = set()
    for title in re.findall(r"^#+ (.*)$", plain(open(page).read()), re.M):
        title = re.sub(r"\[([^\]]*)\]\([^)]*\)", r"\1", title)
        name = re.sub(r"[^\w\- ]", "", title.lower()).strip().replace(" ", "-")
        number = 0
        while (f"{name}-{number}" if number else name) in found:
            number += 1
        found.add(f"{name}-{number}" if number else name)
    return found


def of_link(page, text, target):
    """What is wrong with a link, if something is."""
    if re.match(r"[a-z]+:", target):
        return None
    path, _, anchor = target.partition("#")
    path = os.path.normpath(os.path.join(os.path.dirname(page), path)) if path else page
    if not os.path.exists(path):
        return f"no {target}"
    if anchor and path.endswith(".md") and anchor not in anchors(path):
        return f"{path} has no heading #{anchor}"
    name = re.fullmatch(r"`(\w+)`", text)
    stem = os.path.splitext(os.path.basename(path))[0]
    if name and name[1] != stem and path.endswith((".rt", ".antt")) and not re.search(rf"\b{name[1]}\b", open(path).read()):
        return f"{path} doesn't name `{name[1]}`"
    return None


def of_page(page):
    text = plain(open(page).read())
    for found in LINK.finditer(text):
        wrong = of_link(page, found[1], found[2])
        if wrong:
            yield f"{page}:{text[:found.start()].count(chr(10)) + 1}: {wrong}"
    bare = LINK.sub(lambda found: "\n" * found[0].count("\n"), text)
    for found in re.finditer(r"\b(?:docs|crates|bench|tools|examples)/[\w/]*\.md\b|\b[A-Z]{4,}\.md\b", bare):
        if os.path.basename(found[0]) not in COMMON and not page.startswith("bench/"):
            yield f"{page}:{bare[:found.start()].count(chr(10)) + 1}: {found[0]} is named and not linked"


def of_rules():
    """Where the table of docs/RULES.md isn't that of msc_rules, or a rule that is told has no document."""
    specs = open("crates/msc_rules/specs/Rules.antt").read()
    rows = re.findall(r'^row_of .* = row (\d+) (\d+) \(codes "([^"]*)"', specs, re.M)
    wanted = {number: (group, text + ("FORM" if text.endswith(", ") else "")) for group, number, text in rows}
    page = open("docs/RULES.md").read()
    had = {number: (group, text) for group, number, text in re.findall(r"^\| (\d+) [^|]*\| (\d+) \| \[?`([^`]*)`", page, re.M)}
    for number in sorted({*wanted, *had}, key=int):
        if wanted.get(number) != had.get(number):
            yield f"docs/RULES.md: rule {number} is shown as {had.get(number)}, and is {wanted.get(number)} in msc_rules"
    for text in re.findall(r"^\| \d+ [^|]*\| \d+ \| \[`([^`,]*)", page, re.M):
        section = re.search(rf"^### {text}.*?(?=^##|\Z)", page, re.M | re.S)
        if not section or f": {text}" not in section[0].replace("`", ""):
            yield f"docs/RULES.md: {text} has no document that breaks it"


def of_proved():
    """Contracts that docs/PROVED.md names and no crate has."""
    words = set()
    for crate in glob.glob("crates/*"):
        for path in glob.glob(f"{crate}/src/**/*.rt", recursive=True) + glob.glob(f"{crate}/specs/**/*.antt", recursive=True):
            words.update(re.findall(r"\w+", open(path).read()))
    for crates, contracts in re.findall(r"^\| (\[\w+\]\([^)]*\))? ?\|.*\| ([^|]*)\|$", open("docs/PROVED.md").read(), re.M):
        for name in re.findall(r"`([^`]+)`", contracts):
            if not words.issuperset(re.findall(r"\w+", name)):
                yield f"docs/PROVED.md: no contract {name}"


def of_definitions():
    """Where docs/DEFINITIONS.md doesn't list what the headline reaches, or says other numbers of lines."""
    told = subprocess.run([sys.executable, "tools/believed.py"], capture_output=True, text=True, check=True).stdout
    believed = {path: int(lines) for path, lines in re.findall(r"^(\S+): (\d+) of", told, re.M)}
    page = open("docs/DEFINITIONS.md").read()
    listed = {os.path.normpath(f"docs/{target}") for target in re.findall(r"\]\(([^)\s]+\.antt)\)", page)}
    for path in sorted({*believed} - listed):
        yield f"docs/DEFINITIONS.md: no {path}, which the headline reaches"
    for path in sorted(listed - {*believed}):
        yield f"docs/DEFINITIONS.md: {path} is listed, and the headline doesn't reach it"
    for section in re.split(r"^## ", page, flags=re.M)[1:]:
        paths = {os.path.normpath(f"docs/{target}") for target in re.findall(r"\]\(([^)\s]+\.antt)\)", section)}
        lines = sum(believed.get(path, 0) for path in paths)
        for shown in re.findall(r"^(\d[\d,]*) lines\.", section, re.M):
            if int(shown.replace(",", "")) != lines:
                yield f"docs/DEFINITIONS.md: section {section.splitlines()[0]} has {lines} lines, and says {shown}"
    whole = re.search(r"\*\*(\d[\d,]*) lines in (\d+) files\*\*", page)
    if not whole or (int(whole[1].replace(",", "")), int(whole[2])) != (sum(believed.values()), len(believed)):
        yield f"docs/DEFINITIONS.md: the headline reaches {sum(believed.values())} lines in {len(believed)} files, which the page doesn't say"


def of_limits():
    """Limits that the README shows otherwise than the crates have them."""
    limits = {}
    for path in ("crates/msc_base/src/limits.rt", "crates/session_log/src/keys.rt"):
        limits.update(re.findall(r"pub const (\w+): u(?:64|size) = ([\d_]+);", open(path).read()))
    section = open("README.md").read().split("## Limits")[1].split("\n## ")[0]
    shown = set(re.findall(r"\d[\d,]*\d|\d", "\n".join(line.split("|")[2] for line in section.splitlines() if line.startswith("| "))))
    told = ("DOCUMENT_BYTES", "CHARTS", "INSTANCES", "NODE_LINES", "NESTING", "EXPANDED_NESTING", "EXPANDED_SIZE", "TOTAL_SIZE", "LOOP_BOUND", "NAME_BYTES", "LOG_BYTES",
            "LOG_EVENTS", "LINE_BYTES", "MOST_SESSIONS", "BUDGET_DEFAULT", "BUDGET_MOST")
    for name in told:
        if limits[name].replace("_", ",") not in shown:
            yield f"README.md: the limits lack {limits[name].replace('_', ',')} ({name})"
    for number in sorted(shown - {limits[name].replace("_", ",") for name in told}):
        yield f"README.md: no limit of the crates is {number}"


def of_figures():
    """Times and sizes of the pages that no table of measurements has."""
    measured = {"s": "bench/README.md", "MiB": "bench/README.md", "minutes": "CONTRIBUTING.md"}
    texts = {page: open(page).read() for page in {*measured.values()}}
    for page in ("README.md", "docs/ARCHITECTURE.md", "docs/PROVED.md"):
        text = re.sub(r"`[^`]*`", "", LINK.sub(r"\1", plain(open(page).read())))
        for number, unit in re.findall(r"(?<![\w`.,])(\d[\d.,]*) (s|MiB|minutes)\b", text):
            if not re.search(rf"(?<![\d.,]){re.escape(number)}(?: (?:and|to|or) [\d.,]+)? {unit}\b", texts[measured[unit]]):
                yield f"{page}: {number} {unit} doesn't stand in {measured[unit]}"


def of_crates():
    """Where docs/ARCHITECTURE.md has other crates than crates.txt, and crates that carry a claim and have no row in docs/PROVED.md."""
    told = subprocess.run([sys.executable, "tools/crates.py", "--check"], capture_output=True, text=True).stdout
    yield from told.splitlines()
    text = open("docs/PROVED.md").read()
    for line in open("crates.txt"):
        crate = line.split(":")[0].split()[0] if ":" in line and not line.startswith("#") else "msc_unfolding"
        if crate not in ("msc_unfolding", "list_facts", "msc_rows", "text_tests", "graph_tests", "calculus_tests", "command_tests") and not re.search(rf"^\| \[{crate}\]", text, re.M):
            yield f"docs/PROVED.md: no row for {crate}"


CHECKS = (of_rules, of_proved, of_definitions, of_limits, of_figures, of_crates)


def main():
    found = [line for page in pages() for line in of_page(page)] + [line for check in CHECKS for line in check()]
    print("\n".join(found) or "the pages' links lead somewhere")
    return 1 if found else 0


if __name__ == "__main__":
    sys.exit(main())
