#!/usr/bin/env python3
"""doubles.py [--list]: what stands twice in the code, the definitions and the proofs, and whether it is within its budget.

Counted are
- runs of six or more equal lines in two places, of src/, specs/ and proofs/ (comments, blank lines and imports aside; of six lines at
  least four have a letter);
- bodies of functions that stand word for word in two functions, from three lines on;
- recursive walks over the text of a chart, and over a woven body: cycles of functions in src/ and blocks of definitions in specs/.
  What reads, prints, views or weaves a text goes over it by its nature and isn't counted.

Run it at the top. With --list it also prints where they stand. It ends with status 1 where a budget is passed, and takes some seconds.
"""
import collections
import os
import re
import sys

LINES = 6
# runs of equal lines; equal bodies; walks over texts and over bodies
BUDGETS = {"src": 60, "specs": 2, "proofs": 40, "bodies": 0, "texts": 1, "woven": 1}
# what goes over a text or a body by its nature: what reads, prints and views it; what weaves, and says what is woven. A file, or one of
# its blocks by its first name
READERS = ("msc_tree", "msc_events", "msc_expression", "msc_document", "msc_print", "text_tests")
WEAVING = ("level_pieces/src/counting.rt", "level_weaving/src/levels.rt", "msc_meaning/specs/Pieces.antt", "msc_meaning/specs/Levels.antt",
           "msc_meaning/specs/Views.antt", "msc_meaning/specs/ChartUnfoldings.antt")
TEXT_TYPES = r"\b(RawForm|RawItem|RawOperand|Statement)\b"
BODY_TYPES = r"\b(Body|BodyItem|Item)\b"


def crates():
    return [line.split(":")[0].split()[0] for line in open("crates.txt") if ":" in line and not line.lstrip().startswith("#")]


def files(part):
    """The files of one part of all crates."""
    for crate in crates():
        for folder, folders, names in sorted(os.walk(f"crates/{crate}/{part}")):
            yield from (f"{folder}/{name}" for name in sorted(names) if name.endswith((".rt", ".antt")))


def lines_of(path):
    """The lines that count, each with its number, without indents and comments."""
    found, imports = [], False
    for number, line in enumerate(open(path), 1):
        text = " ".join(re.sub(r"//.*" if path.endswith(".rt") else r"(^|\s)--.*", "", line).split())
        begins = re.match(r"(pub )?(ghost )?use\b", text) is not None
        if text and not imports and not begins:
            found.append((number, text))
        imports = (imports or begins) and path.endswith(".rt") and not text.endswith(";")
    return found


def equal_runs(part):
    """The runs of equal lines: two places of each, and how long it is."""
    texts = {path: lines_of(path) for path in files(part)}
    places = collections.defaultdict(list)
    for path, lines in texts.items():
        for start in range(len(lines) - LINES + 1):
            window = tuple(text for _, text in lines[start:start + LINES])
            if sum(1 for text in window if re.search("[A-Za-z]", text)) >= 4:
                places[window].append((path, start))
    pairs = {(one, other) for found in places.values() for number, one in enumerate(found) for other in found[number + 1:]}
    for one, other in sorted(pairs):
        if ((one[0], one[1] - 1), (other[0], other[1] - 1)) not in pairs:
            length = 0
            while ((one[0], one[1] + length), (other[0], other[1] + length)) in pairs:
                length += 1
            yield [f"{path}:{texts[path][start][0]}" for path, start in (one, other)], length + LINES - 1


def functions(path):
    """The functions of a file: the line, the head with its contract, and the body."""
    text = open(path).read()
    heads = list(re.finditer(r"^( *)(?:pub(?:\([a-z]+\))? )?fn \w+", text, re.M))
    for head, behind in zip(heads, [later.start() for later in heads[1:]] + [len(text)]):
        indent = head[1]
        body = re.compile(rf"^{indent}\{{\n(.*?)^{indent}\}}$|\{{\n(.*?)^{indent}\}}$", re.M | re.S).search(text, head.end(), behind)
        if body:
            yield text[:head.start()].count("\n") + 1, text[head.start():body.start()], body[1] or body[2] or ""


def equal_bodies():
    """The bodies that stand in several functions, with their places."""
    found = collections.defaultdict(list)
    for path in files("src"):
        for line, _, body in functions(path):
            plain = [text for text in (re.sub("//.*", "", line).strip() for line in body.splitlines()) if text]
            if len(plain) >= 3:
                found["\n".join(plain)].append(f"{path}:{line}")
    return [places for places in found.values() if len(places) > 1]


def is_by_nature(path):
    return path.split("/")[1] in READERS or path.removeprefix("crates/") in WEAVING


def code_walks(types):
    """The cycles of functions that go over these types, outside what does so by its nature."""
    found = {}
    for path in files("src"):
        if is_by_nature(path):
            continue
        text = open(path).read()
        for cycle in re.finditer(r"#\[cycle\((\w+)\)\](?:\s*#\[[^\]]*\])*\s*(?:pub(?:\([a-z]+\))? )?fn \w+(?:<[^>]*>)?\(([^{]*?)\)", text):
            if re.search(types, cycle[2]):
                found.setdefault((path.split("/")[1], cycle[1]), f"{path}:{text[:cycle.start()].count(chr(10)) + 1}")
    return list(found.values())


def specs_walks(words):
    """The blocks of definitions that go over these words' types, outside what does so by its nature."""
    found = []
    for path in files("specs"):
        if is_by_nature(path):
            continue
        text = open(path).read()
        for block in re.finditer(r"^ *abbrev mutual\n(?:(?: +.*)?\n)+", text, re.M):
            heads = re.findall(r"^ +(?:pub )?(?:abbrev )?(\w+) : (.*)$", block[0], re.M)
            if heads and is_by_nature(f"{path}:{heads[0][0]}"):
                continue
            if all(any(re.search(rf"\b{word}\b", head) for _, head in heads) for word in words):
                found.append(f"{path}:{text[:block.start()].count(chr(10)) + 1}")
    return found


def main():
    listed, rows = "--list" in sys.argv, []
    for part in ("src", "specs", "proofs"):
        runs = list(equal_runs(part))
        rows.append((part, f"runs of {LINES} equal lines in {part}/", len(runs), [f"{' ~ '.join(places)}: {length} lines" for places, length in runs]))
    bodies = equal_bodies()
    rows.append(("bodies", "function bodies that stand twice", len(bodies), [" = ".join(places) for places in bodies]))
    texts = code_walks(TEXT_TYPES), specs_walks(("Statements", "Items"))
    rows.append(("texts", "recursive walks over texts", max(map(len, texts)), [*texts[0], *texts[1]]))
    woven = code_walks(BODY_TYPES), specs_walks(("Body", "WovenItems"))
    rows.append(("woven", "recursive walks over woven bodies", max(map(len, woven)), [*woven[0], *woven[1]]))
    for name, what, count, places in rows:
        print(f"{what}: {count} of {BUDGETS[name]}" + ("" if count <= BUDGETS[name] else ", which is too many"))
        for place in places if listed else []:
            print(f"    {place}")
    return 1 if any(count > BUDGETS[name] for name, _, count, _ in rows) else 0


if __name__ == "__main__":
    sys.exit(main())
