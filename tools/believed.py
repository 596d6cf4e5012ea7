#!/usr/bin/env python3
"""believed.py [--private | --page]: which files of specs/ the headline makes a reader believe.

The headline is the contract of `run` in crates/msc_cmd/src/command.rt. From the names that its clauses cite, and from the types
and traits of its arguments, the definitions of specs/ are followed through imports, and through `declared.` to types of the code:
their fields, or what their `ghost` lines let a contract see. Printed is each file, in the order of crates.txt, with the lines of
the definitions that are reached, and all its lines. Names are followed as words, so a file may be listed for a word too many.

With --page the sums in docs/DEFINITIONS.md are written anew. With --private the files are printed that no contract of any crate's public functions, methods, traits and types reaches.
"""
import os
import re
import sys

CRATES = [line.split(":")[0].split()[0] for line in open("crates.txt") if ":" in line and not line.startswith("#")]
WORD = re.compile(r"(?<![\w.])([A-Za-z_]\w*)(?:\.([A-Za-z_]\w*))?")
USE = re.compile(r"^\s*(?:ghost |pub )?use Rattle\.([\w.]+?)(?:\.\{([^}]*)\}|(?: as (\w+))?);?\s*$", re.M)
ITEM = re.compile(r"^(?:(?:pub|abbrev|unfoldable|opaque) )*(?:(?:record|data) )?(\w+)\b(?=.*(?::|where))")
TYPE = r"^pub (?:struct|enum|trait|type) (\w+)"


def plain(text):
    """The text without comments and attributes."""
    return re.sub(r"^\s*#\[.*\]$", "", re.sub(r"//.*|^--.*|\s--.*", "", text, flags=re.M), flags=re.M)


SOURCES = {}
for crate in CRATES:
    for part, end in (("src", ".rt"), ("specs", ".antt")):
        for folder, _, names in os.walk(f"crates/{crate}/{part}"):
            SOURCES.update({f"{folder}/{n}": plain(open(f"{folder}/{n}").read()) for n in names if n.endswith(end)})


def definitions(path):
    """The definitions of a file of specs/ by name, each with its lines. A constructor stands for its type, and what is in a block
    of several for the whole block."""
    found, name = {}, None
    for number, line in enumerate(SOURCES[path].splitlines()):
        item = ITEM.match(line) if line[:1].strip() and not re.match(r"(pub )?use |pub mod ", line) else None
        if re.match(r"(abbrev |pub )*(mutual|module)\b", line):
            name = f"block {number}"
        elif item and not (name and line.startswith(name + " ")):
            name = item.group(1)
        if name and not re.match(r"(pub )?use ", line):
            found.setdefault(name, []).append(line)
    for name, lines in list(found.items()):
        for line in lines[1:]:
            inner = re.match(r"\s+(?:(?:pub|abbrev|unfoldable|data|record) )*(\w+)\b.* ?:", line)
            if inner:
                found.setdefault(inner.group(1), lines)
    return found


ITEMS = {path: definitions(path) for path in SOURCES if path.endswith(".antt")}


def targets(dotted, names):
    """The nodes (file, name) that an import of these names speaks of."""
    crate, part, *rest = dotted.split(".")
    if crate not in CRATES or part != "specs" or not rest:
        return []
    if rest[0] != "declared":
        path = f"crates/{crate}/specs/{'/'.join(rest)}.antt"
        return [(path, name) for name in names if path in ITEMS and name in ITEMS[path]]
    for count in range(len(rest), 1, -1):
        path = f"crates/{crate}/src/{'/'.join(rest[1:count])}.rt"
        if path in SOURCES:
            types = [part for part in rest[count:] if part not in ("TheConstants", "TheVariants")][:1] or names
            return [(path, name) for name in types]
    return []


def imported(text):
    """What each name that a text imports from specs/ speaks of."""
    found = {}
    for dotted, names, alias in USE.findall(text):
        for part in names.split(",") if names else []:
            name, _, other = part.strip().partition(" as ")
            found.setdefault(other or name, []).extend(targets(dotted, [name]))
        if not names:
            crate, _, file = dotted.partition(".specs.")
            module = f"crates/{crate}/specs/{file.replace('.', '/')}.antt"
            nodes = targets(dotted, [dotted.split(".")[-1]]) or [(module, "") for _ in [0] if module in ITEMS]
            found.setdefault(alias or dotted.split(".")[-1], []).extend(nodes)
    return found


def types_used(path):
    """The types of the repository's code that a file of src/ names."""
    found = {}
    home = path.split("/")[1]
    for line in re.findall(r"^use ([^;]+);", SOURCES[path], re.M):
        crate = line.split("::")[0]
        crate = home if crate in ("crate", "super") else crate
        for name in re.findall(r"\w+", line):
            for other in SOURCES:
                if other.startswith(f"crates/{crate}/src/") and name in re.findall(TYPE, SOURCES[other], re.M):
                    found.setdefault(name, []).append((other, name))
    for name in re.findall(TYPE.replace("pub ", "(?:pub |pub\\(crate\\) )?"), SOURCES[path], re.M):
        found[name] = [(path, name)]
    return found


def block(text, start):
    """The item at this place, to the line that closes it."""
    end = re.compile(r"^(?:\}|.*;)$|^\s*\{\}$", re.M).search(text, start)
    head = text[start:text.find("\n", start)]
    if head.rstrip().endswith("{"):
        end = re.compile(r"^\}", re.M).search(text, start)
    return text[start:end.end() if end else len(text)]


def head_of(text, start):
    """The head of a function at this place, with its clauses."""
    end = re.compile(r"^\s*\{\s*\}?$|;$|\{$", re.M).search(text, start)
    return text[start:end.start() if end else len(text)]


def seen_of(path, name, whole):
    """What contracts see of a type or trait; with its invariant and its fields where all is asked for."""
    text = SOURCES[path]
    start = re.search(rf"^(?:pub(?:\(crate\))? )?(?:struct|enum|trait|type) {name}\b", text, re.M)
    if not start:
        return ""
    shape = block(text, start.start())
    model = re.search(rf"^impl.* Model for {name}\b", text, re.M)
    if not model:
        return shape
    view = block(text, model.start())
    if whole:
        return view + "\n" + shape
    return re.sub(r"^\s*ghost invariant[^;]*;", "", view, flags=re.M)


def names_in(text, *tables):
    """The nodes that the words of a text speak of."""
    found = []
    for word, inner in WORD.findall(text):
        for table in tables:
            for path, name in table.get(word, []):
                name = inner if inner and path in ITEMS and inner in ITEMS[path] else name
                found += [(path, name)] if name else []
    for dotted in re.findall(r"Rattle\.([\w.]+)", re.sub(USE, "", text)):
        found += targets(dotted.rpartition(".")[0], [dotted.rpartition(".")[2]])
    return found


TABLES = {}


def tables_of(path):
    if path not in TABLES:
        own = {name: [(path, name)] for name in ITEMS.get(path, {})}
        TABLES[path] = (imported(SOURCES[path]), own, types_used(path) if path.endswith(".rt") else {})
    return TABLES[path]


def reached(texts, whole):
    """All nodes that the texts, each with its file, lead to."""
    waiting = [node for path, text in texts for node in names_in(re.sub(USE, "", text), *tables_of(path))]
    seen = set()
    while waiting:
        node = waiting.pop()
        if node not in seen:
            seen.add(node)
            path, name = node
            text = "\n".join(ITEMS[path][name]) if path in ITEMS else seen_of(path, name, whole)
            waiting += names_in(re.sub(USE, "", text), *tables_of(path))
    return seen


def public_texts():
    """The contracts of all that is public, each with its file."""
    for crate in CRATES:
        root = SOURCES.get(f"crates/{crate}/src/lib.rt", "")
        shown = set(re.findall(r"\w+", " ".join(re.findall(r"^pub use [^;]+;", root, re.M))))
        for path, text in SOURCES.items():
            if not path.startswith(f"crates/{crate}/src/"):
                continue
            module = os.path.basename(path)[:-3]
            all_shown = re.search(rf"^pub mod {module};", root, re.M)
            for item in re.finditer(r"^pub (fn|struct|enum|trait|type) (\w+)", text, re.M):
                if all_shown or item.group(2) in shown:
                    yield path, head_of(text, item.start()) if item.group(1) == "fn" else seen_of(path, item.group(2), True)
            for item in re.finditer(r"^impl\b(?:<[^{]*?>)? (?:.* for )?(\w+).*$", text, re.M):
                if item.group(1) in shown or all_shown:
                    inner = block(text, item.start())
                    if " for " in item.group(0):
                        yield path, inner
                    for method in re.finditer(r"^    pub fn ", inner, re.M):
                        yield path, head_of(inner, method.start())


def write_sums(believed):
    """Writes into docs/DEFINITIONS.md how many lines the headline reaches, in all and in each section."""
    parts = re.split(r"^(?=## )", open("docs/DEFINITIONS.md").read(), flags=re.M)
    parts[0] = re.sub(r"\*\*\d[\d,]* lines in \d+ files\*\*", f"**{sum(believed.values()):,} lines in {len(believed)} files**", parts[0])
    for number, part in enumerate(parts[1:], 1):
        paths = {os.path.normpath(f"docs/{target}") for target in re.findall(r"\]\(([^)\s]+\.antt)\)", part)}
        parts[number] = re.sub(r"^\d[\d,]* lines\.", f"{sum(believed.get(path, 0) for path in paths):,} lines.", part, flags=re.M)
    with open("docs/DEFINITIONS.md", "w") as page:
        page.write("".join(parts))


def main():
    private = "--private" in sys.argv
    run = "crates/msc_cmd/src/command.rt"
    texts = public_texts() if private else [(run, head_of(SOURCES[run], SOURCES[run].index("pub fn run")))]
    nodes, believed = reached(texts, private), {}
    for path in sorted(ITEMS, key=lambda path: (CRATES.index(path.split("/")[1]), path)):
        found = {id(ITEMS[path][name]): ITEMS[path][name] for file, name in nodes if file == path}
        lines = sum(1 for block_lines in found.values() for line in block_lines if line.strip())
        if private and not found and not path.endswith("/Lib.antt"):
            print(path)
        if not private and found:
            believed[path] = lines
    if "--page" in sys.argv:
        return write_sums(believed)
    for path, lines in believed.items():
        print(f"{path}: {lines} of {sum(1 for line in SOURCES[path].splitlines() if line.strip())}")


if __name__ == "__main__":
    main()
