#!/usr/bin/env python3
"""clauses.py REVISION: which clauses of public functions and methods of another revision aren't there any more.

Each public function of the revision is looked for by its name, in any crate, and each of its clauses by its text, blanks aside.
Printed are the functions that are gone, and of the others the clauses that are gone with those that came in their place. What is
printed is to be read: a clause may say the same in other words. Run it at the top, in a checkout that has the revision.
"""
import collections
import re
import subprocess
import sys

HEAD = re.compile(r"^( *)pub (?:const )?fn (\w+)", re.M)
IMPL = re.compile(r"^(?:pub )?(?:impl\b(?:<[^{]*?>)? (?:.* for )?|trait )(\w+)", re.M)


def git(*words):
    return subprocess.run(["git", *words], capture_output=True, text=True, check=True).stdout


def sources(revision):
    """The files of code of a revision, or of the checkout."""
    if revision is None:
        return {path: open(path).read() for path in git("ls-files", "crates/*.rt").split()}
    names = [line for line in git("ls-tree", "-r", "--name-only", revision, "crates").split() if line.endswith(".rt")]
    return {path: git("show", f"{revision}:{path}") for path in names}


def clauses_of(text, start):
    """The clauses between a function's head and its body."""
    body = re.compile(r"^ *\{\}?$|;$", re.M).search(text, start)
    head = " ".join(text[start:body.start() if body else len(text)].split())
    parts = re.split(r" (?=(?:requires|ensures)(?: \w+)? \{)", head)
    return parts[1:]


def contracts(revision):
    """The clauses of each public function, under its crate, its type and its name."""
    found = collections.defaultdict(list)
    for path, text in sources(revision).items():
        for head in HEAD.finditer(text):
            types = [item[1] for item in IMPL.finditer(text[:head.start()])] if head[1] else []
            found[(types[-1] + "::" if types else "") + head[2]].append((path.split("/")[1], clauses_of(text, head.start())))
    return found


def plain(clause):
    """A clause without its label."""
    return re.sub(r"^(requires|ensures) \w+ \{", r"\1 {", clause)


def main():
    before, after = contracts(sys.argv[1]), contracts(None)
    for name in sorted(before):
        for crate, clauses in before[name]:
            others = [held for _, held in after.get(name, [])]
            if not others:
                print(f"{crate} {name}: gone")
                continue
            had = {plain(clause) for clause in clauses}
            best = max(others, key=lambda held: len(had & {plain(clause) for clause in held}))
            now = {plain(clause) for clause in best}
            for clause in sorted(had - now):
                print(f"{crate} {name}: - {clause}")
            for clause in sorted(now - had) if had - now or any(clause.startswith("requires") for clause in now - had) else []:
                print(f"{crate} {name}: + {clause}")


if __name__ == "__main__":
    main()
