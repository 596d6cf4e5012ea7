#!/usr/bin/env python3
"""times.py COMMAND ..: runs a command that proves, as `rt ci` or `./build`, and notes what each crate's proofs took; --table: writes
the table of CONTRIBUTING.md of what was noted.

While the command runs, the time of a processor and the peak memory of each proof below it are read twice a second. They are kept in
bench/gate.tsv, a line for each crate and kind: the proof of its library or program, that of its tests, and its must-fail edits with
the proof that they begin with. What a run takes over from an earlier one keeps the line that it had. A crate that is gone loses its
line. Run it at the top; it ends with the command's status.
"""
import os
import re
import subprocess
import sys
import time

KEPT, PAGE = "bench/gate.tsv", "CONTRIBUTING.md"
KINDS = ("proof", "tests", "edits")
TICKS = os.sysconf("SC_CLK_TCK")


def crates():
    return [line.split(":")[0].split()[0] for line in open("crates.txt") if ":" in line and not line.lstrip().startswith("#")]


def parents():
    """The parent of each process."""
    found = {}
    for name in filter(str.isdigit, os.listdir("/proc")):
        try:
            found[int(name)] = int(open(f"/proc/{name}/stat").read().rpartition(")")[2].split()[1])
        except (OSError, IndexError):
            pass
    return found


def task_of(process):
    """The crate and the kind of what a prover proves, if the process is one."""
    try:
        words = open(f"/proc/{process}/cmdline").read().split("\0")
    except OSError:
        return None
    if not words[0].endswith("/rattle") or "--crate-name" not in words:
        return None
    kind = "edits" if "--incremental" in words else "tests" if "--test" in words else "proof"
    return words[words.index("--crate-name") + 1], kind


def taken(process):
    """The seconds of a processor that a process and its ended children took, and its peak memory in gigabytes."""
    fields = open(f"/proc/{process}/stat").read().rpartition(")")[2].split()
    peak = re.search(r"VmHWM:\s+(\d+)", open(f"/proc/{process}/status").read())
    return sum(map(int, fields[11:15])) / TICKS, int(peak[1]) / 1e6 if peak else 0


def sample(root, seen):
    """Notes what each prover below a process has taken so far."""
    above = parents()

    def chain(process):
        while process in above:
            yield process
            process = above[process]
    for process in above:
        line = list(chain(process))
        provers = [one for one in line if one in seen or task_of(one)]
        if root in line and provers:
            top = provers[-1]
            try:
                seconds, memory = taken(process)
            except (OSError, IndexError):
                continue
            parts = seen.setdefault(top, (task_of(top), {}))[1]
            parts[process] = seconds, max(memory, parts.get(process, (0, 0))[1])


def sums(seen):
    """What each crate's proofs took together, and the most memory that one of them took."""
    found = {}
    for task, parts in seen.values():
        if task:
            seconds, memory = found.get(task, (0, 0))
            found[task] = seconds + sum(one for one, _ in parts.values()), max(memory, *(one for _, one in parts.values()))
    return found


def kept():
    if not os.path.exists(KEPT):
        return {}
    rows = [line.rstrip("\n").split("\t") for line in open(KEPT)][1:]
    return {(crate, kind): (float(seconds), float(memory)) for crate, kind, seconds, memory in rows}


def keep(found):
    held = {**kept(), **found}
    with open(KEPT, "w") as file:
        file.write("crate\tkind\tseconds\tgigabytes\n")
        for crate in crates():
            for kind in KINDS:
                if (crate, kind) in held:
                    seconds, memory = held[crate, kind]
                    file.write(f"{crate}\t{kind}\t{seconds:.0f}\t{memory:.1f}\n")


def table():
    """The table of CONTRIBUTING.md, by what is kept."""
    held = kept()
    rows = ["| Crate | Proof, seconds | Tests, seconds | Edits with their seed, seconds | Memory, GB |", "|---|---|---|---|---|"]
    for crate in crates():
        told = [held.get((crate, kind)) for kind in KINDS]
        cells = [f"{one[0]:.0f}" if one else "" for one in told]
        memory = max((one[1] for one in told if one), default=None)
        rows.append(f"| {crate} | {' | '.join(cells)} | {f'{memory:.1f}' if memory else ''} |")
    sum_of = [sum(held[key][0] for key in held if key[1] == kind) / 60 for kind in KINDS]
    rows.append(f"| all, minutes | {' | '.join(f'{one:.0f}' for one in sum_of)} | |")
    return "\n".join(rows)


def page_with(rows):
    """CONTRIBUTING.md with this table."""
    text = open(PAGE).read()
    return re.sub(r"^\| Crate \| Proof.*?(?=\n\n)", lambda _: rows, text, flags=re.M | re.S)


def watch(root, is_running):
    seen = {}
    while is_running():
        sample(root, seen)
        time.sleep(0.5)
    keep(sums(seen))


def main():
    words = sys.argv[1:]
    if words == ["--table"]:
        page = page_with(table())
        open(PAGE, "w").write(page)
        return 0
    if words[0] == "--process":
        watch(int(words[1]), lambda: os.path.exists(f"/proc/{words[1]}"))
        return 0
    command = subprocess.Popen(words)
    watch(command.pid, lambda: command.poll() is None)
    return command.returncode


if __name__ == "__main__":
    sys.exit(main())
