#!/usr/bin/env python3
"""Measures how fast `mscjudge check` accepts documents of many charts, and how much memory it takes, at several sizes.

usage: check.py PROGRAM [CHARTS ..]

PROGRAM is the built program (crates/mscjudge/out/mscjudge after `rt run mscjudge`). Each document has so many charts (1,000, 2,000
and 4,000) of about 1,040 bytes each, so the largest has just under 4 MiB, the limit. The charts have columns, statements, names
in pairs, timers and lost messages. A last document has the same bytes in one chart. Each run is taken three times, and the least
processor time counts. The memory is the peak of the run.
"""
import os
import subprocess
import sys
import tempfile

LIMIT = 4_194_304

MESSAGES = "caller: out request,{n}('5') to server;\nserver: in request,{n}('5') from caller;\n"
LAST = "server: out answer{n} to lost caller;\nserver: starttimer T{n}(20);\nserver: stoptimer T{n};\n"
COLUMNS = "instance caller;\n out last to server;\nendinstance;\ninstance server: process P;\n in last from caller;\nendinstance;\n"


def chart(number, length):
    parts = [f"msc C{number};\ninst caller,server;\n", COLUMNS]
    size, events = sum(map(len, parts)) + len("endmsc;\n"), 0
    while True:
        part = (MESSAGES if events % 3 else MESSAGES + LAST).format(n=events)
        if size + len(part) > length:
            return "".join([*parts, "endmsc;\n"])
        parts.append(part)
        size, events = size + len(part), events + 1


def document(charts):
    return "".join(chart(number, 1_040) for number in range(charts))


def run(program, folder):
    """What the program prints, its processor time and its peak memory in MiB."""
    child = subprocess.Popen([program, "check", "document"], cwd=folder, stdout=subprocess.PIPE)
    printed = child.stdout.read().decode().strip()
    _, _, usage = os.wait4(child.pid, 0)
    return printed, usage.ru_utime + usage.ru_stime, usage.ru_maxrss / 1024


def measure(program, name, text, wanted):
    assert len(text) <= LIMIT, len(text)
    with tempfile.TemporaryDirectory() as folder:
        with open(os.path.join(folder, "document"), "w", encoding="ascii") as file:
            file.write(text)
        runs = [run(program, folder) for _ in range(3)]
    assert all(printed == wanted for printed, _, _ in runs), runs
    seconds, memory = min(it[1] for it in runs), max(it[2] for it in runs)
    print(f"{name}: {len(text):,} bytes, {seconds:.2f} s, {len(text) / seconds / 1e6:.1f} million bytes a second, {memory:.0f} MiB")


def main():
    program = os.path.abspath(sys.argv[1])
    for charts in [int(it) for it in sys.argv[2:]] or [1_000, 2_000, 4_000]:
        measure(program, f"{charts:,} charts", document(charts), f"accepted, charts {charts}")
    one = chart(0, 2_000_000)
    measure(program, "one chart", one, "accepted, charts 1")


if __name__ == "__main__":
    main()
