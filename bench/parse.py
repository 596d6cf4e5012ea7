#!/usr/bin/env python3
"""Measures how fast `mscjudge judge` reads documents, and how much memory it takes, at several sizes.

usage: parse.py PROGRAM [BYTES ..]

PROGRAM is the built program (crates/mscjudge/out/mscjudge after `rt run mscjudge`). Each document has just under so many bytes
(1, 2 and 4 MiB, the last of which is the limit): one chart of statements with nested inline expressions, many small charts, and
one list of names, which has the most tokens. Each run is taken three times, and the least processor time counts. The memory is
the peak of the run.
"""
import os
import subprocess
import sys
import tempfile

LIMIT = 4_194_304

NESTED = (
    "n1,n2: alt begin;\n n1: out request to n2;\n n2: in request from n1;\n n1,n2: loop <1,3> begin;\n  n2: action 'look up';\n"
    "  all: opt begin;\n   n2: starttimer T1(20);\n   n2: timeout T1;\n  opt end;\n loop end;\nalt;\n n1: out gone to lost n2;\nalt end;\n"
    "n1: concurrent;\n label x;\n action a before y;\n label y;\n action b;\nendconcurrent;\n"
    "n1,n2: reference R: loop <1,2> (A alt B) seq opt C;\n"
)

SMALL = "msc C%d;\ninst i,j;\ni: out a to j;\nj: in a from i;\ni,j: opt begin;\ni: action 'x';\nopt end;\nendmsc;\n"


def statements(size):
    front, end = "msc Large;\ninst n1,n2;\n", "endmsc;\n"
    return front + NESTED * ((size - len(front) - len(end)) // len(NESTED)) + end


def charts(size):
    parts, length = [], 0
    while True:
        part = SMALL % len(parts)
        length += len(part)
        if length > size:
            return "".join(parts)
        parts.append(part)


def names(size):
    front, end = "msc Large; msg a", "; endmsc;"
    return front + ",a" * ((size - len(front) - len(end)) // 2) + end


KINDS = [("statements", statements), ("charts", charts), ("names", names)]


def run(program, folder):
    """What the program prints, its processor time and its peak memory in MiB."""
    child = subprocess.Popen([program, "judge", "document", "Large", "log"], cwd=folder, stdout=subprocess.PIPE)
    printed = child.stdout.read().decode().strip()
    _, _, usage = os.wait4(child.pid, 0)
    return printed, usage.ru_utime + usage.ru_stime, usage.ru_maxrss / 1024


def write(folder, name, text):
    with open(os.path.join(folder, name), "w", encoding="ascii") as file:
        file.write(text)


def main():
    program = os.path.abspath(sys.argv[1])
    sizes = [int(word) for word in sys.argv[2:]] or [LIMIT // 4, LIMIT // 2, LIMIT]
    with tempfile.TemporaryDirectory() as folder:
        write(folder, "log", "")
        for kind, make in KINDS:
            for size in sizes:
                document = make(size)
                write(folder, "document", document)
                runs = [run(program, folder) for _ in range(3)]
                seconds = min(run[1] for run in runs)
                print("%s: %d bytes, %.2f seconds of a processor, %.2f million bytes a second, peak memory %.0f MiB; %s"
                      % (kind, len(document), seconds, len(document) / seconds / 1e6, max(run[2] for run in runs), runs[0][0]))
    print("load of the machine in the last minute: %.1f, processors: %d" % (os.getloadavg()[0], os.cpu_count()))


if __name__ == "__main__":
    main()
