#!/usr/bin/env python3
"""Measures how `mscjudge` takes charts of coregions and inline expressions: the seconds of a processor, and the peak memory.

usage: finite.py --program PROGRAM [WORK ..]

PROGRAM is the built program (crates/mscjudge/out/mscjudge after `rt run mscjudge`). Each work is run three times, and the least time
counts; what is printed has to be what is wanted. The works, all of them where none is named:

    choices     40 choices of one of two actions, and a log of the second of each
    coregion    ten equal actions in a coregion, and a log of them
    large       20,000 events in 400 choices over 20 instances: check, and a log of 10,000 events
    exceptions  2,000 and 22,000 exceptions, each with an event before the next: check, and a log without an exception
    behind      30,000 exceptions of one event each, one behind another: check, the empty log, and the event of the last
    documents   documents of 1, 2 and 4 MiB with inline expressions within each other, in statements and in columns: check; behind
                the time stands how much longer it took than for the document before, which has half the bytes
"""
import os
import sys
import tempfile

import measured

DEPTH = 12


def chart(name, instances, items):
    return f"msc {name};\ninst {','.join(instances)};\n" + "".join(item + "\n" for item in items) + "endmsc;\n"


def choices(times):
    one = measure(times, "choices", chart("V", "i", ["i: alt begin; i: action 'x'; alt; i: action 'y'; alt end;"] * 40))
    one("judge d V l", "i: action 'y';\n" * 40, "conforms, events 40")


def coregion(times):
    one = measure(times, "coregion", chart("N", "i", ["i: concurrent; " + "action 'x'; " * 10 + "endconcurrent;"]))
    one("judge d N l", "i: action 'x';\n" * 10, "conforms, events 10")


def exchange(first, second, mark):
    """25 events of two instances, and their lines."""
    lines = []
    for number in range(6):
        lines += [f"{first}: out m{mark}{number} to {second};", f"{second}: in m{mark}{number} from {first};"]
        lines += [f"{second}: out n{mark}{number} to {first};", f"{first}: in n{mark}{number} from {second};"]
    return lines + [f"{first}: action 'done';"]


def large_chart():
    """20,000 events in 400 choices, and a log."""
    instances, items, log = [f"n{number}" for number in range(20)], [], []
    for number in range(400):
        first, second = instances[number % 20], instances[(7 * number + 1) % 20]
        if first == second:
            second = instances[(number + 1) % 20]
        operands = [exchange(first, second, mark) for mark in "ab"]
        items.append(f"{first},{second}: alt begin;\n" + "\n".join(operands[0]) + "\nalt;\n" + "\n".join(operands[1]) + "\nalt end;")
        log += operands[number % 2]
    return chart("L", instances, items), log


def large(times):
    document, log = large_chart()
    one = measure(times, "large", document)
    one("check d", "", "accepted, charts 1")
    one("judge d L l", "".join(line + "\n" for line in log), f"conforms, events {len(log)}")


def with_exceptions(count):
    return chart("E", "i", ["i: exc begin; i: action 'x'; exc end; i: action 'y';"] * count)


def exceptions(times):
    for count in (2_000, 22_000):
        one = measure(times, f"exceptions {count:,}", with_exceptions(count))
        one("check d", "", "accepted, charts 1")
        one("judge d E l", "i: action 'y';\n" * count, f"conforms, events {count}")


def behind(times):
    count = 30_000
    one = measure(times, f"behind {count:,}", chart("E", "i", [f"i: exc begin; i: action x{number}; exc end;" for number in range(count)]))
    one("check d", "", "accepted, charts 1")
    one("judge d E l", "", "conforms, events 0")
    one("judge d E l", f"i: action x{count - 1};\n", "conforms, events 1")


def nested(depth, number):
    """Statements with inline expressions within each other, to this depth."""
    here = f"i: out a,{number} to j;\nj: in a,{number} from i;\ni: concurrent; action 'x'; action 'y'; endconcurrent;\n"
    if depth == 0:
        return here
    form = ["alt", "par", "opt"][depth % 3]
    more = "" if form == "opt" else f"{form};\nj: action 'z';\n"
    return f"{here}all: {form} begin;\n{nested(depth - 1, number)}{more}{form} end;\n"


def part(depth, event, number):
    """The part of a column, likewise; its names tell the levels apart."""
    if depth == 0:
        return event + "\n"
    form = ["alt", "par", "opt"][depth % 3]
    more = "" if form == "opt" else f"{form};\naction 'z';\n"
    return f"{event}\n{form} begin X{number} shared all;\n{part(depth - 1, event, number)}{more}{form} end;\n"


def small(name):
    columns = "".join(f"instance {i};\n{part(DEPTH, event, 0)}{part(DEPTH, event, 1)}endinstance;\n"
                      for i, event in (("i", "out b to j;"), ("j", "in b from i;")))
    return f"msc {name};\ninst i,j;\n{nested(DEPTH, 1)}{columns}{nested(DEPTH, 2)}endmsc;\n"


def documents(times):
    for size in (1 << 20, 1 << 21, 1 << 22):
        text, count = [], 0
        left = size
        while left >= len(small(f"C{count}")):
            text.append(small(f"C{count}"))
            left, count = left - len(text[-1]), count + 1
        one = measure(times, "documents", "".join(text))
        one("check d", "", f"accepted, charts {count}")


def measure(times, name, document):
    """What runs the words over the document and a log, and tells the time and the memory."""
    def one(words, log, wanted):
        with tempfile.TemporaryDirectory() as folder:
            for file, text in (("d", document), ("l", log)):
                with open(os.path.join(folder, file), "w", encoding="ascii") as out:
                    out.write(text)
            runs = [measured.run([times["program"], *words.split()], folder) for _ in range(3)]
        printed, seconds = runs[0].printed.decode().strip(), min(run.processor for run in runs)
        before = times.get((name, words))
        grown = f", {seconds / before:.1f} times the time before" if name == "documents" and before else ""
        times[name, words] = seconds
        times["good"] = times["good"] and printed == wanted and runs[0].status >= 0
        wrong = "" if printed == wanted else f"; WANTED {wanted}, status {runs[0].status}"
        print(f"{name}: {words.split()[0]}, document {len(document):,} bytes, log {len(log):,} bytes, {seconds:.3f} s of a processor, "
              f"peak {max(run.peak for run in runs):.0f} MiB{grown}; {printed}{wrong}", flush=True)
    return one


WORKS = {work.__name__: work for work in (choices, coregion, large, exceptions, behind, documents)}


def main():
    program, asked = measured.asked(__doc__.splitlines()[0], WORKS)
    times = {"program": program, "good": True}
    for name in asked:
        WORKS[name](times)
    print("load of the machine in the last minute: %.1f, processors: %d" % (os.getloadavg()[0], os.cpu_count()))
    return 0 if times["good"] else 1


if __name__ == "__main__":
    sys.exit(main())
