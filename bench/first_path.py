#!/usr/bin/env python3
"""Times `mscjudge judge` on a large plain chart and its log, and states the peak memory.

usage: first_path.py PROGRAM [STATEMENTS [INSTANCES]]

PROGRAM is the built program (crates/mscjudge/out/mscjudge after `rt run mscjudge`). The chart has so many statements
(66,000, just below what a chart may hold) over so many instances (60); the log is one of its runs, in another order than the text where the chart allows it.
"""
import os
import random
import sys
import tempfile

import measured


def chart_of(statements, instances, seed):
    """The text of a chart, and its events as (instance, text, number of the output or None)."""
    draw = random.Random(seed)
    names = ["n%d" % k for k in range(instances)]
    lines, events, waiting = [], [], []
    while len(events) < statements:
        left = statements - len(events)
        if waiting and (len(waiting) >= left or draw.random() < 0.5):
            sender, receiver, text, number = waiting.pop(0)
            events.append((receiver, "%s: in %s from %s;" % (receiver, text, sender), number))
        else:
            sender, receiver = draw.sample(names, 2)
            text = "m%d" % draw.randrange(1 + statements // 10)
            waiting.append((sender, receiver, text, len(events)))
            events.append((sender, "%s: out %s to %s;" % (sender, text, receiver), None))
    lines = ["msc Large;", "inst %s;" % ",".join(names)] + [line for _, line, _ in events] + ["endmsc;"]
    return "\n".join(lines) + "\n", events


def run_of(events, seed):
    """A run of the events: any of the columns' next events whose output has happened."""
    draw = random.Random(seed)
    columns = {}
    for number, (at, _, _) in enumerate(events):
        columns.setdefault(at, []).append(number)
    heads = {at: 0 for at in columns}
    happened, order = set(), []
    open_columns = list(columns)
    while open_columns:
        at = draw.choice(open_columns)
        number = columns[at][heads[at]]
        output = events[number][2]
        if output is not None and output not in happened:
            continue
        happened.add(number)
        order.append(number)
        heads[at] += 1
        if heads[at] == len(columns[at]):
            open_columns.remove(at)
    return "".join(events[number][1] + "\n" for number in order)


def main():
    program = os.path.abspath(sys.argv[1])
    statements = int(sys.argv[2]) if len(sys.argv) > 2 else 66_000
    instances = int(sys.argv[3]) if len(sys.argv) > 3 else 60
    statements -= statements % 2
    text, events = chart_of(statements, instances, 7)
    log = run_of(events, 11)
    with tempfile.TemporaryDirectory() as folder:
        with open(os.path.join(folder, "large.msc"), "w") as file:
            file.write(text)
        with open(os.path.join(folder, "large.log"), "w") as file:
            file.write(log)
        done = measured.run([program, "judge", "large.msc", "Large", "large.log"], folder)
    print("statements %d, instances %d, document %d bytes, log %d bytes" % (statements, instances, len(text), len(log)))
    print("status %d, %s" % (done.status, done.printed.decode().strip()))
    print("%.2f seconds, %.2f of a processor, peak memory %.0f MiB" % (done.passed, done.processor, done.peak))
    return 0 if done.status == 0 else 1


if __name__ == "__main__":
    sys.exit(main())
