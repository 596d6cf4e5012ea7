#!/usr/bin/env python3
"""Measures how fast a walk through a graph of many nodes is stepped, and its peak memory.

usage: walks.py PROGRAM [LINES EVENTS]..

PROGRAM is the built program of crates/term_bench (`rt run` there builds it in out/). The graph is a ring of so many lines, the last of
which is the `end` line; each other node is an action of one instance with one of eight labels, and the walk is taken through so many
nodes, one after another. Each size is run three times without events and with them, and the least times of a processor count: their
difference is that of the events.
"""
import sys

import measured

SIZES = [(1_000, 500), (2_000, 500), (4_000, 500)]


def main():
    program = sys.argv[1]
    given = sys.argv[2:]
    sizes = list(zip(map(int, given[::2]), map(int, given[1::2]))) or SIZES
    for lines, events in sizes:
        made = min(measured.child([program, "walk", str(lines), "0"])[1] for _ in range(3))
        runs = [measured.child([program, "walk", str(lines), str(events)]) for _ in range(3)]
        each = (min(r[1] for r in runs) - made) / events
        print(f"{lines} lines: {runs[0][0]}; {made:.3f} s of a processor before the first event, {each * 1e6:,.0f} µs an event, "
              f"peak {max(r[2] for r in runs):.0f} MiB", flush=True)


if __name__ == "__main__":
    main()
