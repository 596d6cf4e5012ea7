#!/usr/bin/env python3
"""Measures how fast a set of residual terms is stepped through the events of a log, and its peak memory.

usage: residuals.py PROGRAM [WORK COUNT]..

PROGRAM is the built program of crates/term_bench (`rt run` there builds it in out/). Each size of a work is run three times, and
the least time of a processor counts; behind it stands how much larger that is than at the size before, against the events. The
works, with COUNT:

    requests   a loop of one message: so many of them, each received before the next is sent; two events each
    exchanges  a loop of a request and one of two answers: so many of them; four events each
    coregions  ten equal actions in a coregion: so many logs of ten events
    coregion   so many equal actions in a coregion
    choices    so many choices of one of two actions, in a row
    ahead      the loop of requests: so many are sent, and then received
    statements a plain chart of so many statements over sixty instances under one tie, in whole groups of sixty
    behind     so many equal actions of one instance, and behind them as many of another, which happen first
"""
import sys

import measured

EVENTS = {"requests": 2, "exchanges": 4, "coregions": 10, "coregion": 1, "choices": 1, "ahead": 2, "behind": 2, "statements": 1}
WORKS = [
    ("requests", 50_000), ("requests", 500_000),
    ("exchanges", 10_000), ("exchanges", 100_000),
    ("coregions", 100), ("coregions", 1_000),
    ("coregion", 10), ("coregion", 14), ("coregion", 18),
    ("choices", 2_000), ("choices", 30_000),
    ("ahead", 2_000), ("ahead", 30_000), ("ahead", 500_000),
    ("behind", 2_000), ("behind", 30_000),
    ("statements", 3_000), ("statements", 6_000), ("statements", 66_000),
]


def main():
    program = sys.argv[1]
    given = sys.argv[2:]
    works = list(zip(given[::2], map(int, given[1::2]))) or WORKS
    before = ("", 0, 0.0)
    for work, count in works:
        runs = [measured.child([program, work, str(count)]) for _ in range(3)]
        processor = min(r[1] for r in runs)
        events = EVENTS[work] * count
        rate = events / processor if processor else float("inf")
        grown = ""
        if before[0] == work and before[2]:
            grown = f"; {processor / before[2]:.1f} times the time for {events / before[1]:.1f} times the events"
        print(f"{work} {count}: {runs[0][0]}; {events:,} events, {processor:.3f} s of a processor, {rate:,.0f} events a second, "
              f"peak {max(r[2] for r in runs):.0f} MiB{grown}", flush=True)
        before = (work, events, processor)


main()
