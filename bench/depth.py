#!/usr/bin/env python3
"""Finds how deep a term may be before its calls run out of stack.

usage: depth.py PROGRAM

PROGRAM is the built program of crates/term_bench. Its charts have so many choices, each within the one before it; a choice adds
two to a term's depth, and has a tied message beside the choices within it: behind them, or for the works with -last in front of them,
as exceptions stand. For the works with -tied the message stands behind those choices and the tie above both, so a choice adds three.
The stack is what the shell's `ulimit -s` gives. For each work the most
choices are found, to one in a hundred, with which the program doesn't crash, and what of the stack one of them takes. The works:

    held      the term is made and dropped
    nested    may it end?
    passed    permission, for an event behind all choices
    entered   what is left after the innermost event
    compared  two equal terms, of which neither is known to be the other
"""
import resource
import subprocess
import sys

WORKS = ["held", "nested", "passed", "entered", "compared"]
DEPTHS = {"": 2, "-last": 2, "-tied": 3}
MOST = 1_000_000


def stands(program, work, levels):
    """Whether the program comes to its end; it must not refuse the work."""
    status = subprocess.run([program, work, str(levels)], stdout=subprocess.DEVNULL, stderr=subprocess.DEVNULL).returncode
    if status > 0:
        sys.exit(f"{work} {levels}: status {status}")
    return status == 0


def most_levels(program, work):
    """The most choices with which the program stands."""
    low, high = 1, 64
    while high < MOST and stands(program, work, high):
        low, high = high, 2 * high
    while high - low > max(1, low // 100):
        middle = (low + high) // 2
        if stands(program, work, middle):
            low = middle
        else:
            high = middle
    return low


def main():
    program = sys.argv[1]
    stack = resource.getrlimit(resource.RLIMIT_STACK)[0]
    print(f"stack {stack // 1024} KiB")
    for tied, depth in DEPTHS.items():
        for work in WORKS:
            levels = most_levels(program, work + tied)
            print(f"{work + tied}: {levels} choices, a depth of {depth * levels}; {stack / levels:.0f} bytes of stack for each choice", flush=True)


main()
