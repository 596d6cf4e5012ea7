#!/usr/bin/env python3
"""Runs a program, for the other scripts, and tells its time and its peak memory.

A child of a process counts that process's memory as its own until it is the program, so a script that holds a large text can't
measure a program that it starts. `run` starts this file, which is small, and this file starts the program; below its own size
of about 10 MiB nothing can be told apart.
"""
import base64
import json
import os
import resource
import subprocess
import sys
import time


def child(words):
    """What the program of these words printed, the seconds of a processor, the peak memory in MiB: for scripts that hold little."""
    started = subprocess.Popen(words, stdout=subprocess.PIPE, text=True)
    printed = started.stdout.read().strip()
    _, status, usage = os.wait4(started.pid, 0)
    if status != 0:
        sys.exit(f"{' '.join(words[1:])}: status {status}")
    return printed, usage.ru_utime + usage.ru_stime, usage.ru_maxrss / 1024


class Run:
    """How a program ended: its status, what it printed, the seconds that passed, the seconds of a processor, the peak memory in MiB."""

    def __init__(self, told):
        self.status = told["status"]
        self.printed = base64.b64decode(told["printed"])
        self.passed = told["passed"]
        self.processor = told["processor"]
        self.peak = told["peak"]


def run(words, folder):
    """Runs the program of these words in the folder."""
    told = subprocess.run([sys.executable, "-S", "-E", os.path.abspath(__file__)] + words, cwd=folder, capture_output=True, check=True)
    return Run(json.loads(told.stdout))


def asked(description, known):
    """The program and the works that the words ask for: all that are known, where none is named."""
    # here alone, so that the process that measures stays small
    import argparse
    words = argparse.ArgumentParser(description=description)
    words.add_argument("--program", required=True)
    words.add_argument("works", nargs="*", metavar="WORK")
    given = words.parse_args()
    if not set(given.works) <= set(known):
        words.error("the works are " + " ".join(known))
    return os.path.abspath(given.program), given.works or list(known)


def judged(program, told, document, words, log):
    """Runs the program of these words three times over a document and a log, and tells the last line, the least time and the peak memory."""
    # here alone, as in asked
    import tempfile
    with tempfile.TemporaryDirectory() as folder:
        for name, text in (("d", document), ("l", log)):
            with open(os.path.join(folder, name), "w", encoding="ascii") as file:
                file.write(text)
        runs = [run([program, *words], folder) for _ in range(3)]
    best = min(runs, key=lambda one: one.processor)
    last = best.printed.decode().strip().split("\n")[-1]
    print(f"{told}, {len(document)} bytes: {last}, {best.processor:.2f} s of a processor, {best.peak:.0f} MiB", flush=True)


def all_asked(description, works):
    """Measures the works that the words ask for; of each work, what its parts are, and how a document, words and a log are made."""
    program, names = asked(description, works)
    for name in names:
        for told, make in works[name]:
            judged(program, told, *make())
    return 0


def main():
    start = time.monotonic()
    done = subprocess.run(sys.argv[1:], stdout=subprocess.PIPE, stderr=subprocess.STDOUT, check=False)
    passed = time.monotonic() - start
    usage = resource.getrusage(resource.RUSAGE_CHILDREN)
    json.dump({
        "status": done.returncode,
        "printed": base64.b64encode(done.stdout).decode(),
        "passed": passed,
        "processor": usage.ru_utime + usage.ru_stime,
        "peak": usage.ru_maxrss / 1024,
    }, sys.stdout)


if __name__ == "__main__":
    main()
