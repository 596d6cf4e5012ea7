#!/usr/bin/env python3
"""Measures how fast `mscjudge judge` reads a log, in both forms, and states the peak memory.

usage: log_reader.py PROGRAM [EVENTS]

PROGRAM is the built program (crates/mscjudge/out/mscjudge after `rt run mscjudge`). The log has so many events (1,000,000)
of all kinds. The chart of the document has no event, so the first one fails: what is measured is the reading, which goes to the
log's end whatever the verdict is. Each run is taken three times, and the least time counts; the time of an empty log is taken off.
Processor time is given beside the time that passed, since it depends less on what else the machine does.
"""
import json
import os
import sys
import tempfile

import measured

# an event in the text form, and its kind, text and far end in JSON
EVENTS = [
    ("n1: out request to n2;", ("n1", "out", "request", "n2")),
    ("n2: in request from n1;", ("n2", "in", "request", "n1")),
    ("n2: action 'look up';", ("n2", "action", "'look up'", None)),
    ("n2: starttimer T1;", ("n2", "start", "T1", None)),
    ("n2: out answer(a,b) to n1;", ("n2", "out", "answer(a,b)", "n1")),
    ("n2: stoptimer T1;", ("n2", "stop", "T1", None)),
    ("n1: in answer(a,b) from n2;", ("n1", "in", "answer(a,b)", "n2")),
    ("n1: out done to env;", ("n1", "out", "done", "env")),
    ("n1: out gone to lost n3;", ("n1", "lost", "gone", "n3")),
    ("n1: timeout T2;", ("n1", "timeout", "T2", None)),
]


def json_line(event):
    at, kind, text, far = event
    members = {"at": at, "kind": kind, "text": text}
    if far is not None:
        members["far"] = far
    return json.dumps(members, separators=(",", ":"))


def log_of(form, events):
    lines = [(text if form == "lines" else json_line(event)) + "\n" for text, event in EVENTS]
    rounds, left = divmod(events, len(lines))
    return "".join(lines) * rounds + "".join(lines[:left])


def timed(program, folder, options):
    """Three runs: the least passed time and processor time, the largest peak memory, and what was printed."""
    runs = [measured.run([program, "judge", "none.msc", "None", "log"] + options, folder) for _ in range(3)]
    printed = runs[0].printed.decode().strip()
    return min(run.passed for run in runs), min(run.processor for run in runs), max(run.peak for run in runs), printed


def write(folder, name, text):
    with open(os.path.join(folder, name), "w", encoding="ascii") as file:
        file.write(text)


def main():
    program = os.path.abspath(sys.argv[1])
    events = int(sys.argv[2]) if len(sys.argv) > 2 else 1_000_000
    good = True
    with tempfile.TemporaryDirectory() as folder:
        write(folder, "none.msc", "msc None; inst n1,n2; endmsc;\n")
        for form, options in (("lines", []), ("json", ["--log-json"])):
            write(folder, "log", "")
            empty, empty_processor, _, _ = timed(program, folder, options)
            log = log_of(form, events)
            write(folder, "log", log)
            passed, processor, peak, printed = timed(program, folder, options)
            good = good and printed == "fails at event 1, line 1"
            net = max(processor - empty_processor, 1e-9)
            print("%s: %d events, %d bytes, %s" % (form, events, len(log), printed))
            print("%s: %.2f seconds passed, %.2f seconds of a processor" % (form, passed - empty, net))
            print("%s: %.1f million bytes and %.2f million events in a second of a processor; peak memory %.0f MiB"
                  % (form, len(log) / net / 1e6, events / net / 1e6, peak))
    print("load of the machine in the last minute: %.1f, processors: %d" % (os.getloadavg()[0], os.cpu_count()))
    return 0 if good else 1


if __name__ == "__main__":
    sys.exit(main())
