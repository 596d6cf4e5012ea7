#!/usr/bin/env python3
"""Measures how fast `mscjudge` judges long logs and many short ones, and checks a large document: the seconds of a processor, and
the peak memory.

usage: speed.py --program PROGRAM [WORK ..]

PROGRAM is the built program (crates/mscjudge/out/mscjudge after `rt run mscjudge`). Each work is run three times, and the least time
counts; what is printed has to be what is wanted. The peak memory includes the 11 MiB that measured.py itself takes. The works, all of
them where none is named:

    loop          a loop of one message, each received before the next is sent: 1,000,000 events, as text and as JSON
    ahead         the same loop, all messages sent before the first is received: 60,000 and 1,000,000 events
    answers       a loop of a request and one of two answers, these in turn at random: 1,000,000 events
    same          1,000,000 events of one line, as text and as JSON: the first fails, and the log is read to its end
    few           1,000,000 events of ten lines, as text and as JSON, likewise
    different     1,000,000 events of as many lines, as text and as JSON, likewise
    statements    a chart of 66,000 statements over 60 instances, and its log
    alternatives  2,000, 4,000 and 8,000 alternatives of the same two messages one behind another, and their logs
    blocked       beside an action and as many options of one label behind it, as many events of that label: 2,000 and 4,000
    choices       40 choices of one of two actions: 1,000 logs, each by a run of its own
    coregion      ten equal actions in a coregion: 1,000 logs, each by a run of its own
    document      4,000 charts of about 1,000 bytes, 4 MB together: check
    sample        the sample of 100,000 turns and of 250,000, which the program makes itself
"""
import os
import random
import sys
import tempfile

import check
import finite
import first_path
import log_reader
import measured

EVENTS = 1_000_000
RUNS = 1_000
EMPTY = "msc None;\nendmsc;\n"


def lines_of(events, form):
    """A log of these events, each in the text form or in JSON."""
    return "".join((text if form == "lines" else log_reader.json_line(event)) + "\n" for text, event in events)


def reading(measure, name, events):
    for form, option in (("lines", ""), ("json", " --log-json")):
        measure(name, EMPTY, lines_of(events, form), "judge d None l" + option, "fails at event 1, line 1")


LOOP = "i,j: loop <1,inf> begin; i: out a to j; j: in a from i; loop end;"


def loop(measure):
    turn = [("i: out a to j;", ("i", "out", "a", "j")), ("j: in a from i;", ("j", "in", "a", "i"))]
    for form, option in (("lines", ""), ("json", " --log-json")):
        measure("loop", finite.chart("A", "ij", [LOOP]), lines_of(turn * (EVENTS // 2), form), "judge d A l" + option, f"conforms, events {EVENTS}")


def ahead(measure):
    for count in (30_000, EVENTS // 2):
        log = "i: out a to j;\n" * count + "j: in a from i;\n" * count
        measure(f"ahead {count:,}", finite.chart("A", "ij", [LOOP]), log, "judge d A l", f"conforms, events {2 * count}")


def answers(measure):
    answer = "c,s: alt begin; s: out yes to c; c: in yes from s; alt; s: out no to c; c: in no from s; alt end;"
    chart = finite.chart("S", "cs", ["c,s: loop <1,inf> begin; c: out req to s; s: in req from c; " + answer + " loop end;"])
    drawn = random.Random(7)
    turns = ("c: out req to s;\ns: in req from c;\ns: out {0} to c;\nc: in {0} from s;\n".format(drawn.choice(["yes", "no"])) for _ in range(EVENTS // 4))
    measure("answers", chart, "".join(turns), "judge d S l", f"conforms, events {EVENTS}")


def same(measure):
    reading(measure, "same", log_reader.EVENTS[:1] * EVENTS)


def few(measure):
    reading(measure, "few", log_reader.EVENTS * (EVENTS // 10))


def different(measure):
    reading(measure, "different", [(f"n1: action a{number};", ("n1", "action", f"a{number}", None)) for number in range(EVENTS)])


def statements(measure):
    text, events = first_path.chart_of(66_000, 60, 7)
    measure("statements", text, first_path.run_of(events, 11), "judge d Large l", "conforms, events 66000")


def alternatives(measure):
    message = "a: out {0} to b;\nb: in {0} from a;\n"
    choice = "all: alt begin;\n" + message.format("m") + "alt;\n" + message.format("n") + "alt end;"
    for count in (2_000, 4_000, 8_000):
        chart = finite.chart("A", "ab", [choice] * count)
        measure(f"alternatives {count:,}", chart, message.format("n") * count, "judge d A l", f"conforms, events {2 * count}")


def blocked(measure):
    for count in (2_000, 4_000):
        behind = "i: action 'first';\n" + "i: opt begin; i: action 'x'; opt end;\n" * count
        chart = finite.chart("B", "i", ["i: par begin;\n" + behind + "par;\n" + "i: action 'x';\n" * count + "par end;"])
        measure(f"blocked {count:,}", chart, "i: action 'x';\n" * count, "judge d B l", f"stops early, events {count}")


def often(words):
    """The program with these words, so many times, of which the last prints."""
    return ["sh", "-c", f'n=1; while [ $n -lt {RUNS} ]; do "$@" > {os.devnull} || exit; n=$((n + 1)); done; "$@"', "sh", *words]


def choices(measure):
    chart = finite.chart("V", "i", ["i: alt begin; i: action 'x'; alt; i: action 'y'; alt end;"] * 40)
    measure("choices", chart, "i: action 'y';\n" * 40, "judge d V l", "conforms, events 40", often)


def coregion(measure):
    chart = finite.chart("N", "i", ["i: concurrent; " + "action 'x'; " * 10 + "endconcurrent;"])
    measure("coregion", chart, "i: action 'x';\n" * 10, "judge d N l", "conforms, events 10", often)


def document(measure):
    measure("document", check.document(4_000), "", "check d", "accepted, charts 4000")


def sample(measure):
    for turns, yes in ((100_000, 50_137), (250_000, 125_056)):
        wanted = f"sample: turns {turns}, yes {yes}, no {turns - yes}, events {4 * turns}, largest weight 31, conforms"
        measure("sample", "", "", f"sample {turns} 7", wanted)


WORKS = {work.__name__: work for work in (loop, ahead, answers, same, few, different, statements, alternatives, blocked, choices, coregion, document, sample)}


def main():
    program, asked = measured.asked(__doc__.splitlines()[0], WORKS)
    wrong = []

    def measure(name, chart, log, words, wanted, started=list):
        with tempfile.TemporaryDirectory() as folder:
            for file, text in (("d", chart), ("l", log)):
                with open(os.path.join(folder, file), "w", encoding="ascii") as out:
                    out.write(text)
            runs = [measured.run(started([program, *words.split()]), folder) for _ in range(3)]
        printed = runs[0].printed.decode().strip()
        if printed != wanted:
            wrong.append(name)
        print(f"{name}: {words}, document {len(chart):,} bytes, log {len(log):,} bytes, {min(run.processor for run in runs):.3f} s of a processor, "
              f"peak {max(run.peak for run in runs):.0f} MiB; {printed}{'' if printed == wanted else '; WANTED ' + wanted}", flush=True)

    for name in asked:
        WORKS[name](measure)
    print("load of the machine in the last minute: %.1f, processors: %d" % (os.getloadavg()[0], os.cpu_count()))
    return 1 if wrong else 0


if __name__ == "__main__":
    sys.exit(main())
