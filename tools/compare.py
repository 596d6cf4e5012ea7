#!/usr/bin/env python3
"""compare.py PROGRAM MODEL [--documents N] [--seed S] [--first K]: whether the program answers as a model of it does, on random documents
and logs.

PROGRAM and MODEL are programs that take the words of mscjudge; either may be a folder with a Python package `judge` instead, whose
`judge.run.run(words, files)` takes words and a table of names and texts, all as bytes, and gives the status and what is printed. This
is asked in the same process, so it is fast. With one folder as both, the documents alone are tried.

Documents have charts of events of all kinds, stops, coregions, references and inline expressions (up to three within each other, shared
and not), with gates that are called, joined and left open, in statements and in columns, with labels and general ordering. In a third of
the documents some instances are decomposed, one or both ends of a message, by charts of one instance or several; in another third many are
high-level charts, whose graphs have loops back, frames, connectors and conditions, name other graphs, and are named by basic charts. More
than a third of the documents are faulty, at one place or two. Logs are runs of their charts, beginnings of runs, what has happened on a walk
under way, and runs damaged at a random place, in text or JSON, and some are judged within the least budget that lets them pass, and within
one less. What is a run, or the beginning of one, is also known here without the model, so a model that errs there is found. What may come next is
asked behind each log in text, within the same budgets, and behind the beginning of a run, whose next event has to be told; the log has to go on
with an event that is told. Some such runs, damaged or not, are also mixed in one log, as sessions; each has to be told as it was made.
Of each chart the choices that several instances make are asked too.

Each difference is printed with what it takes to see it again: document K of a seed is made alone by `--first K --documents 1`. At the
end stands how often each answer came. It ends with status 1 where there is a difference.
"""
import argparse
import collections
import importlib
import json
import os
import random
import re
import subprocess
import sys
import tempfile

import chart_parts
import random_charts

MOST = 20_000
SECONDS = 60
# statuses
CONFORMS, EARLY, TOO_LARGE = 0, 3, 6


class Program:
    """A program that is started for each question, in a room of its own."""

    def __init__(self, path, room):
        self.path, self.room = os.path.abspath(path), room

    def hold(self, files):
        for name, text in files.items():
            with open(os.path.join(self.room, name), "w", encoding="ascii") as file:
                file.write(text)

    def answer(self, words):
        try:
            ran = subprocess.run([self.path, *words], cwd=self.room, stdout=subprocess.PIPE, stderr=subprocess.DEVNULL, timeout=SECONDS)
        except subprocess.TimeoutExpired:
            return -1, f"no answer in {SECONDS} seconds"
        return ran.returncode, ran.stdout.decode(errors="replace")


class Module:
    """A model in the same process."""

    def __init__(self, folder):
        sys.path.insert(0, os.path.abspath(folder))
        self.run, self.files = importlib.import_module("judge.run").run, {}

    def hold(self, files):
        self.files.update({name.encode(): text.encode() for name, text in files.items()})

    def answer(self, words):
        status, printed = self.run([word.encode() for word in words], self.files)
        return status, printed.decode(errors="replace")


def asked(path, room):
    return Module(path) if os.path.isdir(path) else Program(path, room)


class Comparing:
    """Both of them, and what was found."""

    def __init__(self, program, model):
        self.program, self.model = program, model
        self.number, self.asked, self.differences, self.told = 0, 0, 0, collections.Counter()
        self.files = {}

    def hold(self, **files):
        self.files.update(files)
        self.program.hold(files)
        self.model.hold(files)

    def differ(self, words, *answers):
        self.differences += 1
        print(f"DIFFERENT, document {self.number}: {words}")
        for who, answer in answers:
            print(f"  {who} {answer}")
        for name, text in self.files.items():
            print(f"  {name} {text!r}", flush=True)

    def compare(self, *words):
        """The model's answer, after both were compared."""
        ours, theirs = self.program.answer(words), self.model.answer(words)
        self.asked += 1
        if ours != theirs:
            self.differ(words, ("the program", ours), ("the model  ", theirs))
        return theirs


def verdict_of(text):
    """An answer without its numbers."""
    return re.sub(r" at .*?: |[0-9]+", " ", text.split("\n")[0]).strip()


def run_of(rng, chart):
    """The events of a run, or of the beginning of one, and whether it is whole."""
    whole = chart_parts.has_runs(chart) and rng.random() < (0.7 if chart.graph else 0.95)
    return chart_parts.run_of(rng, chart) if whole else chart_parts.beginning_of(rng, chart), whole


def damaged_run(rng, chart):
    """The events of a run, damaged or not, and the statuses that they may have, as the chart was made: those of a run, or of a beginning."""
    run, whole = run_of(rng, chart)
    events = [*chart.events(), *run]
    damage = rng.random() if events else 1
    if damage < 0.15:
        run, whole = run[:rng.randint(0, len(run))], False
    elif damage < 0.3 and run:
        del run[rng.randrange(len(run))]
    elif damage < 0.4:
        run.insert(rng.randint(0, len(run)), rng.choice(events))
    elif damage < 0.5 and run:
        run[rng.randrange(len(run))] = rng.choice(events)
    elif damage < 0.6 and len(run) > 1:
        at = rng.randrange(len(run) - 1)
        run[at], run[at + 1] = run[at + 1], run[at]
    elif damage < 0.65:
        rng.shuffle(run)
    statuses = (CONFORMS, TOO_LARGE) if whole else (CONFORMS, EARLY, TOO_LARGE)
    return run, statuses if damage < 0.15 or damage >= 0.65 else None


def written(rng, form, lines, creates):
    """A log of these lines, and whether it is one: now and then a line is none, or the version isn't that of its events."""
    lines = list(lines)
    version = rng.choice([2] * 18 + [1, None] if creates else [None] * 18 + [1, 2])
    if version:
        lines.insert(0, json.dumps({"log": version}) if form == "json" else f"log {version};")
    odd = rng.random() < 0.03
    if odd:
        lines.insert(rng.randint(0, len(lines)), "nonsense")
    return "\n".join(lines) + rng.choice(["\n", ""]), not odd and (not creates or version == 2)


def log_of(rng, chart):
    """A log, whether it is in JSON, and the statuses that it may have, as the chart was made."""
    run, statuses = damaged_run(rng, chart)
    form = rng.choice(["text", "text", "json"])
    log, known = written(rng, form, [event.line(form, rng) for event in run], any(event.kind == "create" for event in run))
    return log, form == "json", statuses if known else None


def keyed_line(rng, form, key, event):
    """The line of an event in a log of sessions."""
    line = event.line(form, rng)
    if form == "text":
        return f"{key} = {line}"
    members = [*json.loads(line).items(), ("session", key)]
    rng.shuffle(members)
    return json.dumps(dict(members))


def mixed_log(rng, chart):
    """A log of some sessions, whether it is in JSON, and for each key the statuses that its session may have, as the chart was made."""
    made = {key: damaged_run(rng, chart) for key in rng.sample(["s1", "s2", "i", "A.1", "7_"], rng.randint(0, 4))}
    form = rng.choice(["text", "text", "json"])
    left, lines = {key: list(run) for key, (run, _) in made.items() if run}, []
    while left:
        key = rng.choice(list(left))
        lines.append(keyed_line(rng, form, key, left[key].pop(0)))
        left = {key: run for key, run in left.items() if run}
    log, known = written(rng, form, lines, any(event.kind == "create" for run, _ in made.values() for event in run))
    return log, form == "json", {key: statuses for key, (run, statuses) in made.items() if run} if known else None


def least_budget(model, words):
    """The least budget within which the model judges the log, if there is one below the most that is tried."""
    low, high = 1, MOST
    while low < high:
        middle = (low + high) // 2
        if model.answer([*words, "--budget", str(middle)])[0] == 6:
            low = middle + 1
        else:
            high = middle
    return low


def compare_log(rng, both, chart):
    """Compares the verdicts on a log of the chart."""
    log, is_json, statuses = log_of(rng, chart)
    both.hold(l=log)
    words = ["judge", "d", chart.name, "l", *(["--log-json"] if is_json else [])]
    answer = both.compare(*words, "--budget", str(MOST), *rng.choice([[], ["--json"]]))
    plain = both.model.answer([*words, "--budget", str(MOST)])
    both.told[verdict_of(plain[1])] += 1
    if statuses and chart.fault is None and answer[0] not in statuses:
        both.differ(words, (f"made for one of the statuses {statuses}, and the model says", plain))
    if not is_json:
        compare_next(both, chart, MOST)
    if rng.random() < 0.2 and answer[0] != 5:
        budget = least_budget(both.model, words)
        for within in {budget, max(1, budget - 1)}:
            both.told[verdict_of(both.compare(*words, "--budget", str(within))[1])] += 1
            if not is_json:
                compare_next(both, chart, within)


def compare_next(both, chart, within):
    """Compares what may come next in the log, and gives the answer."""
    answer = both.compare("next", "d", chart.name, "l", "--budget", str(within))
    both.told[verdict_of((answer[1].splitlines() or [""])[-1])] += 1
    return answer


def compare_goings_on(rng, both, chart):
    """Compares what may come next behind the beginning of a run: the run's next event has to be told, and the log goes on with what is told."""
    run, whole = run_of(rng, chart)
    taken = rng.randint(0, len(run))
    version = ["log 2;\n"] if any(event.kind == "create" for event in run) else []
    lines = [event.line("text", rng) + "\n" for event in run[:taken]]
    both.hold(l="".join(version + lines))
    status, text = compare_next(both, chart, MOST)
    goes_on, told = [line_of(event) for event in run[taken:taken + 1]], text.splitlines()
    known = chart.fault is None and status != TOO_LARGE
    if known and (status != 0 or not set(goes_on) <= set(told) or (whole and not goes_on and not told[-1].endswith("complete"))):
        both.differ(["next", chart.name], (f"made to go on with {goes_on}, and the model says", (status, text)))
    if status == 0 and told[:-1]:
        chosen = rng.choice(told[:-1])
        both.hold(l="".join(["log 2;\n"] + lines + [chosen + "\n"]))
        answer = both.compare("judge", "d", chart.name, "l", "--budget", str(MOST))
        if answer[0] not in (CONFORMS, EARLY, TOO_LARGE):
            both.differ(["judge", chart.name], (f"told to go on with {chosen!r}, and the model says", answer))


def status_told(verdict):
    """The status of a session's verdict."""
    return next(status for status, words in ((CONFORMS, "conforms"), (1, "fails"), (EARLY, "stops early"), (TOO_LARGE, "too large")) if verdict.startswith(words))


def compare_sessions(rng, both, chart):
    """Compares the verdicts on the sessions of a log of the chart."""
    log, is_json, statuses = mixed_log(rng, chart)
    both.hold(l=log)
    words = ["sessions", "d", chart.name, "l", *(["--log-json"] if is_json else [])]
    status, text = both.compare(*words, *rng.choice([[], [], ["--budget", str(rng.choice([5, 50, MOST]))]]))
    both.told[verdict_of(text.splitlines()[-1])] += 1
    if statuses is None or chart.fault is not None:
        return
    told = dict(line.split(": ", 1) for line in text.splitlines()[:-1])
    wrong = set(told) != set(statuses) or any(known and status_told(told[key]) not in known for key, known in statuses.items())
    if wrong:
        both.differ(words, (f"made for sessions of the statuses {statuses}, and the model says", (status, text)))


def compare_choices(both, chart):
    """Compares the choices of the chart that several instances make."""
    status, text = both.compare("choices", "d", chart.name)
    both.told["no choices" if text == "choices 0\n" else "choices" if status == 0 else verdict_of(text)] += 1


def line_of(event):
    """The line by which an event is told that may come next."""
    words = re.sub("^set ", "starttimer ", re.sub("^reset ", "stoptimer ", event.words(False)))
    return f"{event.at}: {words};"


def compare_document(rng, both):
    """Whether the document was accepted or refused."""
    charts, document = random_charts.document_of(rng)
    both.hold(d=document, l="")
    both.compare("sample", str(rng.randrange(1, 300)), str(rng.randrange(2**31)))
    status, text = both.compare("check", "d")
    for words in (["check", "d", "--json"], ["list", "d"], ["list", "d", "--json"], ["print", "d"]):
        both.compare(*words)
    if status != 0:
        both.told[verdict_of(text)] += 1
        return "refused"
    for chart in charts:
        both.compare("list", "d", chart.name, *rng.choice([[], ["--json"]]))
        for _ in range(3):
            compare_log(rng, both, chart)
            compare_goings_on(rng, both, chart)
        compare_sessions(rng, both, chart)
        compare_choices(both, chart)
    return "accepted"


def main():
    words = argparse.ArgumentParser(description=__doc__.splitlines()[0])
    words.add_argument("program")
    words.add_argument("model")
    words.add_argument("--documents", type=int, default=100)
    words.add_argument("--seed", type=int, default=1)
    words.add_argument("--first", type=int, default=0)
    given = words.parse_args()
    if os.path.isdir(given.program) and given.program != given.model:
        words.error("one of the two has to be a program: a process holds one package judge")
    found = {"accepted": 0, "refused": 0}
    with tempfile.TemporaryDirectory(prefix="compare-") as room:
        both = Comparing(asked(given.program, room), asked(given.model, room))
        for both.number in range(given.first, given.first + given.documents):
            found[compare_document(random.Random(f"{given.seed} {both.number}"), both)] += 1
    for text, count in sorted(both.told.items()):
        print(f"{count:6} {text}")
    told = ", ".join(f"{count} {what}" for what, count in found.items())
    print(f"{given.documents} documents ({told}), {both.asked} answers compared, {both.differences} different")
    return 1 if both.differences else 0


if __name__ == "__main__":
    sys.exit(main())
