#!/usr/bin/env python3
"""Times `mscjudge next`, which tells what may come next in a log, `mscjudge sessions` and `mscjudge choices`, and states the peak memory.

usage: products.py --program PROGRAM [WORK ..]

PROGRAM is the built program. Each work is run three times, and the least time counts. The works, all of them where none is named:

    labels      1,000 labels that may come next: of operands beside each other, of a coregion, of a choice, of a graph; and behind 500 of them
    large       the chart of 66,000 statements of first_path.py: before its log, behind half of it, and behind all of it
    coregion    60,000 different actions in a coregion, and 40,000 beside each other
    options     1,000 and 2,000 options in a row, each of an action of its own
    alike       2,000 and 8,000 alternatives that begin with the same action, behind it: as many terms, each with a label of its own
    gone        one of two alternatives, behind 7 of its 14 equal actions: 3,432 terms, none of which has one of the 10,000 labels of the other
    turns       1,900 turns of a loop under way, each an action that 500 other instances follow
    sessions    1,000 sessions of a loop of one message in 1,000,000 mixed lines, a turn at a time and an event at a time, and the same lines as one
                log; 1,000 sessions in 1,000,000 lines, no two of which are equal
    choices     400 choices between operands of 25 events; 100, 200 and 400 exceptions with an event before the next; alternatives within each other
    ring, mesh  a ring of 4,000 nodes over 1,000 instances, so that 1,000 of the nodes may come next; 2,000 nodes that lead to 90 each
"""
import sys

import finite
import first_path
import measured

NEXT = ["next", "d", "A", "l"]
SESSIONS = ["sessions", "d", "A", "l"]


def chart(instances, *items):
    return f"msc A; inst {','.join(instances)};\n" + "\n".join(items) + "\nendmsc;\n"


def names(mark, count):
    return [f"{mark}{number}" for number in range(count)]


def actions(count):
    return [f"i: action a{number};" for number in range(count)]


def operands(form, parts):
    """An inline expression of these operands."""
    return f"all: {form} begin;\n" + f"\n{form};\n".join(parts) + f"\n{form} end;"


def coregion(count):
    return chart("i", "i: concurrent; " + " ".join(f"action a{number};" for number in range(count)) + " endconcurrent;")


def branches(count):
    """A graph whose walks begin with one of so many nodes, each with an action of its own."""
    charts = [f"msc B{number}; inst i; i: action a{number}; endmsc;" for number in range(count)]
    lines = [f"n{number}: (B{number}) seq (done);" for number in range(count)]
    return "\n".join([*charts, f"msc A; expr {' alt '.join(names('n', count))};", *lines, "done: end;", "endmsc;"])


def graph(count, leads):
    """A graph of so many nodes over 1,000 instances, each with an action of its own, and the numbers of those to which each leads."""
    charts = [f"msc B{number}; inst i{number % 1000}; i{number % 1000}: action a{number}; endmsc;" for number in range(count)]
    lines = [f"n{number}: (B{number}) seq ({' alt '.join(f'n{other % count}' for other in leads(number))});" for number in range(count)]
    return "\n".join([*charts, "msc A; expr n0;", *lines, "endmsc;"])


def large(part):
    """The large chart, and such a part of its log."""
    document, events = first_path.chart_of(66_000, 60, 1)
    log = first_path.run_of(events, 2).splitlines(keepends=True)
    return document, ["next", "d", "Large", "l"], "".join(log[:int(part * len(log))])


def alike(count):
    """Alternatives that begin alike."""
    return chart("i", operands("alt", [f"i: action x; i: action a{number};" for number in range(count)]))


def options(count):
    """Options in a row."""
    return chart("i", *(f"i: opt begin; {action} opt end;" for action in actions(count)))


def gone(equal, others):
    """A choice of so many equal actions or so many different ones, in any order, and half of the equal ones."""
    same, different = "action x; " * equal, " ".join(f"action a{number};" for number in range(others))
    document = chart("i", operands("alt", [f"i: concurrent; {inner} endconcurrent;" for inner in (same, different)]))
    return document, NEXT, "i: action x;\n" * (equal // 2)


def turns(count, others):
    """A loop whose turns begin with an action, behind which each of so many instances has one; and the first actions of so many turns."""
    instances = names("j", others)
    document = chart(["i", *instances], "all: loop <0,inf> begin;\ni: action x;", *(f"{j}: action a;" for j in instances), "loop end;")
    return document, NEXT, "i: action x;\n" * count


def behind(count):
    """A log of the first actions."""
    return "".join(line + "\n" for line in actions(count))


LOOP = chart("ij", "i,j: loop <0,inf> begin;", "i: out a to j;", "j: in a from i;", "loop end;")
MESSAGE = ("i: out a to j;\n", "j: in a from i;\n")


def mixed(sessions, turns, whole):
    """A log of so many sessions of the loop, as many turns each: a turn at a time, or an event."""
    keys, lines = [f"{name} = " for name in names("s", sessions)], []
    for _ in range(turns):
        if whole:
            lines += [key + line for key in keys for line in MESSAGE]
        else:
            lines += [key + line for line in MESSAGE for key in keys]
    return "".join(lines)


def unequal(sessions, each):
    """Sessions of actions, no two of whose lines are equal: a note in each line counts them."""
    document = chart("i", "i: loop <0,inf> begin;", "i: action a;", "loop end;")
    return document, SESSIONS, "".join(f"s{number % sessions} = i: action a; /* {number} */\n" for number in range(sessions * each))


# the works by name; of each what it is, and how its document, words and log are made
WORKS = {
    "labels": [("1,000 operands of one action beside each other", lambda: (chart("i", operands("par", actions(1000))), NEXT, "")),
               ("a coregion of 1,000 actions", lambda: (coregion(1000), NEXT, "")),
               ("behind 500 of them", lambda: (coregion(1000), NEXT, behind(500))),
               ("a choice of 1,000 actions", lambda: (chart("i", operands("alt", actions(1000))), NEXT, "")),
               ("a graph that begins with one of 1,000 nodes", lambda: (branches(1000), NEXT, ""))],
    "large": [("66,000 statements, before the log", lambda: large(0)),
              ("behind half of the log", lambda: large(0.5)),
              ("behind all of it", lambda: large(1))],
    "coregion": [("a coregion of 60,000 different actions", lambda: (coregion(60_000), NEXT, "")),
                 ("40,000 actions beside each other", lambda: (chart("i", operands("par", actions(40_000))), NEXT, ""))],
    "options": [(f"{count:,} options in a row", lambda count=count: (options(count), NEXT, "")) for count in (1_000, 2_000)],
    "alike": [(f"{count:,} alternatives that begin alike, behind the first action", lambda count=count: (alike(count), NEXT, "i: action x;\n"))
              for count in (2_000, 8_000)],
    "gone": [("a choice of which one way is gone", lambda: gone(14, 10_000))],
    "turns": [("1,900 turns under way", lambda: turns(1_900, 500))],
    "sessions": [("1,000 sessions, a turn at a time", lambda: (LOOP, SESSIONS, mixed(1_000, 500, True))),
                 ("the same lines as one log", lambda: (LOOP, ["judge", "d", "A", "l"], "".join(MESSAGE) * 500_000)),
                 ("1,000 sessions, an event at a time", lambda: (LOOP, SESSIONS, mixed(1_000, 500, False))),
                 ("1,000 sessions of lines that differ", lambda: unequal(1_000, 1_000))],
    "choices": [("400 choices of 20,000 events", lambda: (finite.large_chart()[0], ["choices", "d", "L"], "")),
                *((f"{count:,} exceptions", lambda count=count: (finite.with_exceptions(count), ["choices", "d", "E"], "")) for count in (100, 200, 400)),
                ("expressions within each other", lambda: (finite.small("A"), ["choices", "d", "A"], ""))],
    "ring": [("a ring of 4,000 nodes", lambda: (graph(4000, lambda number: [number + 1]), NEXT, ""))],
    "mesh": [("2,000 nodes that lead to 90 each", lambda: (graph(2000, lambda number: range(31 * number, 31 * number + 90)), NEXT, ""))],
}


if __name__ == "__main__":
    sys.exit(measured.all_asked(__doc__.splitlines()[0], WORKS))
