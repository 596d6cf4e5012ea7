#!/usr/bin/env python3
"""Times documents with high-level charts, and states the peak memory.

usage: graphs.py --program PROGRAM [WORK ..]

PROGRAM is the built program. Each work is run three times, and the least time counts. The works, all of them where none is named:

    nodes       a ring of 4,000 nodes with a basic chart each: check, and a log of 100,000 events, 12 times around and a half
    session     a connection, any number of transfers, a release or an abort, as a graph and as a loop: logs of 1,000,000 events
    nested      a node of a loop in a loop, 20 deep, with bounds of 1,000,000: a log of 100,000 events
    uses        a graph of 40 lines that another names 500 times, and one of 600 lines and 180,000 ways that another names 150 times
    full, many  hostile ones of 4 MiB: 680 lines that all lead to all, and 4,096 that lead to 100 each
    frames      frames within each other, as deep as a document may be, and 4,000 frames side by side
    ring        a ring of 4,096 lines, the last of which is the end; and one without an end, named by a basic chart, which is refused
"""
import sys

import measured

CHECK = ["check", "d"]
MESSAGE = "{0}: out {2} to {1}; {1}: in {2} from {0}; "
# the charts of a session, each a request and its answer
SESSION = {"Connect": ("cr", "cc"), "Transfer": ("dt", "ak"), "Release": ("rr", "rc"), "Abort": ("ab", "aa")}


def chart(name, request, answer):
    return f"msc {name}; inst c,s; " + MESSAGE.format("c", "s", request) + MESSAGE.format("s", "c", answer) + "endmsc;"


def events(name):
    """What a chart of a session has happen, as lines of a log."""
    request, answer = SESSION[name]
    return f"c: out {request} to s;\ns: in {request} from c;\ns: out {answer} to c;\nc: in {answer} from s;\n"


def graph(name, lines):
    """A graph whose walks start at the first of the lines, each a label with a node and the labels that come next."""
    first = lines[0][0]
    written = [f"{label}: {node}" + (f" seq ({' alt '.join(behind)})" if behind else "") + ";" for label, node, behind in lines]
    return "\n".join([f"msc {name}; expr {first};", *written, "endmsc;"])


def nodes(count):
    """A ring of nodes, each of which names a chart of its own."""
    charts = [f"msc B{k}; inst a,b; " + MESSAGE.format("a", "b", f"m{k}") + "endmsc;" for k in range(count)]
    lines = [(f"n{k}", f"(B{k})", [f"n{k + 1}"]) for k in range(count - 1)]
    lines += [(f"n{count - 1}", f"(B{count - 1})", ["n0", "done"]), ("done", "end", [])]
    return "\n".join([*charts, graph("G", lines)])


def around(count, length):
    """A walk around it, of so many events."""
    return "".join(f"a: out m{k % count} to b;\nb: in m{k % count} from a;\n" for k in range(length // 2))


def session():
    """A connection, transfers, and its end: as a graph, and as a loop."""
    charts = [chart(name, *messages) for name, messages in SESSION.items()]
    onward = ["data", "leave", "drop"]
    drawn = graph("Graph", [("start", "(Connect)", onward), ("data", "(Transfer)", onward), ("leave", "(Release)", ["done"]),
                            ("drop", "(Abort)", ["done"]), ("done", "end", [])])
    looped = "msc Loop; inst c,s; all: reference Connect seq (loop <0,inf> Transfer) seq (Release alt Abort); endmsc;"
    return "\n".join([*charts, drawn, looped])


def transfers(length):
    """The log of a session of so many events."""
    return events("Connect") + events("Transfer") * (length // 4 - 2) + events("Release")


def nested(depth):
    """A node of loops in loops."""
    looped = "loop <0,1000000> " * depth
    return "\n".join([chart("Transfer", *SESSION["Transfer"]), graph("G", [("one", f"({looped}Transfer)", ["done"]), ("done", "end", [])])])


def uses(node, lines, each, count):
    """A graph of such nodes whose lines lead to so many others, and one that names it so often."""
    used = [(f"u{k}", node, [f"u{k + m + 1}" for m in range(min(each, lines - 1 - k))]) for k in range(lines - 1)] + [(f"u{lines - 1}", "end", [])]
    using = [(f"n{k}", "(Used)", [f"n{k + 1}"]) for k in range(count)] + [(f"n{count}", "end", [])]
    return "\n".join(["msc B; inst a; a: action x; endmsc;", graph("Used", used), graph("G", using)])


def leading(count, each):
    """Lines that each lead to so many, and one of which is the end."""
    lines = [(f"n{k}", "connect", [f"n{(k * 31 + m) % count}" for m in range(each)]) for k in range(count - 1)]
    return graph("G", [*lines, (f"n{count - 1}", "end", [])])


def framed(depth):
    """Frames within each other."""
    inner = "(B)"
    for k in range(depth):
        inner = f"expr f{k}; f{k}: {inner} seq (e{k}); e{k}: end; endexpr"
    return "\n".join(["msc B; inst a; a: action x; endmsc;", graph("G", [("one", inner, ["done"]), ("done", "end", [])])])


def beside(count):
    """Frames side by side."""
    frames = " par ".join(f"expr f; f: (B) seq (e); e: end; endexpr" for _ in range(count))
    return "\n".join(["msc B; inst a; a: action x; endmsc;", graph("G", [("one", frames, ["done"]), ("done", "end", [])])])


def ring(count, closed):
    """A ring of lines, with an end or without; a chart refers to it."""
    lines = [(f"n{k}", "(B)", [f"n{k + 1}"]) for k in range(count - 1)]
    lines += [(f"n{count - 1}", "(B)", ["n0"])] if closed else [(f"n{count - 1}", "end", [])]
    return "\n".join(["msc B; inst a; a: action x; endmsc;", graph("G", lines), "msc A; inst a; all: reference G; endmsc;"])


def checked(document):
    return document, CHECK, ""


# the works by name; of each what it is, and how its document, words and log are made
WORKS = {
    "nodes": [("a ring of 4,000 nodes, checked", lambda: checked(nodes(4000))),
              ("judged with a log of 100,000 events", lambda: (nodes(4000), ["judge", "d", "G", "l"], around(4000, 100_000)))],
    "session": [("a session as a graph, a log of 1,000,000 events", lambda: (session(), ["judge", "d", "Graph", "l"], transfers(1_000_000))),
                ("as a loop", lambda: (session(), ["judge", "d", "Loop", "l"], transfers(1_000_000)))],
    "nested": [("loops 20 deep, a log of 100,000 events", lambda: (nested(20), ["judge", "d", "G", "l"], events("Transfer") * 25_000))],
    "uses": [("a graph of 40 lines that another names 500 times", lambda: checked(uses("(B)", 40, 1, 500))),
             ("judged with a log of 19,500 events", lambda: (uses("(B)", 40, 1, 500), ["judge", "d", "G", "l"], "a: action x;\n" * 19_500)),
             ("a graph of 600 lines, of which each leads to all behind it, that another names 150 times", lambda: checked(uses("connect", 600, 600, 150))),
             ("judged with an empty log", lambda: (uses("connect", 600, 600, 150), ["judge", "d", "G", "l"], ""))],
    "full": [("680 lines that all lead to all", lambda: checked(leading(680, 680)))],
    "many": [("4,096 lines that lead to 100 each", lambda: checked(leading(4096, 100)))],
    "frames": [("frames within each other", lambda: checked(framed(62))),
               ("4,000 frames side by side", lambda: checked(beside(4000)))],
    "ring": [("a ring of 4,096 lines with one end", lambda: checked(ring(4096, False))),
             ("without an end", lambda: checked(ring(4096, True)))],
}


if __name__ == "__main__":
    sys.exit(measured.all_asked(__doc__.splitlines()[0], WORKS))
