#!/usr/bin/env python3
"""Times documents of charts that refer to charts or refine instances, and states the peak memory.

usage: references.py --program PROGRAM [WORK ..]

PROGRAM is the built program. Each work is run three times, and the least time counts. The works, all of them where none is named:

    doubled     a chart that uses another 16,384 times through fourteen charts: its log, the empty log, check
    row, rows   charts that each refer to the next: one row as deep as a document may be, and 50 rows of 80
    fan, drawn  a chart that 1,000 others use, whose events are written in an order in which they can happen, and in another
    references  a chart of 17,000 references
    gates       documents of 4 MiB: charts that call 33 gates of another, that call 32,000, inline expressions with gates, and gates that
                are handed on through 84 charts; and a gate with 8,192 events inside
    joins       documents of 4 MiB: 39 and 23,000 joins between two references; and joins of two gates with 440 and 8,192 inner events each
    decomposed  an instance of 22,000 events, 2,900 charts with an instance that the same chart refines, a chart of 500 decomposed ones
    cycle, missing, deep   hostile ones: a cycle of 4,096 charts; 4,096 charts that all lead to a missing one; a row of charts that is one
                too deep, and one of which the last leads back to the first
"""
import sys

import measured

CHART = "msc C{}; inst i; i: {}; endmsc;"


def doubled():
    """The document in which each chart uses the one before twice, with a log of the last."""
    charts = [CHART.format(0, "action x")] + [CHART.format(k, f"reference C{k - 1} seq C{k - 1}") for k in range(1, 15)]
    return "\n".join(charts), ["judge", "d", "C14", "l"], "i: action x;\n" * 2**14


def row(count, last):
    """Charts each of which refers to the next."""
    return "\n".join([CHART.format(k, f"reference C{k + 1}") for k in range(count)] + [CHART.format(count, last)])


def rows_of(length, count):
    """Several rows, of which each begins with a chart of its own."""
    charts = []
    for r in range(count):
        charts += [f"msc R{r}_{k}; inst i; i: reference R{r}_{k + 1}; endmsc;" for k in range(length)] + [f"msc R{r}_{length}; inst i; i: action x; endmsc;"]
    return "\n".join(charts)


def fan(users):
    """A chart of 60 events, and charts that use it."""
    used = "msc Used; inst i,j; " + "i: out a to j; j: in a from i; " * 30 + "endmsc;"
    return "\n".join([used] + [f"msc U{k}; inst i,j; all: reference Used; endmsc;" for k in range(users)])


def drawn(users):
    """The same, with an input before its output, so that the order has to be drawn."""
    used = "msc Used; inst i,j; " + "j: in a from i; i: out a to j; " * 30 + "endmsc;"
    return "\n".join([used] + [f"msc U{k}; inst i,j; all: reference Used; endmsc;" for k in range(users)])


def many_references(size):
    """One chart of references to a small one."""
    line = "i: reference X;\n"
    return "msc X; inst i; i: opt begin; opt end; endmsc;\nmsc Large; inst i;\n" + line * (size // len(line)) + "endmsc;"


def cycle(count):
    return "\n".join(CHART.format(k, f"reference C{(k + 1) % count}") for k in range(count))


def missing(count):
    return "\n".join(CHART.format(k, f"reference C{k + 1} alt Missing" if k + 1 < count else "reference Missing") for k in range(count))


def called(pairs, gates):
    """Pairs of charts, one of which calls all gates of the other."""
    charts = []
    for k in range(pairs):
        charts.append(f"msc B{k}; inst k;\n" + "".join(f"k: in m from env via g{n};\n" for n in range(gates)) + "endmsc;")
        charts.append(f"msc A{k}; inst i,k;\n" + "".join(f"i: out m to reference R via g{n};\n" for n in range(gates)) + f"k: reference R: B{k};\nendmsc;")
    return "\n".join(charts)


def inline_gates(charts, gates):
    """Charts of inline expressions with gates, each of which is called."""
    made = []
    for k in range(charts):
        items = [f"i: out m to reference X{n} via g{n};\nk: opt begin X{n}; k: in m from env via g{n}; opt end;\n" for n in range(gates)]
        made.append(f"msc A{k}; inst i,k;\n" + "".join(items) + "endmsc;")
    return "\n".join(made)


def handed_on(rows, depth, gates):
    """Rows of charts that hand the gates of the first on, and a last one that calls them."""
    charts, joins = [], ", ".join(f"g{n} to env via g{n}" for n in range(gates))
    for r in range(rows):
        charts.append(f"msc R{r}_0; inst k;\n" + "".join(f"k: in m from env via g{n};\n" for n in range(gates)) + "endmsc;")
        charts += [f"msc R{r}_{k}; inst k;\nk: reference R{r}_{k - 1} via {joins};\nendmsc;" for k in range(1, depth)]
        calls = "".join(f"i: out m to reference R via g{n};\n" for n in range(gates))
        charts.append(f"msc R{r}_{depth}; inst i,k;\n{calls}k: reference R: R{r}_{depth - 1};\nendmsc;")
    return "\n".join(charts)


def joined(rows, gates):
    """Charts in which all gates of a reference are joined with those of another."""
    charts = []
    for k in range(rows):
        charts.append(f"msc P{k}; inst p;\n" + "".join(f"p: out m to env via g{n};\n" for n in range(gates)) + "endmsc;")
        charts.append(f"msc Q{k}; inst q;\n" + "".join(f"q: in m from env via h{n};\n" for n in range(gates)) + "endmsc;")
        joins = ",\n".join(f"g{n} to reference S via h{n}" for n in range(gates))
        charts.append(f"msc A{k}; inst p,q;\np: reference R: P{k} via {joins};\nq: reference S: Q{k};\nendmsc;")
    return "\n".join(charts)


def crossed_joins(inner):
    """Two gates with so many inner events each, which one join ties."""
    sending = "p: alt begin; " + "alt; ".join(["p: out m to env via g; "] * inner) + "alt end;"
    taking = "q: alt begin; " + "alt; ".join(["q: in m from env via h; "] * inner) + "alt end;"
    return (f"msc P; inst p; {sending} endmsc;\nmsc Q; inst q; {taking} endmsc;\n"
            "msc A; inst p,q; p: reference R: P via g to reference S via h; q: reference S: Q; endmsc;")


def doubling(name, instance, event, charts):
    """Charts in which the events at a gate are doubled each time."""
    made = [f"msc {name}0; inst {instance}; {instance}: {event} via g; endmsc;"]
    return made + [f"msc {name}{k}; inst {instance}; {instance}: reference {name}{k - 1} alt {name}{k - 1} via g to env via g; endmsc;" for k in range(1, charts)]


def called_deep():
    """A gate that is called, whose events are 8,192 alternatives through thirteen charts."""
    calling = "msc A; inst i,k; i: out m to reference R via g; k: reference R: K13; endmsc;"
    return "\n".join([*doubling("K", "k", "in m from env", 14), calling]), ["judge", "d", "A", "l"], "i: out m to k;\nk: in m from i;\n"


def joined_deep():
    """A join of two such gates."""
    tying = "msc A; inst p,q; p: reference R: P13 via g to reference S via g; q: reference S: Q13; endmsc;"
    return "\n".join([*doubling("P", "p", "out m to env", 14), *doubling("Q", "q", "in m from env", 14), tying])


def one_refined(events):
    """An instance of so many events, and the chart that refines it."""
    own = "".join(f"i: out m{n % 7} to z; z: in m{n % 7} from i;\n" for n in range(events))
    inner = "".join(f"d: in m{n % 7} from env;\n" for n in range(events))
    return f"msc A; inst i,z decomposed as D;\n{own}endmsc;\nmsc D; inst d;\n{inner}endmsc;"


def refined_alike(users):
    """Charts of one instance each that the same chart refines."""
    messages = "".join(f"i: out m{n} to z; z: in m{n} from i; z: out n{n} to i; i: in n{n} from z;\n" for n in range(20))
    inner = "d: out p to e; e: in p from d;\n" + "".join(f"d: in m{n} from env; e: out n{n} to env;\n" for n in range(20))
    return "\n".join(["msc D; inst d,e;\n" + inner + "endmsc;"] + [f"msc A{k}; inst i,z decomposed as D;\n{messages}endmsc;" for k in range(users)])


def many_refined(instances):
    """A chart of decomposed instances that send to each other in a ring, and the charts that refine them."""
    heads = ", ".join(f"z{n} decomposed as D{n}" for n in range(instances))
    ring = "".join(f"z{n}: out m to z{n + 1}; z{n + 1}: in m from z{n};\n" for n in range(instances - 1))
    refining = [f"msc D{n}; inst d{n};\n" + (f"d{n}: in m from env;\n" if n else "") + (f"d{n}: out m to env;\n" if n + 1 < instances else "") + "endmsc;"
                for n in range(instances)]
    return "\n".join([f"msc A; inst {heads};\n{ring}endmsc;"] + refining)


CHECK = ["check", "d"]


def checked(document):
    return document, CHECK, ""


def hostile_row(last):
    return lambda: checked(row(84, last))


# the works by name; of each what it is, and how its document, words and log are made
WORKS = {
    "doubled": [("a chart used 16,384 times, judged with its log", doubled),
                ("the same, with the empty log", lambda: (*doubled()[:2], "")),
                ("the same", lambda: checked(doubled()[0]))],
    "row": [("85 charts, each of which refers to the next", lambda: checked(row(84, "action x")))],
    "rows": [("4,000 charts in 50 rows", lambda: checked(rows_of(79, 50)))],
    "fan": [("a chart of 60 events that 1,000 others use", lambda: checked(fan(1000)))],
    "drawn": [("the same, its inputs before its outputs", lambda: checked(drawn(1000)))],
    "references": [("a chart of 17,000 references", lambda: checked(many_references(17_000 * 16)))],
    "gates": [("2,048 charts that each call 33 gates of another", lambda: checked(called(2048, 33))),
              ("two charts that each call 32,000 gates of another", lambda: checked(called(2, 32_000))),
              ("25 charts of 1,750 inline expressions each, whose gates are called", lambda: checked(inline_gates(25, 1750))),
              ("31 rows of 84 charts, in which 77 gates are handed on to the last", lambda: checked(handed_on(31, 83, 77))),
              ("a gate with 8,192 events inside, through thirteen charts, judged with a log", called_deep)],
    "joins": [("1,300 charts, in each of which 39 gates of two references are joined", lambda: checked(joined(1300, 39))),
              ("two charts with 23,000 such joins each", lambda: checked(joined(2, 23_000))),
              ("a join of two gates with 440 inner events each", lambda: checked(crossed_joins(440))),
              ("a join of two gates with 8,192 inner events each", lambda: checked(joined_deep()))],
    "decomposed": [("an instance of 22,000 events that a chart refines", lambda: checked(one_refined(22_000))),
                   ("2,900 charts with an instance that the same chart refines", lambda: checked(refined_alike(2900))),
                   ("a chart of 500 decomposed instances", lambda: checked(many_refined(500)))],
    "cycle": [("a cycle of 4,096 charts", lambda: checked(cycle(4096)))],
    "missing": [("4,096 charts that all lead to a missing one", lambda: checked(missing(4096)))],
    "deep": [("a row of 86 charts, one deeper than a document may be", lambda: checked(row(85, "action x"))),
             ("a row of 85 charts, the last of which leads back", lambda: checked(row(84, "reference C0")))],
}


if __name__ == "__main__":
    sys.exit(measured.all_asked(__doc__.splitlines()[0], WORKS))
