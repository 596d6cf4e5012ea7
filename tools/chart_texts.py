"""How random charts are written: in stretches of statements and of columns, and the graphs of high-level charts line by line, with a fault at
one place where one is asked for."""
import random

from chart_parts import Condition, Event, Inline, Level, Reference, Stop

# what can be wrong in a text; for each a place of its own is drawn
OF_PARTS = ["a part lacks", "another list", "no name", "not its own column", "another form", "other operands", "another bound", "another expression", "parts exchanged"]
FAULTS = ["unmatched message", "undeclared instance", "uncovered instance", "undeclared in a list", "named twice", "items exchanged", "loop bound", "missing chart", "recursive reference", "refined by itself", "refined twice"]
GRAPH_FAULTS = ["unknown label", "unknown label", "label named twice", "label named twice", "several labels", "loop bound", "missing chart", "recursive reference"]
NODE_LINES = 4096
# lines that break a rule wherever they stand
FAULTY_LINES = ["W0: end;", "V: connect seq (nolabel);", "V: (nochart) seq (V);", "V: (loop <1000001> empty) seq (V);"]


class Writer:
    """Writes a chart. With a fault, the places where it can be are counted, and it is put into the one of the number `site`."""

    def __init__(self, rng, fault, site, names, instances, refined):
        self.rng, self.instances, self.fault, self.site, self.sites, self.written = rng, instances, fault, site, 0, {}
        # the names of the chart and of those that are made later, which may lead back to it
        self.name, self.later = names[0], names[1:]
        # the charts that refine instances; where this is still to be written; and the items, numbered as they are first written
        self.refined, self.waiting, self.places = refined, {i: rng.choice(["list", "list", "statement", "column", "operand"]) for i in refined}, {}

    def here(self, fault):
        """Whether the fault is to be at this place."""
        if fault != self.fault:
            return False
        self.sites += 1
        return self.sites - 1 == self.site

    def chart(self, level):
        rng, lines = self.rng, self.heads()
        items = list(level.items)
        while items:
            size = rng.randint(1, len(items)) if rng.random() < 0.4 else len(items)
            stretch = Level(level.cover, items[:size])
            lines += self.columns(stretch) if rng.random() < 0.6 else self.statements(stretch)
            items = items[size:]
        lines += [f"{i}: instance{self.refining(i, where)};" for i, where in list(self.waiting.items())]
        lines += [rng.choice(["{}: instance decomposed as {};", "instance {} decomposed as {}; endinstance;"]).format(i, chart.name)
                  for i, chart in self.refined.items() if self.here("refined twice")]
        if self.here("syntax"):
            lines.insert(rng.randint(0, len(lines)), rng.choice(["bad", "opt end;", "all: alt begin; opt end;"]))
        return f"msc {self.name};\n" + rng.choice([" ", "\n"]).join(lines) + "\nendmsc;"

    # the instances
    def heads(self):
        rng, listed, lines = self.rng, [i for i in self.instances if self.rng.random() < 0.85], []
        if listed:
            lines.append("inst " + ", ".join(i + rng.choice(["", "", " : process K"]) + self.refining(i, "list") for i in listed) + ";")
        if self.here("refined by itself"):
            lines.append(f"inst z decomposed as {self.name};")
        for i in self.instances:
            if i in listed:
                continue
            if rng.random() < 0.5:
                lines.append(f"{i}: instance{rng.choice(['', '', ' process K'])}{self.refining(i, 'list', 'statement')};")
            else:
                lines.append(f"instance {i}{self.refining(i, 'list', 'column')}; endinstance;")
        return lines

    def refining(self, i, *places):
        """Which chart refines the instance, where this is to be written at one of these places."""
        if self.waiting.get(i) not in places:
            return ""
        del self.waiting[i]
        if self.here("missing chart"):
            return " decomposed as nochart"
        return f" decomposed as {self.leading_back() if self.here('recursive reference') else self.refined[i].name}"

    def leading_back(self):
        """The name of a chart that leads back to this one, or may."""
        return self.rng.choice([self.name, *self.later])

    # an event, and its faults
    def event(self, event, cover):
        words, message = event.words(True), event.kind in ("out", "in")
        if message and event.far != "env" and not event.callee and self.here("unmatched message"):
            return None
        if (message or event.kind == "create") and self.here("undeclared instance"):
            words = "out u to nobody" if message else "create nobody"
        outside = [i for i in self.instances if i not in cover]
        if outside and message and self.here("uncovered instance"):
            words = f"in u from {outside[0]}"
        label = f"label {event.label}; " if event.label else ""
        before = f" before {','.join(event.before)}" if event.before else ""
        after = f" after {','.join(event.after)}" if event.after else ""
        return label + words + before + after + ";"

    def simple(self, item, cover):
        """An event, a coregion or a stop."""
        if isinstance(item, Stop):
            return "stop;"
        if isinstance(item, Event):
            return self.event(item, cover)
        inner = [words for words in (self.event(event, cover) for event in item.events) if words]
        return "concurrent; " + " ".join([*inner, "endconcurrent;"])

    # statements
    def interleaved(self, items):
        """The items with those of each instance in their order."""
        left, mixed = list(items), []
        while left:
            due = [k for k, item in enumerate(left) if not any(set(item.cover) & set(other.cover) for other in left[:k])]
            mixed.append(left.pop(self.rng.choice(due)))
        return mixed

    def statements(self, level):
        rng, lines, last, names = self.rng, [], None, []
        items = self.interleaved(level.items) if rng.random() < 0.4 else level.items
        for item in items:
            words = self.multi(item, level, names) if isinstance(item, (Inline, Reference, Condition)) else self.simple(item, level.cover)
            if words is None:
                continue
            self.places.setdefault(item, len(self.places))
            cover = self.cover_of(item, level)
            if cover == last and rng.random() < 0.6:
                lines[-1] += " " + words
            else:
                lines.append(f"{cover}: {words}")
            last = cover
        inside = [i for i, where in self.waiting.items() if where == ("statement" if level.cover is self.instances else "operand")]
        for i in inside:
            lines.insert(rng.randint(0, len(lines)), f"{i}: instance{self.refining(i, self.waiting[i])};")
        return lines

    def cover_of(self, item, level):
        whole = isinstance(item, (Inline, Reference, Condition)) and set(item.cover) == set(level.cover)
        cover = "all" if whole and self.rng.random() < 0.5 else ",".join(item.cover)
        if level.cover is not self.instances and cover != "all" and isinstance(item, (Inline, Reference, Condition)) and self.here("undeclared in a list"):
            return cover + ",nobody"
        return cover

    def multi(self, item, level, names):
        """An inline expression or a condition as a statement."""
        if isinstance(item, Condition):
            return "condition c;"
        name = " " + item.name if self.fault == "named twice" or item.callers or self.rng.random() < 0.3 else ""
        if names and self.here("named twice"):
            name = " " + names[0]
        names.append(item.name)
        if isinstance(item, Reference):
            return self.referring(name, self.expression(item.expression) + self.joins(item), "")
        operands = [" ".join(self.statements(operand)) for operand in item.operands]
        return self.inline(item.form, self.bounds(item), name, operands)

    def referring(self, name, expression, shared):
        return f"reference{name + ':' if name else ''} {expression}{shared};"

    def joins(self, item):
        """The joins of a reference as they are written."""
        joins = [f"{gate} to env via {outer}" for gate, outer in item.joins.items()] + [f"{gate} to reference {other.name} via {far}" for gate, (other, far) in item.ties.items()]
        return " via " + ", ".join(joins) if joins else ""

    def expression(self, held):
        """The expression of a reference as it is written."""
        if held.form == "chart":
            if self.here("missing chart"):
                return "nochart"
            return self.leading_back() if self.here("recursive reference") else held.chart.name
        if held.form == "empty":
            return "empty"
        parts = [self.part_of(part) for part in held.parts]
        if held.form in ("opt", "loop"):
            return f"{held.form} {self.bounds(held)}{parts[0]}"
        return f" {held.form} ".join(parts)

    def part_of(self, held):
        words = self.expression(held)
        return f"({words})" if len(held.parts) > 1 or self.rng.random() < 0.1 else words

    def bounds(self, item):
        """The bounds of a loop as they are written, with a blank behind them."""
        if item.form != "loop":
            return ""
        if self.here("loop bound"):
            return self.rng.choice(["<1,1000001> ", "<2000000> ", "<1000001,inf> "])
        lower, upper = item.bounds
        if (lower, upper) == (1, None) and self.rng.random() < 0.5:
            return ""
        if lower == upper and self.rng.random() < 0.5:
            return f"<{lower}> "
        return f"<{lower},{'inf' if upper is None else upper}> "

    def inline(self, form, bounds, head, operands):
        return f"{form} {bounds}begin{head}; " + f"{form}; ".join(operand + " " for operand in operands) + f"{form} end;"

    # columns
    def columns(self, level):
        rng, lines = self.rng, []
        for i in rng.sample(self.instances, len(self.instances)):
            words = self.column(level, i)
            if words or rng.random() < 0.2:
                cut = rng.randint(0, len(words)) if rng.random() < 0.1 else 0
                for stretch in [words[:cut], words[cut:]] if cut else [words]:
                    lines += [f"instance {i}{self.refining(i, 'column')};", *stretch, "endinstance;"]
        return lines

    def column(self, level, i):
        """The items of a column of a level."""
        words, multis, last = [], [], None
        for item in level.items:
            if i not in item.cover:
                continue
            text = self.part(item, level, i, last) if isinstance(item, (Inline, Reference, Condition)) else self.simple(item, level.cover)
            if text is None:
                continue
            if isinstance(item, (Inline, Reference)) and len(item.cover) > 1:
                multis.append(len(words))
            self.places.setdefault(item, len(self.places))
            last = item.name if isinstance(item, (Inline, Reference)) else last
            words.append(text)
        for first, second in zip(multis, multis[1:]):
            if self.here("parts exchanged"):
                words[first], words[second] = words[second], words[first]
        if len(words) > 1 and self.here("items exchanged"):
            words[0], words[-1] = words[-1], words[0]
        return words

    def part(self, item, level, i, last):
        """The part of an inline expression or a condition in a column; `last` is the name of the inline expression before it there."""
        shared = self.shared(item, level, i)
        if isinstance(item, Condition):
            return f"condition c{shared};"
        several = len(item.cover) > 1
        if several and self.here("a part lacks"):
            return None
        name = " " + item.name if several or self.fault == "named twice" or item.callers or self.rng.random() < 0.4 else ""
        if several and self.here("no name"):
            name = ""
        if last and self.here("named twice"):
            name = " " + last
        if isinstance(item, Reference):
            another = several and self.here("another expression")
            return self.referring(name, "empty seq empty" if another else self.part_text(item) + self.joins(item), shared)
        form, operands = item.form, [" ".join(self.column(operand, i)) for operand in item.operands]
        if several and self.here("another form"):
            form = {"alt": "par", "par": "alt", "opt": "exc", "exc": "opt", "loop": "opt"}[form]
        if several and form in ("alt", "par") and self.here("other operands"):
            operands.append("")
        bounds = "<7,9> " if several and form == "loop" and self.here("another bound") else self.bounds(item) if form == "loop" else ""
        return self.inline(form, bounds, name + shared, operands)

    def part_text(self, item):
        """The expression of a reference, written alike in each of its columns."""
        if item not in self.written:
            self.written[item] = self.expression(item.expression)
        return self.written[item]

    def shared(self, item, level, i):
        rng, names = self.rng, self.rng.sample(item.cover, len(item.cover))
        several = len(names) > 1 and isinstance(item, (Inline, Reference))
        if self.here("undeclared in a list"):
            return f" shared {','.join([*names, 'nobody'])}"
        if several and self.here("another list"):
            return f" shared {i}"
        if several and self.here("not its own column"):
            return f" shared {','.join(name for name in names if name != i)}"
        if set(names) == set(level.cover) and rng.random() < 0.4:
            return " shared all"
        if names == [i] and rng.random() < 0.7:
            return rng.choice(["", " shared"]) if isinstance(item, (Inline, Reference)) else ""
        return f" shared {','.join(names)}"


class GraphWriter(Writer):
    """Writes a high-level chart."""

    def chart(self, graph):
        rng, lines = self.rng, self.heads_of_graph() + self.graph(graph)
        if self.here("syntax"):
            lines.insert(rng.randint(0, len(lines)), rng.choice(["bad", "i: stop;", "Z: end seq (Z);", "Z: connect;", "endexpr;"]))
        return f"msc {self.name};\n" + rng.choice([" ", "\n"]).join(lines) + "\nendmsc;"

    def heads_of_graph(self):
        """Heads, which say nothing of a high-level chart, whatever they name."""
        heads = ["inst i, j;", "inst i decomposed as nochart, i;", f"inst z : process K decomposed as {self.name};", "msg a, b;", "timer x;"]
        return self.rng.sample(heads, self.rng.choice([0, 0, 0, 1, 2]))

    def graph(self, graph):
        """Where it begins, and its lines."""
        begin = f"expr {self.targets(graph.starts)}{self.comment()};"
        lines = [self.line(line, graph) for line in graph.lines]
        if self.here("too many lines"):
            lines += self.further(NODE_LINES + self.rng.choice([0, 1, 1, 2]) - len(lines))
        return [begin, *lines]

    def further(self, count):
        """So many lines that no walk comes to, one of which may break a rule that is looked at later."""
        lines = [f"W{number}: connect seq (W{max(number - 1, 0)});" for number in range(count)]
        if self.rng.random() < 0.5:
            lines[self.rng.randrange(1, count)] = self.rng.choice(FAULTY_LINES)
        return lines

    def spoils(self, fault):
        """Whether a label is to be spoilt here; of several labels, each now and then."""
        if self.fault != "several labels":
            return self.here(fault)
        self.sites += 1
        return self.rng.random() < 0.15

    def targets(self, lines):
        return " alt ".join(self.rng.choice(["nolabel", "L9", "M9"]) if self.spoils("unknown label") else line.label for line in lines)

    def line(self, line, graph):
        label, behind = line.label, ""
        if self.spoils("label named twice"):
            other = self.rng.choice(graph.lines).label
            label, behind = (other, "") if self.rng.random() < 0.3 else (label, f" {other}: {self.rng.choice(['end', f'connect seq ({other})'])};")
        if line.form == "end":
            return f"{label}: end{self.comment()};{behind}"
        return f"{label}: {self.node(line)} seq ({self.targets(line.next)}){self.comment()};{behind}"

    def node(self, line):
        if line.form == "refer":
            return f"({self.expression(line.expression)})"
        if line.form == "frames":
            return " par ".join(" ".join([*self.graph(frame), "endexpr"]) for frame in line.frames)
        return "connect" if line.form == "connect" else self.rng.choice(["condition c", "condition c, d", "condition end"])

    def comment(self):
        return " comment 'then'" if self.rng.random() < 0.03 else ""


def writer_of(rng, faults, held, kind, *parts):
    """The writer of a chart, of the kind and with the parts that are given: with the first of the faults for which the chart has places, at
    one of them."""
    seed = rng.random()
    for fault in faults:
        counting = kind(random.Random(seed), fault, None, *parts)
        counting.chart(held)
        if counting.sites:
            return kind(random.Random(seed), fault, rng.randrange(counting.sites), *parts)
    return kind(random.Random(seed), None, None, *parts)
