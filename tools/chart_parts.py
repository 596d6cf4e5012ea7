"""What random charts are made of, and what runs they have.

A level is a body or an operand, and has events, coregions, conditions, stops, inline expressions and references. What a run is follows from
the meaning of these forms alone, and of the charts that refine instances; how a chart is written (chart_texts.py) says no more than in which
order items that share no instance of their chart are read.

A high-level chart has a graph. Its runs are those of walks through the graph from a start to an end: what the nodes of a walk do, one after
another as far as they share instances. Frames are walks side by side; conditions and connectors do nothing. A chart that is judged itself
has begun also where a walk stops anywhere; one that others name is done to its end.
"""
import copy
import json

# the steps that a walk takes at most before it seeks an end
STEPS = 7
KINDS = {"out": "out", "in": "in", "action": "action", "set": "start", "reset": "stop", "timeout": "timeout", "lost": "lost", "found": "found", "create": "create"}


class Event:
    """An event: its instance, what stands behind the colon, its label, and the labels that it comes before and after."""

    def __init__(self, at, kind, text, far=None, pairing=""):
        self.at, self.kind, self.text, self.far, self.pairing = at, kind, text, far, pairing
        self.cover, self.label, self.before, self.after = [at], None, [], []
        # the gate that it is written at; the one at which it stands now, in a run; the join that ties it there; and which item and gate it calls
        self.gate, self.open, self.tie, self.callee = None, None, None, None
        self.instances = {at, text} if kind == "create" else {at}

    def words(self, in_chart):
        if self.kind in ("out", "in"):
            name, mark, values = self.text.partition("(")
            pairing = f",{self.pairing}" if in_chart and self.pairing else ""
            end = self.end() if in_chart else self.far
            return f"{self.kind} {name}{pairing}{mark}{values} {'to' if self.kind == 'out' else 'from'} {end}"
        if self.kind == "lost":
            return f"out {self.text} to lost {self.far}"
        if self.kind == "found":
            return f"in {self.text} from found"
        return f"{self.kind} {self.text}"

    def end(self):
        """The other end as a chart has it."""
        if self.callee:
            return f"reference {self.callee[0].name} via {self.callee[1]}"
        return f"env via {self.gate}" if self.gate else self.far

    def crosses(self):
        """Whether its other end is written `env`."""
        return self.kind in ("out", "in") and self.far == "env"

    def line(self, form, rng):
        """A line of a log."""
        if form == "text":
            return rng.choice(["{}: {};", "{} : {} ;", "  {}: {};"]).format(self.at, self.words(False))
        members = {"at": self.at, "kind": KINDS[self.kind], "text": self.text}
        if self.far and self.kind in ("out", "in", "lost"):
            members["far"] = self.far
        return json.dumps(members)


class Coregion:
    def __init__(self, events):
        self.events, self.cover = events, events[0].cover


class Condition:
    def __init__(self, cover):
        self.cover = cover


class Stop:
    def __init__(self, cover):
        self.cover = cover


class Inline:
    def __init__(self, form, cover, name, operands, bounds=None):
        self.form, self.cover, self.name, self.operands, self.bounds = form, cover, name, operands, bounds
        self.callers, self.joins, self.ties = {}, {}, {}


class Expression:
    """The expression of a reference: `empty`, a chart, `alt`, `par` or `seq` of parts, `opt` of one, or `loop` of one with bounds."""

    def __init__(self, form, parts=(), chart=None, bounds=None):
        self.form, self.parts, self.chart, self.bounds = form, list(parts), chart, bounds

    def charts(self):
        if self.chart:
            yield self.chart
        for part in self.parts:
            yield from part.charts()


class Reference:
    def __init__(self, cover, name, expression):
        self.form, self.cover, self.name, self.expression, self.operands, self.bounds = "reference", cover, name, expression, [], None
        self.callers, self.joins, self.ties = {}, {}, {}


class Tied:
    """What stands in the place of a gate's caller where a join ties it with another: the instance of the other's events, and the join."""

    def __init__(self, at, join):
        self.at, self.join = at, join


class Line:
    """A line of a graph: its label, what its node is (`end`, `connect`, `condition`, `refer` or `frames`), and the lines that may come next."""

    def __init__(self, label, form, expression=None, frames=()):
        self.label, self.form, self.expression, self.frames, self.next = label, form, expression, list(frames), []


class Graph:
    """The graph of a high-level chart or of a frame: its lines, and those with which a walk may begin."""

    def __init__(self, starts, lines):
        self.starts, self.lines = starts, lines

    def charts(self):
        """The charts that its nodes name, those in frames too."""
        for line in self.lines:
            if line.expression:
                yield from line.expression.charts()
            for frame in line.frames:
                yield from frame.charts()


class Level:
    def __init__(self, cover, items):
        self.cover, self.items = cover, items

    def events(self):
        """The events that stand at this level itself."""
        for item in self.items:
            yield from [item] if isinstance(item, Event) else item.events if isinstance(item, Coregion) else []

    def levels(self):
        """This level and all levels in it."""
        yield self
        for item in self.items:
            for operand in item.operands if isinstance(item, Inline) else []:
                yield from operand.levels()


def instances_of(item):
    """The instances that an item of a level orders."""
    return item.instances if isinstance(item, Event) else [] if isinstance(item, (Condition, Stop)) else item.cover


def columns_of(items):
    """The items of a level by the instances that they order, each instance's in their order, and its creation first."""
    columns = {}
    for item in items:
        for i in item.cover:
            columns.setdefault(i, []).append(item)
    for item in items:
        if isinstance(item, Event) and item.kind == "create":
            columns.setdefault(item.text, []).insert(0, item)
    return columns


def woven(level, written):
    """The items of a level as they are read: again and again, of those that stand first in all their columns, the earliest written."""
    left, read = [item for item in level.items if not isinstance(item, (Condition, Stop))], []
    columns = columns_of(left)
    while left:
        due = [item for item in left if all(columns[i][0] is item for i in instances_of(item))]
        # columns that cross are refused, and have no order
        read.append(min(due or left, key=lambda item: written.get(item, len(written))))
        left.remove(read[-1])
        for column in columns.values():
            column[:] = [item for item in column if item is not read[-1]]
    return read


# --- gates --------------------------------------------------------------------------------------

class Inner:
    """The events at a gate inside: all of them, how many one run has at most, and whether one stands in a loop."""

    def __init__(self, events, most, looped):
        self.events, self.most, self.looped = events, most, looped

    def fits(self):
        """Whether one event may call it."""
        return self.most == 1 and not self.looped and len({(event.at, event.kind, event.text) for event in self.events}) == 1


def gathered(parts, apart=False):
    """The inner events of parts, by their gates; apart where one of them happens alone."""
    found = {}
    for part in parts:
        for gate, inner in part.items():
            old = found.get(gate, Inner([], 0, False))
            most = max(old.most, inner.most) if apart else old.most + inner.most
            found[gate] = Inner(old.events + inner.events, most, old.looped or inner.looped)
    return found


def in_loop(inner):
    return {gate: Inner(one.events, one.most, True) for gate, one in inner.items()}


def gates_of_expression(expression):
    if expression.form == "chart":
        return {} if expression.chart.graph else gates_of_level(expression.chart.level)
    inner = gathered([gates_of_expression(part) for part in expression.parts], expression.form == "alt")
    return in_loop(inner) if expression.form == "loop" else inner


def gates_inside(item):
    """The inner events of an inline expression or reference."""
    if isinstance(item, Reference):
        return gates_of_expression(item.expression)
    inner = gathered([gates_of_level(operand) for operand in item.operands], item.form == "alt")
    return in_loop(inner) if item.form == "loop" else inner


def outer_gate(item, gate):
    """The gate around an inline expression or reference that its own one leads to: that of a join, or of an inline expression the same; none where it is called."""
    return None if gate in item.callers else item.joins.get(gate, gate if isinstance(item, Inline) else None)


def gates_of_item(item):
    """What an item has at the gates of what is around it."""
    if isinstance(item, Event):
        return {item.gate: Inner([item], 1, False)} if item.gate else {}
    if isinstance(item, Coregion):
        return gathered([gates_of_item(event) for event in item.events])
    if not isinstance(item, (Inline, Reference)):
        return {}
    return gathered([{outer_gate(item, gate): inner} for gate, inner in gates_inside(item).items() if outer_gate(item, gate)])


def gates_of_level(level):
    return gathered([gates_of_item(item) for item in level.items])


# --- runs ---------------------------------------------------------------------------------------

def in_columns(events, later):
    """The pairs of events that stand in one column, each with one that stands behind it."""
    return [(first, second) for first in events for second in later if first.instances & second.instances]


def messages(level):
    """The pairs of a level's messages, by the events."""
    sent, got, pairs = {}, {}, []
    for event in level.events():
        if event.callee:
            pass
        elif event.kind == "out" and event.far != "env":
            sent.setdefault((event.at, event.far, event.text, event.pairing), []).append(event)
        elif event.kind == "in" and event.far != "env":
            got.setdefault((event.far, event.at, event.text, event.pairing), []).append(event)
    for key, outs in sent.items():
        pairs += zip(outs, got.get(key, []))
    return pairs


def orderings(level):
    """The pairs of a level's general ordering."""
    labels, pairs = {event.label: event for event in level.events() if event.label}, []
    for event in level.events():
        pairs += [(event, labels[name]) for name in event.before if name in labels]
        pairs += [(labels[name], event) for name in event.after if name in labels]
    return pairs


def unfolded(rng, level):
    """The events of one of the level's unfoldings, and its pairs."""
    events, pairs = [], messages(level) + orderings(level)
    for item in level.items:
        if isinstance(item, (Condition, Stop)):
            continue
        ends = isinstance(item, Inline) and item.form == "exc"
        if ends and rng.random() < 0.6:
            continue
        inner, more = unfolded_item(rng, item)
        if isinstance(item, (Inline, Reference)):
            inner, more = past_gates(item, *own_events(inner, more))
        pairs += more + in_columns(events, inner)
        events += inner
        if ends:
            break
    pairs += tied(events)
    held = set(events)
    return events, [(first, second) for first, second in pairs if first in held and second in held]


def tied(events):
    """The pairs of a level's joins: what goes out at the one gate before what comes in at the other. Above the level they aren't seen."""
    pairs = [(first, second) for first in events for second in events if first.tie and first.tie == second.tie and (first.kind, second.kind) == ("out", "in")]
    for event in events:
        event.tie = None
    return pairs


def past_gates(item, events, pairs):
    """What an item's events are around it: those at a called gate have the caller at their other end, and others may be joined."""
    for event in events:
        caller = item.callers.get(event.open)
        if isinstance(caller, Tied):
            event.far, event.tie = caller.at, caller.join
        elif caller:
            event.far = caller.at
            pairs = pairs + [(caller, event) if caller.kind == "out" else (event, caller)]
        event.open = outer_gate(item, event.open)
    return events, pairs


def unfolded_item(rng, item):
    if isinstance(item, Event):
        return [item], []
    if isinstance(item, Coregion):
        return list(item.events), []
    if isinstance(item, Reference):
        return unfolded_expression(rng, item.expression)
    operands = item.operands
    if item.form == "loop":
        return turns_of(rng, item)
    if item.form == "alt":
        operands = [rng.choice(operands)]
    elif item.form == "opt" and rng.random() < 0.3:
        operands = []
    events, pairs = [], []
    for operand in operands:
        inner, more = unfolded(rng, operand)
        events, pairs = events + inner, pairs + more
    return events, pairs


def own_events(events, pairs):
    """The events as events of their own, and their pairs."""
    own = {id(event): copy.copy(event) for event in events}
    return [own[id(event)] for event in events], [(own[id(first)], own[id(second)]) for first, second in pairs]


def beside(parts):
    """The parts without an order between them."""
    return [event for events, _ in parts for event in events], [pair for _, pairs in parts for pair in pairs]


def in_sequence(parts):
    """The parts one after another, as far as they share instances."""
    events, pairs = [], []
    for inner, more in parts:
        pairs = pairs + more + in_columns(events, inner)
        events = events + inner
    return events, pairs


def turns_between(rng, bounds):
    """How many turns a loop of these bounds takes."""
    lower, upper = bounds
    most = lower + 2 if upper is None else min(upper, lower + 2)
    return rng.randint(lower, most) if lower <= most else 0


def unfolded_expression(rng, expression):
    """The events of one of the unfoldings of an expression, each use of a chart with events of its own."""
    form, parts = expression.form, expression.parts
    if form == "chart":
        return own_events(*unfolded_chart(rng, expression.chart))
    if form == "alt":
        return unfolded_expression(rng, rng.choice(parts))
    if form == "loop":
        return in_sequence([unfolded_expression(rng, parts[0]) for _ in range(turns_between(rng, expression.bounds))])
    if form == "opt" and rng.random() < 0.3:
        return [], []
    each = [unfolded_expression(rng, part) for part in parts]
    return beside(each) if form == "par" else in_sequence(each)


def turns_of(rng, item):
    """The events of some turns of a loop, each turn with events of its own, and their pairs."""
    return in_sequence([own_events(*unfolded(rng, item.operands[0])) for _ in range(turns_between(rng, item.bounds))])


def stand_ins(chart):
    """The events of decomposed instances, each with what is done in its place: the k-th of a direction and text with the k-th of its chart."""
    found = {}
    for name, refining in chart.refined.items():
        for kind, text in {(event.kind, event.text) for event in refining.outside}:
            own = [event for event in chart.level.events() if (event.at, event.kind, event.text) == (name, kind, text)]
            found.update(zip(own, [event for event in refining.outside if (event.kind, event.text) == (kind, text)]))
    return found


def unfolded_chart(rng, chart):
    """The events of one of the chart's unfoldings, and its pairs: in place of decomposed instances, what their charts do beside the rest."""
    if chart.graph:
        return unfolded_walk(rng, chart.graph, True)
    body, pairs = unfolded(rng, chart.level)
    if not chart.refined:
        return body, pairs
    inner = []
    for refining in chart.refined.values():
        events, more = unfolded_chart(rng, refining)
        inner, pairs = inner + events, pairs + more
    gone = {event for event in chart.level.events() if event.at in chart.refined}
    own = {event: copy.copy(event) for event in body + inner if event not in gone}
    for event in inner:
        own[event].open = None
    pairs = [(own[first], own[second]) for first, second in pairs if first in own and second in own]
    return list(own.values()), pairs + refined_messages(chart, own)


def refined_messages(chart, own):
    """The pairs of the chart's messages with the ends that stand in; each end gets the instance of the other as its far end."""
    replaced, pairs = stand_ins(chart), []
    for message in messages(chart.level):
        first, second = [replaced.get(event, event) for event in message]
        for event, other in ((first, second), (second, first)):
            if event in own:
                own[event].far = other.at
        if first in own and second in own:
            pairs.append((own[first], own[second]))
    return pairs


# --- walks --------------------------------------------------------------------------------------

def steps_to_end(graph):
    """The lines from which a walk can come to an end, each with how few steps it takes."""
    steps, count, due = {}, 0, [line for line in graph.lines if line.form == "end"]
    while due:
        steps.update((line, count) for line in due)
        count += 1
        due = [line for line in graph.lines if line not in steps and any(after in steps for after in line.next)]
    return steps


def endless_lines(graph):
    """The lines that a walk may come to, and from which it can't come to an end."""
    steps, reached, due = steps_to_end(graph), [], list(graph.starts)
    while due:
        line = due.pop()
        if line not in reached:
            reached.append(line)
            due += line.next
    return [line for line in reached if line not in steps]


def walk_of(rng, graph, finished):
    """The lines of a walk: one that comes to an end, if it is to be finished and there is one, or else one that stops anywhere."""
    walk, due, steps, most = [], graph.starts, steps_to_end(graph), rng.randint(0, STEPS)
    ends = finished and any(line in steps for line in due)
    while due and (ends or len(walk) < most):
        if ends:
            due = [line for line in due if line in steps]
            due = due if len(walk) < most else [min(due, key=steps.get)]
        walk.append(rng.choice(due))
        due = walk[-1].next
    return walk


def unfolded_walk(rng, graph, finished):
    """The events of one of the unfoldings of a graph, and its pairs: of a finished walk, or of one that is under way."""
    return in_sequence([unfolded_node(rng, line) for line in walk_of(rng, graph, finished)])


def unfolded_node(rng, line):
    """The events of one of the unfoldings of a node, and its pairs. Behind the gates of its charts there is nobody."""
    if line.form != "refer":
        return beside([unfolded_walk(rng, frame, True) for frame in line.frames])
    events, pairs = unfolded_expression(rng, line.expression)
    for event in events:
        event.open = None
    return events, pairs


# --- whole charts -------------------------------------------------------------------------------

def in_order(rng, waiting, pairs):
    """The events in an order that the pairs allow; where they have a cycle, some of them."""
    run, earlier = [], {event: set() for event in waiting}
    for first, second in pairs:
        earlier[second].add(first)
    while earlier:
        due = [event for event, firsts in earlier.items() if firsts.isdisjoint(earlier)]
        if not due:
            break
        run.append(rng.choice(due))
        del earlier[run[-1]]
    return run


def has_runs(chart):
    """Whether a walk through the chart's graph can come to an end; any other chart has runs."""
    return not chart.graph or any(line in steps_to_end(chart.graph) for line in chart.graph.starts)


def run_of(rng, chart):
    """A run of the chart; where it has none, or the order has a cycle, some events of it."""
    return in_order(rng, *unfolded_chart(rng, chart))


def beginning_of(rng, chart):
    """What has happened so far in a run of the chart, or on a walk under way through its graph."""
    run = in_order(rng, *(unfolded_walk(rng, chart.graph, False) if chart.graph else unfolded_chart(rng, chart)))
    return run[:rng.randint(0, len(run))] if rng.random() < 0.5 else run
