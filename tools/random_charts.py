"""Random charts for compare.py, some of them faulty.

A chart is made as a tree of levels first (chart_parts.py): a body has stops too, and a child is created in front of all that it does there.
A reference has an expression over charts that were made before, and some of these refine instances. From the tree come runs, by the meaning
of the forms alone, and the text (chart_texts.py). High-level charts are made of graphs (random_graphs.py); they stand among the others,
and in some documents more than half are of this kind.

Events may stand at gates, each gate of a chart with one event. Where one run has one event at most at a gate of an inline expression or
reference, and none in a loop, an event of the level may call it, or a join tie it with one of another; references join gates to others of
their chart. In documents in layers each chart refers to the one before, and many hand on its gates.

A decomposed instance has for each event of its chart with the environment one of the same direction and text, with the environment, another
instance, or another decomposed one. Charts that are made to refine have such events at their outermost level alone.
"""
from chart_parts import Condition, Coregion, Event, Expression, Inline, Level, Reference, Stop, Tied, gates_inside, gates_of_expression, instances_of, woven
from chart_texts import FAULTS, OF_PARTS, Writer, writer_of
from random_graphs import BOUNDS, HighLevel, Naming, that_end

DEPTH = 3
EVENTS = 14
EXPANDED = 28
# the instances of charts that refine others have other names, so that they take part nowhere else
FAMILIES = ["ijkl", "pqrs", "tuvw"]

# what can be wrong in how a chart is made
CREATING = ["create placed", "created twice", "late creation"]
GATES = ["no gate", "gate used twice", "gate ways differ", "gate on two instances", "gate on a loop"]
REFINING = ["decomposition mismatch", "decomposed instance shared", "decomposition inside", "local event", "created twice"]
STRUCTURAL = ["exc placed", "event named twice", "unknown event", "cyclic order", "uncovered instance", "event after stop", *CREATING, *GATES, *GATES]


class Maker(Naming):
    """Makes the levels of a chart."""

    def __init__(self, rng, structural, instances, refined, others, quiet, layered, events):
        super().__init__(rng, others)
        self.left, self.structural, self.count, self.least = events, structural, 0, 3 if quiet or events < EVENTS else 0
        self.instances, self.refined, self.expanded, self.created = instances, refined, 0, set()
        # whether events with the environment stand at the outermost level alone; and of a chart in layers, how often gates are handed on
        self.quiet, self.layered, self.handed = quiet, layered, rng.choice([0.1, 0.9]) if layered else 0.4
        # the events of the charts that it refers to; small charts, of which graphs are made, refer to few
        self.most = 2 * EXPANDED if layered else EXPANDED if events == EVENTS else EVENTS
        # charts with many events at gates refer to others with many
        self.gates, self.gated = 0, layered or structural in GATES or rng.random() < (0.8 if any(chart.gated for chart in others) else 0.3)

    def level(self, cover, depth):
        rng, items, waiting = self.rng, [], []
        for _ in range(rng.randint(self.least if depth == 0 else 0, 6 if depth == 0 else 3) if cover else 0):
            wanted = 1 if self.layered and not items else 0.5 if self.gated else 0.3
            reference = self.reference(cover) if self.others and rng.random() < wanted else None
            creation = self.creation(cover, depth, items)
            if creation:
                items.append(creation)
            if reference:
                items.append(reference)
            elif rng.random() < (0.15 if self.quiet else 0.4) and depth < DEPTH:
                items.append(self.inline(cover, depth))
            elif rng.random() < 0.06:
                items.append(Condition(rng.sample(cover, rng.randint(1, len(cover)))))
            elif self.left > 0:
                items.append(self.event(cover, waiting, depth))
            while waiting and rng.random() < 0.5:
                items.append(waiting.pop(rng.randrange(len(waiting))))
        rng.shuffle(waiting)
        level = Level(cover, items + waiting)
        self.ties(level)
        self.callers(level)
        if depth == 0:
            self.refine(level)
        self.coregions(level)
        if rng.random() < 0.3:
            self.order(level)
        if depth == 0 or self.structural == "create placed":
            self.stops(level)
        return level

    def creation(self, cover, depth, items):
        """A creation of a child of which nothing stands in front, now and then; where a rule is to be broken, also of another, or inside."""
        rng, touched = self.rng, {i for item in items for i in instances_of(item)}
        if rng.random() >= (0.1 if self.structural not in CREATING else 0.5) or (depth > 0 and self.structural != "create placed"):
            return None
        free = [i for i in cover if i not in touched and i not in self.created]
        if self.structural in ("created twice", "late creation"):
            free = cover
        if not free:
            return None
        child = rng.choice(free)
        creators = [i for i in cover if i != child] or (cover if self.structural == "created twice" else [])
        if not creators:
            return None
        at = child if self.structural == "created twice" and rng.random() < 0.2 else rng.choice(creators)
        self.left -= 1
        self.created.add(child)
        return Event(at, "create", child)

    def stops(self, level):
        """Puts stops behind what stands in columns, now and then; where a rule is to be broken, also in front of it."""
        rng, breaks = self.rng, self.structural in ("event after stop", "create placed")
        for i in level.cover:
            if rng.random() >= (0.4 if breaks else 0.08):
                continue
            last = max((k + 1 for k, item in enumerate(level.items) if i in item.cover and not isinstance(item, Condition)), default=0)
            first = 0 if self.structural == "event after stop" and rng.random() < 0.7 else last
            level.items.insert(rng.randint(first, len(level.items)), Stop([i]))

    def event(self, cover, waiting, depth):
        rng, self.left = self.rng, self.left - 1
        at, far = rng.choice(cover), rng.choice(cover)
        crossing = ["out to env", "in from env"] * (0 if self.quiet and depth else 5 if self.gated or self.quiet else 1)
        kind = rng.choice(["message"] * 5 + ["action"] * 3 + ["set", "reset", "timeout", "lost", "found"] + crossing)
        if kind == "message":
            text, pairing = rng.choice(["a", "b", "a(x)", "a('y z')"]), rng.choice(["", "", "", "1", "2"])
            self.left -= 1
            ends = [Event(at, "out", text, far, pairing), Event(far, "in", text, at, pairing)]
            if self.structural == "cyclic order" and rng.random() < 0.4:
                ends.reverse()
            waiting.append(ends[1])
            return ends[0]
        if kind in ("out to env", "in from env"):
            event = Event(at, kind.split()[0], rng.choice(["e"] * 5 + ["f", "e(x)"]), "env", rng.choice([""] * 5 + ["1"]))
            event.gate = event.open = self.gate() if rng.random() < (0.8 if self.gated else 0.4) else None
            return event
        if kind in ("lost", "found"):
            return Event(at, kind, "m", rng.choice("ijklz") if kind == "lost" else None)
        return Event(at, kind, rng.choice("xy"))

    def gate(self):
        """A gate that the chart doesn't have yet; where a rule is to be broken, also one that it has."""
        if self.gates and self.structural in ("gate used twice", "gate on two instances") and self.rng.random() < 0.5:
            return f"g{self.rng.randint(1, self.gates)}"
        self.gates += 1
        return f"g{self.gates}"

    def callers(self, level):
        """Lets events of the level call gates that one event may call; where a rule is to be broken, also others."""
        rng, broken = self.rng, self.structural if self.structural in GATES else None
        for item in [item for item in level.items if isinstance(item, (Inline, Reference))]:
            inside = gates_inside(item)
            if broken == "no gate" and rng.random() < 0.3:
                self.call(level, item, rng.choice(["g9", "h"]), Event(rng.choice(level.cover), "out", "e", rng.choice(level.cover)))
            for gate, inner in inside.items():
                if gate in item.joins or gate in item.ties or (gate in item.callers and broken != "gate used twice") or not (inner.fits() or broken) or rng.random() < 0.3:
                    continue
                held = inner.events[0]
                kind = "in" if held.kind == "out" else "out"
                if broken == "gate ways differ" and rng.random() < 0.5:
                    kind = held.kind
                text = self.other_text(held.text) if broken == "gate ways differ" and rng.random() < 0.5 else held.text
                for _ in range(2 if broken == "gate used twice" and rng.random() < 0.5 else 1):
                    self.call(level, item, gate, Event(rng.choice(level.cover), kind, text, held.at))

    def other_text(self, text):
        """Another text: another name, or the name with other parameters."""
        name, *parameters = text.split("(")
        return self.rng.choice(["f" if name == "e" else "e", f"{name}(y)", f"{name}(x,x)", f"{name}()", name if parameters else f"{name}(x)"])

    def ties(self, level):
        """Joins gates of references with gates of others of the level that go the other way; where a rule is to be broken, also others."""
        rng, broken = self.rng, self.structural if self.structural in GATES else None
        items = [item for item in level.items if isinstance(item, (Inline, Reference))]
        for item in [item for item in items if isinstance(item, Reference)]:
            for gate, inner in gates_inside(item).items():
                for other in rng.sample(items, len(items)):
                    for far, outer in gates_inside(other).items():
                        if rng.random() < 0.8 and self.may_tie(item, gate, inner, other, far, outer, broken):
                            self.tie(item, gate, inner, other, far, outer)
            if broken == "no gate" and items and rng.random() < 0.2:
                item.ties[rng.choice(["g1", "h"])] = (rng.choice(items), rng.choice(["g2", "h"]))

    def may_tie(self, item, gate, inner, other, far, outer, broken):
        taken = gate in item.callers or gate in item.joins or gate in item.ties or far in other.callers or far in other.joins or far in other.ties
        if item is other or (taken and broken != "gate used twice"):
            return False
        if broken and self.rng.random() < 0.5:
            return True
        return inner.fits() and outer.fits() and inner.events[0].kind != outer.events[0].kind and inner.events[0].text == outer.events[0].text

    def tie(self, item, gate, inner, other, far, outer):
        item.ties[gate] = (other, far)
        join = (item, gate)
        other.callers[far] = Tied(inner.events[0].at, join)
        if self.structural != "no gate" or self.rng.random() < 0.5:
            item.callers[gate] = Tied(outer.events[0].at, join)

    def call(self, level, item, gate, event):
        """Puts the caller in front of the item, if it goes out, else behind it; now and then elsewhere."""
        rng, at, self.left = self.rng, level.items.index(item), self.left - 1
        event.callee = (item, gate)
        item.callers[gate] = event
        first, last = (0, at) if event.kind == "out" else (at + 1, len(level.items))
        level.items.insert(rng.randint(first, last) if rng.random() < 0.9 else rng.randint(0, len(level.items)), event)

    def inline(self, cover, depth):
        rng = self.rng
        inner = rng.sample(cover, rng.randint(1, len(cover)))
        form = rng.choice(["alt", "alt", "opt", "par", "loop", "loop"])
        if depth == 0 and not self.refined and rng.random() < 0.25:
            form, inner = "exc", rng.sample(cover, len(cover))
        if self.structural == "exc placed" and rng.random() < 0.3:
            form = "exc"
        self.count += 1
        operands = [self.level(inner, depth + 1) for _ in range(rng.randint(1, 3) if form in ("alt", "par") else 1)]
        return Inline(form, inner, f"X{self.count}", operands, rng.choice(BOUNDS))

    # decomposed instances
    def refine(self, level):
        """Puts in what the decomposed instances do, in the order of their charts, and the other ends of it."""
        rng, items, plain, place, sent = self.rng, level.items, level.cover, 0, []
        for i, kind, text in self.due():
            place = rng.randint(place, len(items))
            event = Event(i, kind, text, "env", rng.choice(["", "", "1"]))
            items.insert(place, event)
            self.left, place = self.left - 2, place + 1
            sender = next((out for out in sent if out.text == text), None) if kind == "in" and rng.random() < 0.6 else None
            if sender:
                sent.remove(sender)
                sender.far, event.far, event.pairing = i, sender.at, sender.pairing
            elif kind == "in" and plain and rng.random() < 0.8:
                event.far = rng.choice(plain)
                items.insert(rng.randint(0, place - 1), Event(event.far, "out", text, i, event.pairing))
                place += 1
            elif kind == "out":
                sent.append(event)
        for event in sent:
            if plain and rng.random() < 0.8:
                event.far = rng.choice(plain)
                items.insert(rng.randint(items.index(event) + 1, len(items)), Event(event.far, "in", event.text, event.at, event.pairing))
        level.cover = self.instances
        if self.refined and rng.random() < 0.2:
            items.insert(rng.randint(0, len(items)), Condition(rng.sample(self.instances, rng.randint(1, len(self.instances)))))
        if self.refined and self.structural in REFINING:
            self.spoil(level, rng.choice(list(self.refined)), plain)

    def due(self):
        """What the decomposed instances do, as their charts have it: the instance, the direction and the text, in an order that fits the charts."""
        rng, mixed = self.rng, []
        queues = [[(i, event.kind, event.text) for event in chart.outside] for i, chart in self.refined.items()]
        if rng.random() < 0.1:
            queues = [rng.sample(queue, len(queue)) for queue in queues]
        while any(queues):
            mixed.append(rng.choice([queue for queue in queues if queue]).pop(0))
        if self.structural == "decomposition mismatch" and self.refined:
            i, at = rng.choice(list(self.refined)), rng.randint(0, len(mixed))
            if mixed and rng.random() < 0.5:
                del mixed[rng.randrange(len(mixed))]
            else:
                mixed.insert(at, (i, rng.choice(["out", "in"]), rng.choice("eg")))
        return mixed

    def spoil(self, level, i, plain):
        """Breaks a rule on decomposed instances at the instance i."""
        rng, items = self.rng, level.items
        if self.structural == "local event":
            self.localise(level, i, [item for item in items if item.cover == [i] and isinstance(item, Event)])
        elif self.structural == "created twice" and plain:
            items.insert(rng.randint(0, len(items)), Event(rng.choice(plain), "create", i))
        elif self.structural == "decomposed instance shared" and plain and rng.random() < 0.5:
            shared = [item for item in items if isinstance(item, (Inline, Reference))]
            if not shared:
                cover = [rng.choice(plain)]
                shared = [Inline("opt", cover, "X0", [Level(cover, [])])]
                items.append(shared[0])
            rng.choice(shared).cover.append(i)

    def localise(self, level, i, own):
        """Gives the decomposed instance something that is no plain message."""
        rng, items = self.rng, level.items
        called = [(item, gate) for item in items if isinstance(item, (Inline, Reference)) for gate in gates_inside(item) if gate not in item.callers]
        what = rng.choice(["event", "inline", "reference", "creation"] + ["label", "order", "gate", "coregion"] * bool(own) + ["call"] * bool(called))
        event, place = rng.choice(own) if own else None, rng.randint(0, len(items))
        if what == "event":
            items.insert(place, Event(i, rng.choice(["action", "set", "reset", "timeout", "lost", "found"]), "m", "j"))
        elif what == "inline":
            items.insert(place, Inline(rng.choice(["alt", "opt", "par", "loop"]), [i], "X0", [Level([i], [])], (1, 2)))
        elif what == "reference":
            items.insert(place, Reference([i], "R0", Expression("empty")))
        elif what == "creation":
            items.insert(0, Event(i, "create", rng.choice(self.instances)))
        elif what == "call":
            item, gate = rng.choice(called)
            held = gates_inside(item)[gate].events[0]
            self.call(level, item, gate, Event(i, "in" if held.kind == "out" else "out", held.text, held.at))
        elif what == "label":
            event.label = "e9"
        elif what == "order":
            (event.before if rng.random() < 0.5 else event.after).append("e0")
        elif what == "gate":
            event.gate = "g0"
        else:
            items[items.index(event)] = Coregion([event])

    def reference(self, cover):
        """A reference to charts that were made before, or none, where they have instances of the chart that the level doesn't cover."""
        rng = self.rng
        expression = self.expression(2)
        expanded = {i for chart in expression.charts() for i in chart.expanded}
        asked = [i for i in self.instances if i in expanded]
        if not set(asked) <= set(cover) and not (self.structural == "uncovered instance" and rng.random() < 0.5):
            return None
        size = sum(chart.size for chart in expression.charts())
        if self.expanded + size > self.most or not self.may_refer(expanded, expression):
            return None
        self.expanded += size
        own = [i for i in cover if i in asked or rng.random() < 0.3] or [rng.choice(cover)]
        if self.structural == "uncovered instance" and len(own) > 1:
            own.remove(rng.choice(own))
        self.count += 1
        reference = Reference(rng.sample(own, len(own)), f"R{self.count}", expression)
        reference.joins = {gate: self.gate() for gate in gates_of_expression(expression) if rng.random() < self.handed}
        if self.structural == "no gate" and rng.random() < 0.2:
            reference.joins["h"] = self.gate()
        return reference

    def may_refer(self, expanded, expression):
        """Whether no instance of these charts refines one here, and none has events with the environment, if the chart is to have none inside."""
        inner = {i for chart in self.refined.values() for i in chart.expanded}
        apart = not inner & expanded or (self.structural == "decomposed instance shared" and self.rng.random() < 0.7)
        return apart and not (self.quiet and any(chart.crossing for chart in expression.charts()))

    def expression(self, depth):
        """An expression; in a chart in layers, mostly over the chart before."""
        if self.layered and self.rng.random() < 0.4:
            return Expression("chart", chart=self.others[-1])
        return super().expression(depth)

    def coregions(self, level):
        """Puts events of one instance that stand together into coregions, now and then."""
        joined = []
        for item in level.items:
            last = joined[-1] if joined else None
            if item.cover[0] in self.refined or (self.structural != "create placed" and any(isinstance(one, Event) and one.kind == "create" for one in (item, last))):
                joined.append(item)
            elif isinstance(item, Event) and isinstance(last, (Event, Coregion)) and last.cover == item.cover and self.rng.random() < 0.35:
                joined[-1] = Coregion((last.events if isinstance(last, Coregion) else [last]) + [item])
            elif isinstance(item, Event) and self.rng.random() < 0.03:
                joined.append(Coregion([item]))
            else:
                joined.append(item)
        level.items = joined

    def order(self, level):
        """Gives events labels, the same at each level, and orders them, mostly as they stand."""
        rng, events = self.rng, [event for event in level.events() if event.at not in self.refined]
        for number, event in enumerate(events):
            if rng.random() < 0.5:
                event.label = f"e{number}"
        if self.structural == "event named twice" and len(events) > 1:
            events[0].label = events[-1].label = "e0"
        for number, event in enumerate(events):
            for k in rng.sample(range(len(events)), min(2, len(events))):
                if not events[k].label or k == number or rng.random() < 0.5:
                    continue
                forward = (k > number) != (self.structural == "cyclic order" and rng.random() < 0.5)
                (event.before if forward else event.after).append(events[k].label)
        if self.structural == "unknown event" and events:
            rng.choice(events).after.append(rng.choice(["none", "e7", "e8"]))


def faults_in_turn(rng):
    """All faults in the order in which they are tried; those of parts, which have few places, mostly first."""
    of_parts, others = rng.sample(OF_PARTS, len(OF_PARTS)), rng.sample(FAULTS, len(FAULTS))
    if rng.random() < 0.7:
        # any chart has a place for it
        others.remove("refined by itself")
    front = ["syntax"] if rng.random() < 0.08 else ["parts exchanged"] if rng.random() < 0.4 else []
    return front + (of_parts + others if rng.random() < 0.7 else others + of_parts)


def structural_fault(rng, others, refines):
    """What is to be wrong in how a chart is made; now and then nothing, so that its text has a fault."""
    if any(chart.endless for chart in others) and rng.random() < 0.3:
        return "endless graph"
    return rng.choice(REFINING if refines and rng.random() < 0.8 else STRUCTURAL) if rng.random() < (0.7 if refines else 0.3) else None


def refinements(rng, instances, others, structural):
    """Some of the instances, now and then one more, and charts that refine them; where a rule is to be broken, also charts that may not."""
    refined, used = {}, set()
    taken = rng.sample(["z", *instances], min(rng.choice([1, 1, 2, 2, 3]), len(instances) + (rng.random() < 0.1)))
    plain = [i for i in instances if i not in taken]
    for i in taken:
        fitting = [chart for chart in others if bool(chart.refined or chart.inside) == (structural == "decomposition inside")]
        if structural != "decomposed instance shared" or rng.random() < 0.5:
            fitting = [chart for chart in fitting if not chart.expanded & {*plain, *used}]
        if fitting:
            refined[i] = rng.choice(fitting)
            used |= refined[i].expanded
    return plain, refined


class Chart:
    """A basic chart: its name, its outermost level, its text, the charts that refine its instances, and which fault was put into it, if one was."""

    def __init__(self, rng, names, faulty, others, family, refines, layered, events):
        self.name, self.graph, self.endless = names[0], None, False
        plain = rng.sample(family, rng.randint(1, 4))
        structural = structural_fault(rng, others, refines) if faulty else None
        plain, self.refined = refinements(rng, plain, others, structural) if refines else (plain, {})
        instances = rng.sample([*plain, *self.refined], len(plain) + len(self.refined))
        maker = Maker(rng, structural, instances, self.refined, that_end(others, structural), family != FAMILIES[0] and rng.random() < 0.9, layered, events)
        self.gated = maker.gated
        self.level = maker.level(plain, 0)
        self.size = events - maker.left + maker.expanded + sum(chart.size for chart in self.refined.values()) + 1
        named = [*self.referred(), *self.refined.values()]
        self.expanded = {*plain, *(i for chart in named for i in chart.expanded)}
        writer = writer_of(rng, faults_in_turn(rng) if faulty and not structural else [], self.level, Writer, names, instances, self.refined)
        self.text = writer.chart(self.level)
        for level in self.level.levels():
            level.items = woven(level, writer.places)
        self.crossings()
        # what is said of a chart that names a faulty one is as doubtful
        self.fault = structural or writer.fault or next((chart.fault for chart in named if chart.fault), None)

    def crossings(self):
        """What it has with the environment: at its outermost level; whether elsewhere; and whether at all."""
        self.outside = [event for event in self.level.events() if event.crosses()]
        self.inside = any(event.crosses() for level in self.level.levels() if level is not self.level for event in level.events())
        self.inside = self.inside or any(chart.crossing for chart in self.referred())
        self.crossing = bool(self.outside) or self.inside or any(chart.crossing for chart in self.refined.values())

    def referred(self):
        """The charts of its references."""
        return [chart for level in self.level.levels() for item in level.items if isinstance(item, Reference) for chart in item.expression.charts()]

    def events(self):
        return [event for level in self.level.levels() for event in level.events()]


def kind_of_document(rng):
    """Whether the first charts are made to refine instances of the others; whether each hands on gates; or whether many have graphs."""
    return rng.choice(["refining"] * 4 + ["layered"] * 2 + ["graphs"] * 4 + ["plain"] * 3)


def document_of(rng):
    """Charts, and the text of a document of them; in some the first ones are made to refine instances of the others, or each hands gates on,
    or many are high-level charts, over small ones."""
    kind = kind_of_document(rng)
    count = rng.randint(0, 4) if kind == "plain" else rng.randint(3, 6)
    names = [rng.choice(["A", "B"]) if rng.random() < 0.1 else f"C{number}" for number in range(count)]
    may_err = range(count // 3 if kind == "refining" else 0, count)
    faulty = rng.sample(may_err, min(rng.choice([1, 1, 1, 1, 1, 2]), count)) if rng.random() < 0.6 else []
    charts = []
    for number in range(count):
        charts.append(chart_of(rng, kind, names[number:], number in faulty, charts, number < count // 2))
    if rng.random() < 0.5:
        rng.shuffle(charts)
    text = "\n".join(chart.text for chart in charts)
    if rng.random() < 0.2:
        text = f"mscdocument X;\n{text}\nendmscdocument;"
    return charts, text


def chart_of(rng, kind, names, faulty, charts, early):
    """A chart of the first of the names, behind these charts."""
    if charts and rng.random() < (0.55 if kind == "graphs" else 0.12):
        return HighLevel(rng, names, faulty, charts)
    first = kind == "refining" and early
    family = FAMILIES[1 + len(charts) % 2] if first else FAMILIES[0]
    refines = kind == "refining" and rng.random() < (0.2 if first else 0.9)
    others = charts + charts[-1:] * 3 if kind == "layered" else list(charts) if kind != "plain" or rng.random() < 0.8 else []
    events = EVENTS // 2 if kind in ("layered", "graphs") else EVENTS
    return Chart(rng, names, faulty, others, family, refines, kind == "layered", events)
