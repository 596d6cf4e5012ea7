"""How random high-level charts are made, and the expressions of references and nodes.

A graph has lines of all kinds, loops back, and frames within frames. Its nodes name charts that were made before, basic or high-level ones.
From each line of a frame to which a walk comes it can come to an end; a graph on its own may have none, and isn't named then, unless that
rule is to be broken.
"""
from chart_parts import Expression, Graph, Line, endless_lines
from chart_texts import GRAPH_FAULTS, GraphWriter, writer_of

BOUNDS = [(1, None), (1, None), (0, None), (0, 1), (1, 2), (2, 2), (2, None), (0, 0), (3, 1), (1, 1)]
FRAMES = 2
# the events of the charts that a node, and all nodes of a graph, may name
IN_NODE, IN_GRAPH = 20, 90
# labels are no names of anything else, and may be words of the notation
LABELS = ["L", "L", "M", "L.", "_L"]
ODD_LABELS = ["connect", "end", "inf", "i", "text", "A"]


class Naming:
    """Makes expressions over the charts that were made before."""

    def __init__(self, rng, others):
        self.rng, self.others = rng, others
        # some are named more often: those that refer to others in a way of their own, and above all those whose walks don't end
        self.often = [chart for chart in others if chart.refined or chart.graph]
        self.often += [chart for chart in others if chart.endless] * 2

    def expression(self, depth):
        rng = self.rng
        form = rng.choice(["chart"] * 9 + ["empty"] + (["alt", "par", "seq", "opt", "loop"] * 2 if depth else []))
        if form == "chart" and self.others:
            return Expression(form, chart=rng.choice(self.others + self.often * 2))
        if form == "chart":
            form = "empty"
        parts = {"empty": 0, "opt": 1, "loop": 1}.get(form, rng.randint(2, 3))
        return Expression(form, [self.expression(depth - 1) for _ in range(parts)], bounds=rng.choice(BOUNDS))


class GraphMaker(Naming):
    """Makes the graph of a high-level chart."""

    def __init__(self, rng, structural, others):
        super().__init__(rng, others)
        self.structural, self.named = structural, 0

    def graph(self, depth, ends):
        """A graph; if it is to end, each walk through it can come to an end."""
        rng = self.rng
        nodes = [self.node(depth) for _ in range(rng.randint(1, 3 if depth else 6))]
        if ("end",) not in nodes and (ends or rng.random() < 0.6):
            nodes.append(("end",))
        lines = [Line(label, *node) for label, node in zip(self.labels(len(nodes)), nodes)]
        for line in lines:
            line.next = [] if line.form == "end" else self.some(lines, [1, 1, 2, 2, 3])
        graph = Graph(self.some([line for line in lines if line.form != "end" or rng.random() < 0.3] or lines, [1, 1, 1, 2, 3]), lines)
        while ends and endless_lines(graph):
            rng.choice(endless_lines(graph)).next.append(rng.choice([line for line in lines if line.form == "end"]))
        if rng.random() < 0.5:
            rng.shuffle(lines)
        return graph

    def some(self, lines, counts):
        """Some of the lines, now and then one of them twice."""
        count = self.rng.choice(counts)
        return self.rng.choices(lines, k=count) if self.rng.random() < 0.1 else self.rng.sample(lines, min(count, len(lines)))

    def labels(self, count):
        """So many labels, each another; frames may have those of the graph around them."""
        letter = self.rng.choice(LABELS)
        labels = [f"{letter}{number + 1}" for number in range(count)]
        if self.rng.random() < 0.1:
            labels[self.rng.randrange(count)] = self.rng.choice(ODD_LABELS)
        return labels

    def node(self, depth):
        """What the node of a line is."""
        rng = self.rng
        form = rng.choice(["refer"] * 14 + ["connect", "connect", "condition", "condition", "end"] + ["frames"] * (4 if depth < FRAMES else 0))
        if form == "frames":
            ends = self.structural != "endless graph" or rng.random() < 0.4
            return form, None, [self.graph(depth + 1, ends) for _ in range(rng.choice([1, 1, 2, 2, 3]))]
        return (form, self.content()) if form == "refer" else (form,)

    def content(self):
        """The expression of a node, over charts that don't have too many events, also with those of the nodes before."""
        for depth in (2, 1, 0, 0):
            expression = self.expression(depth)
            size = sum(chart.size for chart in expression.charts())
            if size <= IN_NODE and self.named + size <= IN_GRAPH:
                self.named += size
                return expression
        return Expression("empty")


class HighLevel:
    """A high-level chart: its name, its graph, its text, and which fault was put into it, if one was."""

    def __init__(self, rng, names, faulty, others):
        self.name, self.refined, self.gated = names[0], {}, False
        structural = "endless graph" if faulty and rng.random() < 0.4 else None
        self.graph = GraphMaker(rng, structural, that_end(others, structural)).graph(0, rng.random() < 0.75)
        self.endless = bool(endless_lines(self.graph))
        named = list(self.graph.charts())
        # a walk passes some of its nodes
        self.size, self.expanded = 1 + sum(chart.size for chart in named) // 3, {i for chart in named for i in chart.expanded}
        # nothing of it stands at an outermost level
        self.outside, self.inside, self.crossing = [], True, any(chart.crossing for chart in named)
        writer = writer_of(rng, faults_in_turn(rng) if faulty and not structural else [], self.graph, GraphWriter, names, [], {})
        self.text = writer.chart(self.graph)
        # what is said of a chart that names a faulty one is as doubtful
        self.fault = structural or writer.fault or next((chart.fault for chart in named if chart.fault), None)

    def events(self):
        """The events of the charts that it names."""
        return [event for chart in self.graph.charts() for event in chart.events()]


def that_end(charts, structural):
    """Those of the charts that others may name: whose walks can come to an end, unless that rule is to be broken."""
    return [chart for chart in charts if not chart.endless or structural == "endless graph"]


def faults_in_turn(rng):
    """All faults in the order in which they are tried. A graph with too many lines takes long to read, and is tried seldom."""
    front = ["syntax"] if rng.random() < 0.08 else ["too many lines"] if rng.random() < 0.04 else []
    return front + rng.sample(GRAPH_FAULTS, len(GRAPH_FAULTS))
