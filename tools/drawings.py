"""Drawings of findings as SVG: flops with their clocks, inputs, the cells of a path, and the wires between them."""
from html import escape

LETTER = 7.3
MARGIN = 8
GAP = 34
MOST_WIDTH = 900
FLOP_WIDTH = 46
ROW = 88
TOP = 24
WIRE = 42
CLOCK = 77
MOST_ROWS = 8
MOST_STAGES = 4
COLOURS = 6

SHARED = (
    '<svg width="0" height="0" aria-hidden="true" focusable="false" style="position:absolute"><defs>'
    '<marker id="arrow" viewBox="0 0 8 8" refX="7" refY="4" markerWidth="8" markerHeight="8" orient="auto"><path d="M0 0l8 4-8 4z"/></marker>'
    "</defs></svg>"
)
OUTLINES = {"flop": "h46v36h-46zm0 25l7 4-7 4", "input": "m0 7h31l15 11-15 11h-31z"}


class Node:
    """A flop, an input or a cell with its left edge and its row's top."""

    def __init__(self, label, clock=None, symbol="cell", domain=None):
        self.label = label
        self.clock = clock
        self.symbol = symbol
        self.domain = domain
        text = max(len(label), len(clock or "")) * LETTER
        self.width = text + 2 * MARGIN if symbol == "cell" else max(text, FLOP_WIDTH)
        self.left = self.top = 0

    def at(self, left, top):
        self.left, self.top = left, top
        return self

    def right(self):
        return self.left + self.width

    def middle(self):
        return self.left + self.width / 2

    def begin(self):
        """The horizontal place at which a wire enters the symbol."""
        return self.left if self.symbol == "cell" else self.middle() - FLOP_WIDTH / 2

    def end(self):
        return self.right() if self.symbol == "cell" else self.middle() + FLOP_WIDTH / 2

    def wire_height(self):
        return self.top + WIRE

    def shapes(self):
        if self.symbol == "cell":
            yield f'<rect class="cell" x="{self.left:.0f}" y="{self.top + TOP + 4}" width="{self.width:.0f}" height="28" rx="6"/>'
            yield text_at(self.middle(), self.top + WIRE + 4, self.label)
            return
        yield f'<path class="d{self.domain}" d="M{self.begin():.0f} {self.top + TOP}{OUTLINES[self.symbol]}"/>'
        yield text_at(self.middle(), self.top + 16, self.label)
        if self.clock:
            yield text_at(self.middle(), self.top + CLOCK, self.clock, "clock")


def text_at(middle, height, text, kind="name"):
    return f'<text class="{kind}" x="{middle:.0f}" y="{height:.0f}">{escape(text)}</text>'


def node_of(bit, domains):
    """A register's bit as a flop, or an input."""
    clock, group = domains.clock_of(bit), domains.group_of(bit)
    symbol = "input" if domains.is_input(bit) else "flop"
    if group not in domains.order:
        return Node(bit, f"clock {clock}", symbol, "none")
    return Node(bit, f"{clock} ({group})", symbol, domains.order.index(group) % COLOURS)


def wire(source, target):
    """A wire that slopes between the nodes alone, so that it meets no label."""
    return (
        f'<path class="wire" d="M{source.end():.0f} {source.wire_height():.0f}H{source.right():.0f}'
        f'L{target.left - 8:.0f} {target.wire_height():.0f}H{target.begin():.0f}"/>'
    )


def wire_to_next_row(source, target):
    turn = source.top + ROW - 3
    return (
        f'<path class="wire" d="M{source.end():.0f} {source.wire_height():.0f}h12V{turn:.0f}H{target.begin() - 14:.0f}'
        f'V{target.wire_height():.0f}H{target.begin():.0f}"/>'
    )


def picture(shapes, nodes, description, note=""):
    width = max(node.right() for node in nodes) + 24
    height = max(node.top for node in nodes) + ROW + (20 if note else 0)
    more = f'<text class="note" x="4" y="{height - 6:.0f}">{escape(note)}</text>' if note else ""
    return (
        f'<svg class="drawing" role="img" aria-label="{escape(description)}" viewBox="0 0 {width:.0f} {height:.0f}" '
        f'width="{width:.0f}" height="{height:.0f}">{"".join(shapes)}{more}</svg>'
    )


def path_drawing(path, domains):
    """The source, the cells of the path and the flop at its end, in rows."""
    ends = (0, len(path) - 1)
    nodes = [node_of(name, domains) if place in ends else Node(name) for place, name in enumerate(path)]
    left, top = 16, 0
    for node in nodes:
        if left > 16 and left + node.width > MOST_WIDTH:
            left, top = 16, top + ROW
        node.at(left, top)
        left = node.right() + GAP
    shapes = [shape for node in nodes for shape in node.shapes()]
    for source, target in zip(nodes, nodes[1:]):
        shapes.append(wire(source, target) if source.top == target.top else wire_to_next_row(source, target))
    return picture(shapes, nodes, "path: " + " to ".join(described(node) for node in nodes))


def described(node):
    return f"{node.label} ({node.symbol} on {node.clock})" if node.clock else f"cell {node.label}"


def aligned(nodes):
    """The nodes of a column, each as wide as the widest."""
    width = max(node.width for node in nodes)
    for node in nodes:
        node.width = width
    return nodes


def column(bits, left, domains):
    bits = list(dict.fromkeys(bits))
    nodes = aligned([node_of(bit, domains) for bit in bits])
    return {bit: node.at(left, ROW * row) for row, (bit, node) in enumerate(zip(bits, nodes))}


def flops_drawing(flops, domains):
    """Each source and the first flops that capture it."""
    shown = flops[:MOST_ROWS]
    sources = column([source for source, _ in shown], 4, domains)
    targets = column([flop for _, flop in shown], sources[shown[0][0]].right() + 3 * GAP, domains)
    nodes = [*sources.values(), *targets.values()]
    shapes = [shape for node in nodes for shape in node.shapes()] + [wire(sources[source], targets[flop]) for source, flop in shown]
    description = "first flops: " + ", ".join(f"{source} to {flop}" for source, flop in shown)
    return picture(shapes, nodes, description, note_of(flops))


def note_of(rows):
    return f"and {len(rows) - MOST_ROWS} more, in the lines below" if len(rows) > MOST_ROWS else ""


def arrivals_drawing(target, arrivals, domains):
    """Each source, the flops through which it comes, and the register that reads them together."""
    nodes, shapes, lasts = [], [], []
    sources = aligned([node_of(source, domains) for _, source, _ in arrivals[:MOST_ROWS]])
    for row, (source, (bit, _, depth)) in enumerate(zip(sources, arrivals)):
        stages = [source.at(4, ROW * row)] + stages_of(bit, int(depth), domains)
        left = source.right() + GAP
        for stage in stages[1:]:
            stage.at(left, ROW * row)
            left = stage.right() + GAP * 2 / 3
        shapes += [wire(before, after) for before, after in zip(stages, stages[1:])]
        nodes += stages
        lasts.append(stages[-1])
    middle = ROW * (len(lasts) - 1) / 2
    logic = Node("logic").at(max(node.right() for node in lasts) + GAP, middle)
    reader = node_of(target, domains).at(logic.right() + GAP, middle)
    nodes += [logic, reader]
    shapes += [wire(last, logic) for last in lasts] + [wire(logic, reader)] + [shape for node in nodes for shape in node.shapes()]
    description = f"{target} reads " + ", ".join(f"{bit} of {source} by {depth} flops" for bit, source, depth in arrivals[:MOST_ROWS])
    return picture(shapes, nodes, description, note_of(arrivals))


def stages_of(bit, depth, domains):
    """The flops up to the one that arrives, which has a name; the middle ones of a long chain are left out."""
    last = node_of(bit, domains)
    unnamed = [Node("", None, "flop", last.domain) for _ in range(depth - 1)]
    if depth > MOST_STAGES:
        unnamed[1:] = [Node(f"{depth - 2} flops")]
    return unnamed + [last]


def drawing_of(finding, domains):
    if finding.path:
        return path_drawing(finding.path, domains)
    if finding.flops:
        return flops_drawing(finding.flops, domains)
    if finding.arrivals:
        return arrivals_drawing(finding.reader, finding.arrivals, domains)
    return ""
