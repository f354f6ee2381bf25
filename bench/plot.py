"""Draws how costs grow as an SVG: a small plot for each workload, both axes logarithmic, with a dotted line for n log n."""
import math
from html import escape

import runs

COLUMNS = 4
WIDTH, HEIGHT = 230, 170  # of a panel
LEFT, RIGHT, TOP, BOTTOM = 44, 10, 24, 26
# a plot has one of the ways of prefq_rs, beside the one without a name
COLOURS = {"prefq": "#c0392b", "prefq_rs": "#7f8c8d", **{f"prefq_rs --{way}": "#2980b9" for way in runs.WAYS}, "sqlite": "#27ae60"}
STYLE = """text { font: 10px sans-serif; fill: #222 } .name { font-weight: bold } .axis { stroke: #bbb; stroke-width: 0.5 }
path { fill: none; stroke-width: 1.6 } .guide { stroke: #444; stroke-width: 0.8; stroke-dasharray: 2 3 }"""


class Panel:
    """One workload: its costs by way and size, in a frame of its own."""

    def __init__(self, costs, sizes, unit):
        self.costs, self.sizes, self.unit = costs, sizes, unit
        known = [cost for of in costs.values() for cost in of.values() if cost > 0]
        self.least = math.floor(math.log10(min(known)))
        self.most = max(self.least + 1, math.ceil(math.log10(max(known))))

    def x(self, size):
        share = math.log(size / self.sizes[0]) / math.log(self.sizes[-1] / self.sizes[0])
        return LEFT + share * (WIDTH - LEFT - RIGHT)

    def y(self, cost):
        share = (math.log10(cost) - self.least) / (self.most - self.least)
        return HEIGHT - BOTTOM - share * (HEIGHT - TOP - BOTTOM)

    def path(self, points, look):
        at = [f"{self.x(size):.1f} {self.y(cost):.1f}" for size, cost in points if cost > 0]
        return f'<path {look} d="M {" L ".join(at)}"/>' if len(at) > 1 else ""

    def guide(self):
        """n log n through the first point of prefq, as far as it lies within the frame."""
        ours = self.costs.get("prefq")
        if not ours:
            return ""
        first = min(ours)
        cost = lambda n: ours[first] * n * math.log2(n) / (first * math.log2(first))
        return self.path([(n, cost(n)) for n in self.sizes if n >= first and cost(n) <= 10**self.most], 'class="guide"')

    def axes(self):
        for power in range(self.least, self.most + 1):
            y = self.y(10**power)
            yield f'<line class="axis" x1="{LEFT}" x2="{WIDTH - RIGHT}" y1="{y:.1f}" y2="{y:.1f}"/>'
            yield f'<text x="{LEFT - 4}" y="{y + 3:.1f}" text-anchor="end">{label(power, self.unit)}</text>'
        for size in self.sizes[::2]:
            yield f'<text x="{self.x(size):.1f}" y="{HEIGHT - 12}" text-anchor="middle">{size // 1024}k</text>'

    def lines(self):
        yield from self.axes()
        yield self.guide()
        for way, costs in self.costs.items():
            yield self.path(sorted(costs.items()), f'stroke="{COLOURS[way]}"')


def label(power, unit):
    if unit == "s" and power < 0:
        return f"{10 ** (power + 3):g} ms"
    return f"{10**power:,g} {unit}"


def legend(ways, y):
    x = LEFT
    for way in ways:
        yield f'<line x1="{x}" x2="{x + 18}" y1="{y}" y2="{y}" stroke="{COLOURS[way]}" stroke-width="2"/><text x="{x + 22}" y="{y + 3}">{escape(way)}</text>'
        x += 40 + 6 * len(way)
    yield f'<line class="guide" x1="{x}" x2="{x + 18}" y1="{y}" y2="{y}"/><text x="{x + 22}" y="{y + 3}">n log n</text>'


def svg(panels, sizes, unit):
    """The plot of these workloads, each with its costs by way and size."""
    panels = {name: costs for name, costs in panels.items() if costs}
    rows = -(-len(panels) // COLUMNS)
    width, height = COLUMNS * WIDTH, rows * HEIGHT + 30
    parts = [f'<svg xmlns="http://www.w3.org/2000/svg" viewBox="0 0 {width} {height}" width="{width}">',
             f'<style>{STYLE}</style><rect width="100%" height="100%" fill="white"/>']
    for place, (name, costs) in enumerate(panels.items()):
        row, column = divmod(place, COLUMNS)
        parts.append(f'<g transform="translate({column * WIDTH} {row * HEIGHT})"><text class="name" x="{LEFT}" y="14">{escape(name)}</text>')
        parts += filter(None, Panel(costs, sizes, unit).lines())
        parts.append("</g>")
    used = [way for way in COLOURS if any(way in costs for costs in panels.values())]
    parts += legend(used, rows * HEIGHT + 12)
    return "\n".join([*parts, "</svg>", ""])
