"""The drawing of a plan's network, as SVG."""

import math
from html import escape

from lopnaski import layout
from lopnaski.figures import rounded, shortest

LEAST_RADIUS, MORE_RADIUS = 11.0, 8.0
BADGE = 6.0
GAP, UNIT, MARGIN = 15.0, 62.0, 16.0
PITCH, MOST_WIDTH, PARALLEL = 3.4, 26.0, 22.0
FEWEST_COUNTED = 5
# Of each class of loading: the share up to which it reaches, its colour and its words.
LOADINGS = (
    (0.5, "#2c7fb8", "to 50 %"),
    (0.75, "#41ab5d", "50 to 75 %"),
    (0.9, "#b8a000", "75 to 90 %"),
    (1.0 + 1e-9, "#f07818", "90 to 100 %"),
    (math.inf, "#c4001a", "above 100 %, overloaded"),
)
OVERLOADED, CAPPED = "#c4001a", "#111"
# Of each level, highest first: its colour and the colour of a number on it.
LEVELS = (("#3b1470", "#fff"), ("#6a4fa8", "#fff"), ("#9d94cf", "#111"), ("#cfcbe6", "#111"), ("#f1eff8", "#111"))
STYLE = (
    "text{font-family:sans-serif;font-size:10px}.n{text-anchor:middle;dominant-baseline:central}"
    ".w{stroke:#fff;stroke-width:3px;paint-order:stroke;font-weight:bold}.c{fill:none}.l{font-size:12px;dominant-baseline:central}"
)


def colour_of(loading):
    return next(colour for most, colour, _ in LOADINGS if loading <= most)


class Drawing:
    """A plan's network: its case, its places and the parts of its SVG."""

    def __init__(self, case, plan, names):
        """`names`: how each bus is called in what a pointer shows."""
        self.case, self.plan, self.names = case, plan, names
        self.edges = [(case.whole("CO", k, "a"), case.whole("CO", k, "b")) for k in range(case.count("CO"))]
        self.levels = plan.added + case.levels()[case.head("above") :]
        self.most_load = max([case.load(bus) for bus in range(case.count("BU"))] + [0.0])
        self.at_generator = {case.whole("GE", k, "bus") for k in range(case.count("GE"))}
        radii = [self.radius(bus) + (1.5 * BADGE if bus in self.at_generator else 0.0) for bus in range(case.count("BU"))]
        self.places, self.width, self.height = layout.network(len(radii), self.edges, radii, GAP, UNIT) if radii else ([], 0.0, 0.0)
        self.parts = []

    def radius(self, bus):
        """A circle's area above the least grows with the load."""
        load = self.case.load(bus)
        return LEAST_RADIUS + (MORE_RADIUS * math.sqrt(load / self.most_load) if load > 0.0 else 0.0)

    def add(self, text, *values):
        self.parts.append(text % values if values else text)

    def initial(self, corridor):
        """The circuits that a corridor begins with: at least one."""
        return max(1, self.case.whole("CO", corridor, "circuits"))

    def bows(self):
        """How far each corridor is bowed, so that corridors between the same buses stand apart."""
        groups = {}
        for corridor, (a, b) in enumerate(self.edges):
            groups.setdefault((min(a, b), max(a, b)), []).append(corridor)
        bows = [0.0] * len(self.edges)
        for group in groups.values():
            apart = PARALLEL * min(1.0, 8.0 / len(group))
            for place, corridor in enumerate(group):
                bows[corridor] = apart * (place - (len(group) - 1) / 2.0)
        return bows

    def corridor(self, corridor, bow):
        """The strands of a corridor, its direction and its marks."""
        line = Line(self.places[min(self.edges[corridor])], self.places[max(self.edges[corridor])], bow)
        circuits, colour = self.plan.circuits[corridor], colour_of(self.plan.loading_of(corridor))
        pitch = min(PITCH, MOST_WIDTH / circuits)
        self.add('<g stroke="%s" stroke-width="%.2f" class="c"><title>%s</title>', colour, 0.68 * pitch, self.corridor_words(corridor))
        for strand in range(circuits):
            dash = "" if strand < self.initial(corridor) else ' stroke-dasharray="5 3"'
            self.add('<path d="%s"%s/>', line.path(pitch * (strand - (circuits - 1) / 2.0)), dash)
        self.add("</g>")
        self.marks(corridor, line, pitch * circuits, colour)

    def marks(self, corridor, line, width, colour):
        """Direction of the flow, a count of many circuits, and the signs of an overloaded and of a capped corridor."""
        flow = self.plan.flows[corridor]
        if flow != 0.0:
            forward = (flow > 0.0) == (self.plan.ends(self.case, corridor)[0] == min(self.edges[corridor]))
            self.add('<polygon points="%s" fill="%s" stroke="#fff" stroke-width="0.8"/>', line.arrow(3.5 + min(width / 2.0, 4.5), forward), colour)
        aside = width / 2.0 + 9.0
        if self.plan.circuits[corridor] >= FEWEST_COUNTED:
            self.add('<text x="%.1f" y="%.1f" class="n w" fill="#333">\u00d7%d</text>', *line.beside(0.5, aside), self.plan.circuits[corridor])
        overloaded, capped = self.plan.is_overloaded(corridor), self.plan.is_capped(self.case, corridor)
        if overloaded or capped:
            letters = ("!" if overloaded else "") + ("C" if capped else "")
            self.add(sign(letters, OVERLOADED if overloaded else CAPPED), *line.beside(0.5, -aside))

    def corridor_words(self, corridor):
        plan = self.plan
        start, end = plan.ends(self.case, corridor)
        words = "corridor %d, bus %s to bus %s: %d circuits" % (corridor, self.names[start], self.names[end], plan.circuits[corridor])
        added = plan.circuits[corridor] - self.initial(corridor)
        words += " (%d added)" % added if added else ""
        words += ", flow %s MW, %s %% of the rating" % (rounded(plan.flows[corridor], 2), rounded(100.0 * plan.loading_of(corridor), 1))
        return escape(words)

    def bus(self, bus):
        x, y = self.places[bus]
        radius, tier = self.radius(bus), self.plan.tiers[bus]
        fill, ink = LEVELS[tier]
        self.add("<g><title>%s</title>", self.bus_words(bus))
        if self.is_raised(bus):
            self.add('<circle cx="%.1f" cy="%.1f" r="%.1f" fill="none" stroke="#111" stroke-width="1.2"/>', x, y, radius + 3.0)
        self.add('<circle cx="%.1f" cy="%.1f" r="%.1f" fill="%s" stroke="#111" stroke-width="0.8"/>', x, y, radius, fill)
        self.add('<text x="%.1f" y="%.1f" class="n" fill="%s">%d</text>', x, y, ink, bus)
        if bus in self.at_generator:
            corner = 0.70710678 * (radius + 0.7 * BADGE)
            self.add(generator_mark(x + corner, y - corner))
        self.add("</g>")

    def bus_words(self, bus):
        words = "bus %s: %s kV, load %s MW, angle %s degrees" % (
            self.names[bus],
            shortest(self.plan.kv(self.case, bus)),
            shortest(self.case.load(bus)),
            rounded(math.degrees(self.plan.angles[bus]), 2),
        )
        units = [str(k) for k in range(self.case.count("GE")) if self.case.whole("GE", k, "bus") == bus]
        words += ", generator " + " ".join(units) if units else ""
        return escape(words + (", ground of its island" if bus in self.plan.grounds else ""))

    def is_raised(self, bus):
        """Whether the plan moved a bus to a higher level."""
        return self.plan.tiers[bus] < self.case.whole("BU", bus, "tier") + len(self.plan.added)

    def svg(self):
        """The whole: the network, then the legend below it."""
        for corridor, bow in enumerate(self.bows()):
            self.corridor(corridor, bow)
        for bus in range(len(self.places)):
            self.bus(bus)
        legend, legend_width, legend_height = self.legend(max(self.width, 620.0))
        width = max(self.width, legend_width) + 2.0 * MARGIN
        height = self.height + legend_height + 3.0 * MARGIN
        shift = (width - self.width) / 2.0
        return "".join(
            [
                '<svg xmlns="http://www.w3.org/2000/svg" width="%d" height="%d" viewBox="0 0 %d %d" role="img" aria-label="The network">'
                % (width, height, width, height),
                '<style>%s</style><rect width="100%%" height="100%%" fill="#fff"/>' % STYLE,
                '<g transform="translate(%.1f %.1f)">' % (shift, MARGIN),
                "\n".join(self.parts),
                '</g><g transform="translate(%.1f %.1f)">' % (MARGIN, self.height + 2.0 * MARGIN),
                legend,
                "</g></svg>\n",
            ]
        )

    def legend(self, width):
        """What the signs mean, in rows: SVG, width and height."""
        entries = [(level_key(*LEVELS[k]), "%s kV" % shortest(kv)) for k, kv in enumerate(self.levels)]
        entries += [
            (load_key(), "a larger circle: more load"),
            (generator_mark(9.0, 0.0), "generator"),
            (raised_key(), "raised to a higher level"),
        ]
        entries += [(line_key(colour), "loading " + name) for _, colour, name in LOADINGS]
        entries += [
            (strands_key(), "one strand a circuit; dashed: added"),
            (sign("!", OVERLOADED) % (9.0, 0.0), "overloaded"),
            (sign("C", CAPPED) % (9.0, 0.0), "capped: no more circuits allowed"),
            ('<polygon points="14,0 4,-5 4,5" fill="#555"/>', "direction of the flow"),
        ]
        parts, x, y = [], 0.0, 0.0
        for key, words in entries:
            wide = 42.0 + 6.0 * len(words)
            if x > 0.0 and x + wide > width:
                x, y = 0.0, y + 20.0
            parts.append('<g transform="translate(%.1f %.1f)">%s<text x="24" y="0" class="l">%s</text></g>' % (x, y, key, escape(words)))
            x += wide
        return "".join(parts), width, y + 12.0


class Line:
    """A corridor's line between two places, bowed sideways."""

    def __init__(self, start, end, bow):
        self.start, self.end = start, end
        dx, dy = end[0] - start[0], end[1] - start[1]
        length = math.sqrt(dx * dx + dy * dy) or 1.0
        self.along, self.normal = (dx / length, dy / length), (-dy / length, dx / length)
        self.bow = bow

    def point(self, share, aside):
        """The point at a share of the way on the bowed line, moved aside by so much."""
        off = aside + self.bow * 4.0 * share * (1.0 - share)
        return tuple(
            self.start[k] + share * (self.end[k] - self.start[k]) + off * self.normal[k] for k in (0, 1)
        )

    beside = point

    def path(self, aside):
        """A strand: a quadratic curve through the bow's middle."""
        (x0, y0), (x1, y1) = self.point(0.0, aside), self.point(1.0, aside)
        if self.bow == 0.0:
            return "M%.1f %.1fL%.1f %.1f" % (x0, y0, x1, y1)
        x, y = self.point(0.5, aside + self.bow)
        return "M%.1f %.1fQ%.1f %.1f %.1f %.1f" % (x0, y0, x, y, x1, y1)

    def arrow(self, size, forward):
        """A triangle in the middle that points where the flow goes."""
        x, y = self.point(0.5, 0.0)
        ahead = size if forward else -size
        (ax, ay), (nx, ny) = self.along, self.normal
        corners = ((ahead * ax, ahead * ay), (-ahead * ax + size * nx, -ahead * ay + size * ny), (-ahead * ax - size * nx, -ahead * ay - size * ny))
        return " ".join("%.1f,%.1f" % (x + dx, y + dy) for dx, dy in corners)


def generator_mark(x, y):
    return (
        '<circle cx="%.1f" cy="%.1f" r="%.1f" fill="#ffd21a" stroke="#111" stroke-width="0.8"/>'
        '<text x="%.1f" y="%.1f" class="n" font-weight="bold" style="font-size:9px">G</text>' % (x, y, BADGE, x, y)
    )


def sign(letters, colour):
    """A sign at a place that is still to be given, as a pattern of two figures."""
    half = 3.0 + 3.0 * len(letters)
    return (
        '<g transform="translate(%%.1f %%.1f)"><rect x="-%.1f" y="-6.5" width="%.1f" height="13" rx="2" fill="%s"/>'
        '<text class="n" fill="#fff" font-weight="bold">%s</text></g>' % (half, 2.0 * half, colour, letters)
    )


def level_key(fill, _):
    return '<circle cx="9" cy="0" r="8" fill="%s" stroke="#111" stroke-width="0.8"/>' % fill


def load_key():
    return '<circle cx="3.5" cy="2" r="3.5" fill="#ddd" stroke="#111"/><circle cx="13" cy="0" r="6" fill="#ddd" stroke="#111"/>'


def raised_key():
    return '<circle cx="9" cy="0" r="5" fill="#ddd" stroke="#111"/><circle cx="9" cy="0" r="8" fill="none" stroke="#111" stroke-width="1.2"/>'


def line_key(colour):
    return '<path d="M0 0L18 0" stroke="%s" stroke-width="4"/>' % colour


def strands_key():
    return '<path d="M0 -3L18 -3" stroke="#555" stroke-width="2.3"/><path d="M0 2L18 2" stroke="#555" stroke-width="2.3" stroke-dasharray="5 3"/>'
