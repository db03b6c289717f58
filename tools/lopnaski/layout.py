"""Where the buses of a network are drawn, from its corridors alone.

Each island is laid out by stress (Zheng, Pawar and Goodman, 2019: a pair at a time, ever smaller steps) over distances in corridors, then
buses are moved apart, and off corridors that are not theirs. Nothing is drawn at random: the order of the pairs comes from a
generator of fixed seed, and only sums, products and roots are used, so every machine draws the same.
"""

import math

# Pairs are moved by ever smaller steps: from the widest distance squared to LAST, each SHRINK of the one before.
SHRINK, LAST = 0.75, 0.05
SEED = 20261116
# Islands wider than these, in corridors, are bent: their wanted distances grow less than in proportion.
WIDE, WIDEST = 14, 40
# How often buses are moved apart before the whole is made larger, and by how much.
TRIES, LARGER = 60, 1.08
# The room that a bus of a larger island gets at least, as a multiple of the square of its circle and gap.
LARGE, ROOM = 24, 3.5


def islands_of(count, edges):
    """The buses of each island, ascending; the islands by their lowest bus."""
    near = neighbours(count, edges)
    island, islands = [None] * count, []
    for start in range(count):
        if island[start] is None:
            island[start] = len(islands)
            members = [start]
            for bus in members:
                for other in near[bus]:
                    if island[other] is None:
                        island[other] = island[start]
                        members.append(other)
            islands.append(sorted(members))
    return islands


def neighbours(count, edges):
    near = [[] for _ in range(count)]
    for a, b in edges:
        if b not in near[a]:
            near[a].append(b)
            near[b].append(a)
    return [sorted(buses) for buses in near]


def hops_from(start, near):
    """The distance of every bus from `start`, in corridors."""
    hops = {start: 0}
    queue = [start]
    for bus in queue:
        for other in near[bus]:
            if other not in hops:
                hops[other] = hops[bus] + 1
                queue.append(other)
    return hops


class Shuffle:
    """A fixed order of a list, the same on every machine (a linear congruential generator)."""

    def __init__(self):
        self.state = SEED

    def below(self, bound):
        self.state = (self.state * 6364136223846793005 + 1442695040888963407) % (1 << 64)
        return (self.state >> 33) % bound

    def __call__(self, items):
        for k in range(len(items) - 1, 0, -1):
            j = self.below(k + 1)
            items[k], items[j] = items[j], items[k]


def wanted(hops, widest):
    """How far apart two buses are wanted, in corridors; a long feeder is bent, so that it fits a page."""
    if widest <= WIDE:
        return float(hops)
    return math.sqrt(hops * math.sqrt(hops)) if widest <= WIDEST else math.sqrt(hops)


def pairs_of(members, near):
    """Every two buses of an island with the distance that is wanted, and the widest."""
    pairs, widest = [], 1
    hops = [hops_from(bus, near) for bus in members]
    for a in range(len(members)):
        widest = max(widest, max(hops[a].values()))
    for a in range(len(members)):
        for b in range(a + 1, len(members)):
            pairs.append((a, b, wanted(hops[a][members[b]], widest)))
    return pairs, max(distance for _, _, distance in pairs)


def stress(members, near):
    """Places of an island's buses."""
    count = len(members)
    if count == 1:
        return [[0.0, 0.0]]
    pairs, widest = pairs_of(members, near)
    # On a spiral to begin with: no three buses on a line.
    places = [[0.3 * math.sqrt(k + 1.0) * c, 0.3 * math.sqrt(k + 1.0) * s] for k, (c, s) in enumerate(turns(count))]
    shuffle = Shuffle()
    step = widest * widest
    while step > LAST:
        shuffle(pairs)
        for a, b, distance in pairs:
            draw_together(places[a], places[b], distance, min(1.0, step / (distance * distance)))
        step *= SHRINK
    return places


def turns(count):
    """Directions that turn by the golden angle, as cosine and sine, by products alone."""
    cosine, sine = -0.7373688780783197, 0.6754902942615238
    c, s = 1.0, 0.0
    for _ in range(count):
        yield c, s
        c, s = c * cosine - s * sine, c * sine + s * cosine


def draw_together(p, q, distance, share):
    """Moves two places along their line to where `distance` is met, by a share of the way."""
    dx, dy = p[0] - q[0], p[1] - q[1]
    now = math.sqrt(dx * dx + dy * dy)
    if now < 1e-9:
        dx, dy, now = 1e-3, 2e-3, math.sqrt(5e-6)
    move = share * (now - distance) / (2.0 * now)
    p[0] -= move * dx
    p[1] -= move * dy
    q[0] += move * dx
    q[1] += move * dy


def close_pairs(places, reach):
    """Every two places that may be nearer than `reach`, by a grid."""
    cells = {}
    for k, (x, y) in enumerate(places):
        cells.setdefault((math.floor(x / reach), math.floor(y / reach)), []).append(k)
    for (i, j), here in sorted(cells.items()):
        around = [k for di, dj in ((1, -1), (1, 0), (1, 1), (0, 1)) for k in cells.get((i + di, j + dj), ())]
        for at, k in enumerate(here):
            for other in here[at + 1 :] + around:
                yield k, other


def push_apart(places, radii, gap):
    """Moves buses that are too near one another apart, once. Whether none was."""
    settled = True
    for a, b in list(close_pairs(places, 2.0 * max(radii) + gap)):
        p, q = places[a], places[b]
        dx, dy = p[0] - q[0], p[1] - q[1]
        apart = radii[a] + radii[b] + gap
        if dx * dx + dy * dy < apart * apart - 1e-6:
            draw_together(p, q, apart, 1.0)
            settled = False
    return settled


def push_off(places, radii, gap, edges):
    """Moves buses off corridors that are not theirs, once."""
    for a, b in edges:
        p, q = places[a], places[b]
        reach = max(radii) + gap
        left, right = min(p[0], q[0]) - reach, max(p[0], q[0]) + reach
        low, high = min(p[1], q[1]) - reach, max(p[1], q[1]) + reach
        for k, place in enumerate(places):
            if left < place[0] < right and low < place[1] < high and k != a and k != b:
                push_off_one(place, radii[k] + gap, p, q)


def push_off_one(place, apart, p, q):
    """Moves a place away from the line between two others, where it is too near; they give way by half."""
    dx, dy = q[0] - p[0], q[1] - p[1]
    length = dx * dx + dy * dy
    along = ((place[0] - p[0]) * dx + (place[1] - p[1]) * dy) / length if length > 1e-9 else 0.0
    if not 0.0 < along < 1.0:
        return
    ox, oy = place[0] - p[0] - along * dx, place[1] - p[1] - along * dy
    off = math.sqrt(ox * ox + oy * oy)
    if off >= apart:
        return
    if off < 1e-6:
        ox, oy, off = -dy, dx, math.sqrt(length)
    move = 0.5 * (apart - min(off, apart)) / off
    place[0] += move * ox
    place[1] += move * oy
    for end in (p, q):
        end[0] -= 0.5 * move * ox
        end[1] -= 0.5 * move * oy


def spaced(places, radii, gap, edges):
    """Places with no two buses nearer than their radii and a gap, and few corridors across a bus."""
    places = [list(place) for place in places]
    for _ in range(TRIES):
        push_off(places, radii, gap, edges)
        push_apart(places, radii, gap)
    while not all(push_apart(places, radii, gap) for _ in range(2)):
        for _ in range(TRIES):
            if push_apart(places, radii, gap):
                break
        else:
            for place in places:
                place[0] *= LARGER
                place[1] *= LARGER
    return places


def island_places(members, near, edges, radii, gap, unit):
    """An island's places, its own edges as places in it, with its box's corner at 0 and its size."""
    at = {bus: k for k, bus in enumerate(members)}
    own = [(at[a], at[b]) for a, b in edges if a in at]
    sizes = [radii[bus] for bus in members]
    places = roomy([[unit * x, unit * y] for x, y in stress(members, near)], sizes, gap)
    places = laid_flat(spaced(places, sizes, gap, own))
    left = min(x - r for (x, _), r in zip(places, sizes))
    top = min(y - r for (_, y), r in zip(places, sizes))
    places = [[x - left, y - top] for x, y in places]
    width = max(x + r for (x, _), r in zip(places, sizes))
    height = max(y + r for (_, y), r in zip(places, sizes))
    return places, width, height


def extent(places):
    """How wide and how tall places spread."""
    return tuple(max(place[k] for place in places) - min(place[k] for place in places) for k in (0, 1))


def roomy(places, radii, gap):
    """The places of a larger island drawn apart until each bus has its room."""
    if len(places) < LARGE:
        return places
    wide, tall = extent(places)
    wanted_area = ROOM * sum((2.0 * radius + gap) * (2.0 * radius + gap) for radius in radii)
    scale = max(1.0, math.sqrt(wanted_area / max(wide * tall, 1.0)))
    return [[scale * x, scale * y] for x, y in places]


def laid_flat(places):
    """The places turned by a quarter where they stand taller than wide."""
    wide, tall = extent(places)
    return [[-y, x] for x, y in places] if tall > wide else places


def packed(boxes, gap):
    """The corners of boxes in rows, the tallest first, and the size of the whole; wider than tall."""
    area = sum((width + gap) * (height + gap) for width, height in boxes)
    row = max([math.sqrt(1.7 * area)] + [width for width, _ in boxes])
    order = sorted(range(len(boxes)), key=lambda k: (-boxes[k][1], k))
    corners, x, y, tallest, widest = [None] * len(boxes), 0.0, 0.0, 0.0, 0.0
    for k in order:
        width, height = boxes[k]
        if x > 0.0 and x + width > row:
            x, y, tallest = 0.0, y + tallest + gap, 0.0
        corners[k] = (x, y)
        x, tallest = x + width + gap, max(tallest, height)
        widest = max(widest, x - gap)
    return corners, widest, y + tallest


def network(count, edges, radii, gap, unit):
    """A place for each bus, and the width and height of the whole."""
    near = neighbours(count, edges)
    islands = islands_of(count, edges)
    drawn = [island_places(members, near, edges, radii, gap, unit) for members in islands]
    corners, width, height = packed([(w, h) for _, w, h in drawn], 2.0 * gap)
    places = [None] * count
    for members, (inside, _, _), (left, top) in zip(islands, drawn, corners):
        for bus, (x, y) in zip(members, inside):
            places[bus] = (left + x, top + y)
    return places, width, height
