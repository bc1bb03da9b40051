"""docs/crates.svg: the crates of crates.txt, floor by floor, with an arrow to each that a crate uses itself."""
import math

import floors
import svg

HIGH, BOX, LEFT, TOP, GAP = 66, 24, 46, 70, 12


def hues(names):
    """A hue of its own for each channel of more than one crate: steps of nearly half the circle, which come to each of its places once."""
    channels = [floors.channel(name) for name in names]
    shared = [name for name in dict.fromkeys(channels) if channels.count(name) > 1]
    step = next((n for n in range(len(shared) // 2, 1, -1) if math.gcd(n, len(shared)) == 1), 1)
    return {name: at * step % len(shared) / len(shared) for at, name in enumerate(shared)}


def width(node):
    return 16 + 7.1 * len(node) if isinstance(node, str) else 4


class House:
    """The picture while it is drawn: where each node stands, and what colour it has."""

    def __init__(self, stands_on):
        self.uses = floors.reduced(stands_on)
        self.floors = floors.floor_of(self.uses)
        self.pairs = floors.links(self.uses, self.floors)
        self.rows = floors.ordered(floors.layers(self.uses, self.floors, self.pairs), self.pairs)
        self.middle = floors.placed(self.rows, self.pairs, width, GAP)
        self.hues = hues(list(self.uses))
        self.wide = max(660, LEFT + max(self.middle[node] + width(node) / 2 for node in self.middle) + 16)
        self.tall = TOP + HIGH * len(self.rows) + 8

    def x(self, node):
        return LEFT + self.middle[node]

    def y(self, node):
        """The upper edge of a node's box."""
        floor = self.floors[node] if isinstance(node, str) else node[1]
        return TOP + HIGH * (len(self.rows) - 1 - floor) + (HIGH - BOX) / 2

    def colour(self, node, light):
        hue = self.hues.get(floors.channel(node if isinstance(node, str) else node[0]))
        return svg.colour(hue, light) if hue is not None else ("#999" if light < 0.6 else "#f4f4f4")

    def floor(self, number):
        y = TOP + HIGH * (len(self.rows) - 1 - number)
        yield svg.box(0, y, self.wide, HIGH, "#fbfbfb" if number % 2 else "white")
        yield svg.text(10, y + HIGH / 2 + 4, str(number) if number else "ground", 10, "start", svg.GREY)

    def port(self, upper, lower):
        """Links leave a crate side by side, in the order of where they go; a lane is one line."""
        if not isinstance(upper, str):
            return self.x(upper)
        ends = sorted((below for above, below in self.pairs if above == upper), key=self.x)
        room = min(width(upper) - 16, 12 * (len(ends) - 1))
        return self.x(upper) + (ends.index(lower) / (len(ends) - 1) - 0.5) * room if len(ends) > 1 else self.x(upper)

    def link(self, upper, lower):
        """A curve from a box's lower edge to the next floor. Only where it meets the crate that is used it has a head."""
        end, x1, y1, x2, y2 = isinstance(lower, str), self.port(upper, lower), self.y(upper) + BOX, self.x(lower), self.y(lower)
        y2 -= 6 if end else 0
        bend = (y2 - y1) * 0.55
        path = f"M{svg.number(x1)} {svg.number(y1)}C{svg.number(x1)} {svg.number(y1 + bend)} {svg.number(x2)} {svg.number(y2 - bend)} {svg.number(x2)} {svg.number(y2)}"
        stroke = self.colour(lower, 0.42)
        yield svg.element("path", d=path + ("" if end else f"v{BOX}"), fill="none", stroke=stroke, stroke_width=1.2)
        if end:
            yield svg.element("path", d=f"M{svg.number(x2 - 3.5)} {svg.number(y2 - 1)}h7l-3.5 7z", fill=stroke)

    def crate(self, name):
        x, y = self.x(name), self.y(name)
        yield svg.box(x - width(name) / 2, y, width(name), BOX, self.colour(name, 0.9), self.colour(name, 0.42), rx=4)
        yield svg.text(x, y + BOX / 2 + 4, name, 12)

    def parts(self):
        yield svg.text(10, 22, "What each crate stands on", 15, "start", font_weight="bold")
        yield svg.text(10, 41, "An arrow goes to a crate that is used directly, and not already through another one. A crate stands one floor above", 11, "start", svg.GREY)
        yield svg.text(10, 56, "the highest that it uses. The crates of one channel have one colour, and so have the lines that go to them.", 11, "start", svg.GREY)
        for number in range(len(self.rows)):
            yield from self.floor(number)
        for pair in self.pairs:
            yield from self.link(*pair)
        for name in self.uses:
            yield from self.crate(name)


def draw(tree):
    house = House(tree.stands_on)
    return svg.picture(house.wide, house.tall, "What each crate stands on", list(house.parts()))
