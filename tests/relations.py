"""Whether two shapes share a position (OGC 09-026r2, 7.8), worked out by hand. Each pair is tried in both orders, with Intersects, Disjoint and, where
one is a box, BBOX."""

import re

from harness import Folder, insert, same
from truths import FAR, HEAD
from written import bbox, both, count, feature, line, point, polygon, rid, spatial

SHAPES = HEAD + """
[[type]]
name = "Shape"
property = [ {name="point", kind="point"}, {name="line", kind="line"}, {name="polygon", kind="polygon"} ]
"""


def places(*all_of_them: tuple) -> str:
    return " ".join("%d %d" % place for place in all_of_them)


def at(x: int, y: int) -> str:
    return point(places((x, y)))


def along(first: tuple, last: tuple) -> str:
    return line(places(first, last))


def sides(low: tuple, high: tuple) -> str:
    """The ring round a box."""
    return places(low, (high[0], low[1]), high, (low[0], high[1]), low)


def square(low: int, high: int) -> str:
    return sides((low, low), (high, high))


class Box:
    """A box, which is a polygon too."""

    def __init__(self, low: tuple, high: tuple):
        self.low, self.high = low, high


RISING, WAY = along((0, 0), (10, 10)), along((FAR, 0), (FAR, FAR))
FIELD, ISLE = polygon(square(0, 10)), polygon(square(4, 6))
# The field with a small hole, and with a large one.
GAPPED, PITTED = polygon(square(0, 10), square(2, 4)), polygon(square(0, 10), square(2, 8))
DIAMOND = polygon(places((0, 0), (5, -5), (10, 0), (5, 5), (0, 0)))
# Two rings that cross themselves: what they go round twice, or not at all, is none of them.
STAR = polygon(places((0, 10), (6, -8), (-10, 3), (10, 3), (-6, -8), (0, 10)))
BOW = polygon(places((0, 0), (10, 10), (10, 0), (0, 10), (0, 0)))
TEN = Box((0, 0), (10, 10))

# Two shapes, and whether they share a position.
PAIRS = (
    ("crossing", RISING, along((0, 10), (10, 0)), True),
    ("end on end", RISING, along((10, 10), (19, 0)), True),
    ("end on side", RISING, along((5, 5), (5, 9)), True),
    ("collinear, apart", RISING, along((11, 11), (19, 19)), False),
    ("collinear, end on end", RISING, along((10, 10), (19, 19)), True),
    ("overlapping", RISING, along((5, 5), (19, 19)), True),
    ("overlapping whole", RISING, along((3, 3), (5, 5)), True),
    ("parallel", RISING, along((0, 1), (9, 10)), False),
    ("bounds meet alone", RISING, along((6, 5), (10, 0)), False),
    ("disjoint", RISING, along((20, 0), (30, 10)), False),
    ("point on a line", RISING, at(4, 4), True),
    ("point beside a line", RISING, at(4, 5), False),
    ("point beyond a line", RISING, at(11, 11), False),
    ("same point", at(4, 4), at(4, 4), True),
    ("two points", at(4, 4), at(4, 5), False),
    ("far edges, crossing", along((-FAR, -FAR), (FAR, FAR)), along((-FAR, FAR), (FAR, -FAR)), True),
    ("far edges, near miss", along((-FAR, -FAR), (FAR, FAR - 1)), at(0, 0), False),
    ("way, box on it", WAY, Box((FAR, 5), (FAR, 5)), True),
    ("way, box beside it", WAY, Box((FAR - 1, 5), (FAR - 1, 5)), False),
    ("way, box over all", WAY, Box((-FAR, -FAR), (FAR, FAR)), True),
    ("box at a corner", GAPPED, Box((10, 10), (12, 12)), True),
    ("box in a hole", GAPPED, Box((3, 3), (3, 3)), False),
    ("box of a hole", GAPPED, Box((2, 2), (4, 4)), True),
    ("box round a field", GAPPED, Box((-5, -5), (20, 20)), True),
    ("box within a field", GAPPED, Box((5, 5), (6, 6)), True),
    ("box beside a field", GAPPED, Box((11, 0), (12, 10)), False),
    ("through a box's right side", along((15, 5), (5, 5)), TEN, True),
    ("through its top", along((5, 15), (5, 5)), TEN, True),
    ("through its left side", along((-5, 5), (5, 5)), TEN, True),
    ("through its foot", along((5, -5), (5, 5)), TEN, True),
    ("from above a box, past it", along((5, 30), (30, 0)), TEN, False),
    ("from beside a box, past it", along((30, 5), (0, 30)), TEN, False),
    ("in a hole", GAPPED, at(3, 3), False),
    ("on a hole's ring", GAPPED, at(2, 3), True),
    ("hole's corner", GAPPED, at(4, 4), True),
    ("hole's corners on ray", GAPPED, at(1, 2), True),
    ("past a hole", GAPPED, at(5, 3), True),
    ("field's corner", GAPPED, at(10, 10), True),
    ("field's edge", GAPPED, at(5, 0), True),
    ("beside the field", GAPPED, at(11, 5), False),
    ("before the field", GAPPED, at(-1, 2), False),
    ("line ends on a corner", FIELD, along((20, 20), (10, 10)), True),
    ("line passes a corner", FIELD, along((11, 9), (9, 12)), False),
    ("line within", FIELD, along((3, 3), (4, 6)), True),
    ("polygon within", FIELD, ISLE, True),
    ("polygon in a hole", PITTED, ISLE, False),
    ("point in a hole", PITTED, at(5, 5), False),
    ("line to a hole's ring", PITTED, along((5, 5), (8, 5)), True),
    ("two corners on ray", DIAMOND, at(-1, 0), False),
    ("one corner on ray", DIAMOND, at(5, 0), True),
    ("top on ray", DIAMOND, at(-1, 5), False),
    ("foot on ray", DIAMOND, at(-1, -5), False),
    ("star, its middle", STAR, at(0, 0), False),
    ("star, its top", STAR, at(0, 8), True),
    ("bow, within", BOW, at(9, 5), True),
    ("bow, between its halves", BOW, at(5, 1), False),
    ("bow, its knot", BOW, at(5, 5), True),
)


def shape(sketch) -> str:
    """A geometry; of a box the polygon of its sides."""
    return polygon(sides(sketch.low, sketch.high)) if isinstance(sketch, Box) else sketch


def held(geometry: str) -> str:
    """The property that a geometry stands in."""
    return {"Point": "point", "LineString": "line", "Polygon": "polygon"}[re.match(r"<gml:(\w+)", geometry)[1]]


def asked(number: int, one, other, shared: bool) -> list:
    """What is asked of the shape of this number, which is `one`, and whether it is found."""
    name, geometry = held(shape(one)), shape(other)
    operators = [(spatial("Intersects", name, geometry), shared), (spatial("Disjoint", name, geometry), not shared)]
    if isinstance(other, Box):
        operators += [(bbox(it, places(other.low), places(other.high)), shared) for it in (name, None)]
    return [(count("Shape", both(rid("Shape.%d" % number), operator)), wanted) for operator, wanted in operators]


def test_shapes_share_a_position_or_none():
    """The two shapes of each pair are features, whose numbers follow each other."""
    shapes = [shape(it) for _, one, other, _ in PAIRS for it in (one, other)]
    table = []
    for at_pair, (name, one, other, shared) in enumerate(PAIRS):
        messages = asked(2 * at_pair + 1, one, other, shared) + asked(2 * at_pair + 2, other, one, shared)
        table += [(name, message, wanted) for message, wanted in messages]
    with Folder(SHAPES) as folder:
        inserted, *found = folder.ask(insert(*(feature("Shape", **{held(it): it}) for it in shapes)), *(message for _, message, _ in table))
    same(len(inserted.ids), len(shapes), "shapes")
    for (name, message, wanted), answer in zip(table, found):
        same(answer.matched == 1, wanted, "%s: %s" % (name, message.decode().partition("<fes:And>")[2]))
