"""Geometries as GML 3.2 writes them (OGC 07-036, section 10): what is read, given back, and refused in a feature and in a filter."""

import re

from harness import Folder, get, insert, request, rows, same
from written import feature, query, spatial

# What stands before the names of elements here: the name space of GML 3.2; `o` is that of an older one.
SPACES = ' xmlns="http://www.opengis.net/gml/3.2" xmlns:o="http://www.opengis.net/gml"'
# The types of `harness.MARKS` and their geometries, by the element.
HOLDERS = {"Point": ("Mark", "place"), "LineString": ("Way", "course"), "Polygon": ("Field", "area")}
SQUARE = "0 0 10 0 10 10 0 10 0 0"


def whole(written: str) -> str:
    """An element with the name spaces declared."""
    return re.sub(r"[ />]", lambda found: SPACES + found[0], written, count=1)


def ring(positions: str) -> str:
    return "<LinearRing><posList>%s</posList></LinearRing>" % positions


def area(*rings: str) -> str:
    """A polygon of a shell and holes."""
    return "<Polygon><exterior>%s</exterior>%s</Polygon>" % (rings[0], "".join("<interior>%s</interior>" % hole for hole in rings[1:]))


def holder(written: str) -> tuple:
    """The type and the property that an element stands in; a wrong one stands for a point."""
    return HOLDERS.get(re.match(r"<(\w*)", written)[1], ("Mark", "place"))


def inserted(*written: str) -> bytes:
    """An Insert of a feature for each geometry."""
    features = []
    for one in written:
        kind, name = holder(one)
        features.append(feature(kind, **({"label": "A"} if kind == "Mark" else {}), **{name: whole(one)}))
    return insert(*features)


def filtered(written: str) -> bytes:
    """A GetFeature by a filter that has this geometry, or this box."""
    kind, name = holder(written)
    if "Envelope" in written:
        return request("GetFeature", query(kind, "<fes:BBOX>%s</fes:BBOX>" % whole(written)))
    return request("GetFeature", query(kind, spatial("Intersects", name, whole(written))))


# Forms that other programs write, and the positions of the parts.
READ = [
    ('<Point srsName="urn:ogc:def:crs:EPSG::25832"><pos>12 7</pos></Point>', ["12 7"]),
    ('<Point srsName="EPSG:25832"><pos srsDimension="2">12.0 7</pos></Point>', ["12 7"]),
    ('<Point gml:srsName="EPSG:4326"><pos>12 7</pos></Point>', ["12 7"]),
    ('<LineString srsName="urn:ogc:def:crs:EPSG::25832"><posList>1 2 3 4 -5 -6</posList></LineString>', ["1 2 3 4 -5 -6"]),
    ('<LineString><posList srsDimension="2" count="2">\n    1.00000000 2.0\n    3 4\n  </posList></LineString>', ["1 2 3 4"]),
    ('<Polygon srsName="urn:ogc:def:crs:EPSG::25832"><exterior><LinearRing><posList srsDimension="2">0 0 10 0 10 10 0 10 0 0</posList></LinearRing></exterior></Polygon>', ["0 0 10 0 10 10 0 10 0 0"]),
    ("<Polygon><exterior><LinearRing><posList>0 0 10 0 10 10 0 10 0 0</posList></LinearRing></exterior><interior><LinearRing><posList>2 2 4 2 4 4 2 2</posList></LinearRing></interior><interior><LinearRing><posList>5 5 6 5 6 6 5 5</posList></LinearRing></interior></Polygon>", ["0 0 10 0 10 10 0 10 0 0", "2 2 4 2 4 4 2 2", "5 5 6 5 6 6 5 5"]),
    ("<LineString><pos>1 2</pos><pos>3 4</pos></LineString>", ["1 2 3 4"]),
    ("<Polygon><exterior><LinearRing><pos>0 0</pos><pos>1 0</pos><pos>1 1</pos><pos>0 0</pos></LinearRing></exterior></Polygon>", ["0 0 1 0 1 1 0 0"]),
    ("<Point><pos> \t+1\n-0 </pos></Point>", ["1 0"]),
    ("<Point><pos>007 -12.000</pos></Point>", ["7 -12"]),
    ("<Point><pos>1000000000 -1000000000</pos></Point>", ["1000000000 -1000000000"]),
]


def test_geometries_are_read():
    asked = "service=WFS&request=GetPropertyValue&typeNames=%s&valueReference=%s"
    with Folder() as folder:
        made, *_ = folder.ask(inserted(*(written for written, _ in READ)))
        same(len(made.ids), len(READ))
        for element, (kind, name) in HOLDERS.items():
            (found,) = folder.ask(get(asked % (kind, name)))
            came = [re.findall(r"<gml:pos(?:List)?>([^<]*)<", it) for it in re.findall(r"<wfs:member>(.*?)</wfs:member>", found.body)]
            same(came, [parts for written, parts in READ if holder(written) == (kind, name)], element)


def test_an_envelope_is_read():
    """A mark on its corner is found, and one beside it is not."""
    written = '<Envelope srsName="urn:ogc:def:crs:EPSG::25832" srsDimension="2"><lowerCorner>0 0</lowerCorner><upperCorner>1 1</upperCorner></Envelope>'
    with Folder() as folder:
        _, found = folder.ask(inserted("<Point><pos>1 1</pos></Point>", "<Point><pos>2 1</pos></Point>"), filtered(written))
        same(found.ids, ["Mark.1"])


# What is refused where it stands: numbers, what is missing or misplaced, and shapes.
REFUSED = [
    "<LineString><pos>1 2</pos></LineString>",
    "<LineString><pos>1 2</pos><pos>3</pos></LineString>",
    "<LineString><pos>1 2</pos><posList>3 4 5 6</posList></LineString>",
    "<Point><pos>12.5 7</pos></Point>",
    "<Point><pos>12.05 7</pos></Point>",
    "<Point><pos>12. 7</pos></Point>",
    "<Point><pos>.0 7</pos></Point>",
    "<Point><pos>1e2 7</pos></Point>",
    "<Point><pos>1,2 7</pos></Point>",
    "<Point><pos>12,7</pos></Point>",
    "<Point><pos>- 7</pos></Point>",
    "<Point><pos>--1 7</pos></Point>",
    "<Point><pos>1&#13;2</pos></Point>",
    "<Point><pos>1\xa02</pos></Point>",
    "<Point><pos/></Point>",
    "<Point><pos>12</pos></Point>",
    "<Point><pos>12 7 3</pos></Point>",
    "<Point><pos>12 7 3 4</pos></Point>",
    "<LineString><posList>1 2 3 4 5</posList></LineString>",
    "<Point><pos>0 1000000001</pos></Point>",
    "<Point><pos>18446744073709551617 -99999999999999999999999999</pos></Point>",
    "<LineString><posList>9999999999 0 1 x</posList></LineString>",
    "<Point><pos>9999999999 x</pos></Point>",
    "<o:Point><pos>12 7</pos></o:Point>",
    "<Point><o:pos>12 7</o:pos></Point>",
    "<Point/>",
    "<Point><posList>12 7</posList></Point>",
    "<Point><coordinates>12,7</coordinates></Point>",
    "<Point><pos>12 7</pos><pos>1 2</pos></Point>",
    "<Point><pos><pos>12 7</pos></pos></Point>",
    "<Point><pos>x</pos><pos>1 2</pos></Point>",
    "<LineString/>",
    "<LineString><pos>x</pos></LineString>",
    "<LineString><posList><pos>1 2</pos></posList></LineString>",
    "<LineString><posList>1 2 3 4</posList><posList>1 2 3 4</posList></LineString>",
    "<LineString><posList>1 2</posList><posList>3 4</posList></LineString>",
    "<Curve><posList>1 2 3 4</posList></Curve>",
    "<LinearRing><posList>0 0 10 0 10 10 0 10 0 0</posList></LinearRing>",
    "<Polygon/>",
    "<Polygon><interior>%s</interior></Polygon>" % ring(SQUARE),
    "<Polygon><exterior>%s</exterior><exterior>%s</exterior></Polygon>" % (ring(SQUARE), ring(SQUARE)),
    "<Polygon><exterior><posList>0 0 10 0 10 10 0 10 0 0</posList></exterior></Polygon>",
    "<Envelope><lowerCorner>0 0</lowerCorner></Envelope>",
    "<Envelope><upperCorner>1 1</upperCorner><lowerCorner>0 0</lowerCorner></Envelope>",
    "<Envelope><lowerCorner>0 0</lowerCorner><upperCorner>1 1</upperCorner><upperCorner>1 1</upperCorner></Envelope>",
    "<Envelope><lowerCorner>2 0</lowerCorner><upperCorner>1 1</upperCorner><upperCorner>0 0</upperCorner></Envelope>",
    '<o:Point srsName="EPSG:4326"><pos>12 7</pos></o:Point>',
    '<Point><o:pos srsName="EPSG:4326">12 7</o:pos></Point>',
    "<LineString><posList/></LineString>",
    "<LineString><posList>1 2</posList></LineString>",
    area(ring("0 0 1 0 0 0")),
    area(ring("0 0 1 0 1 1 0 1"), ring("x")),
    area(ring(SQUARE), ring("20 20 21 20 21 21 20 20")),
    area(ring(SQUARE), ring("20 20 21 20 21 21 20 20"), ring("x")),
    "<Envelope><lowerCorner>2 0</lowerCorner><upperCorner>1 1</upperCorner></Envelope>",
    # a side has one ring
    "<Polygon><exterior>%s%s</exterior></Polygon>" % (ring("0 0 1 0 1 1 0 0"), ring("0 0 1 0 1 1 0 0")),
]
# What names another reference system, or another number of coordinates.
ELSEWHERE = [
    '<Point srsName="EPSG:4326"><pos>12 7</pos></Point>',
    '<Point srsName="EPSG:4326"/>',
    '<Point srsName="EPSG:25832" srsDimension="3"><pos>12 7</pos></Point>',
    '<LineString srsDimension="3"><posList>1 2 3 4</posList></LineString>',
    '<Polygon srsDimension="3"><exterior><LinearRing><posList>0 0 10 0 10 10 0 10 0 0</posList></LinearRing></exterior></Polygon>',
    '<Polygon><exterior srsDimension="3"><LinearRing><posList>0 0 10 0 10 10 0 10 0 0</posList></LinearRing></exterior></Polygon>',
    '<Polygon><exterior><LinearRing><posList>0 0 10 0 10 10 0 10 0 0</posList></LinearRing></exterior><interior srsDimension="3"><LinearRing><posList>2 2 4 2 4 4 2 2</posList></LinearRing></interior></Polygon>',
    '<Point><pos srsName="http://www.opengis.net/gml/srs/epsg.xml#25832">x</pos></Point>',
    '<LineString><posList srsDimension="3">1 2 3 4 5 6</posList></LineString>',
    '<Polygon><exterior><LinearRing srsName=""><posList>0 0 10 0 10 10 0 10 0 0</posList></LinearRing></exterior></Polygon>',
    '<Envelope><lowerCorner>0 0</lowerCorner><upperCorner srsDimension="02">1 1</upperCorner></Envelope>',
]


def refused(written: list, locator: str, code: str, status: int, text: str) -> None:
    """That each geometry is refused so in a filter, and in a feature as a value that does not fit."""
    with Folder() as folder:
        found = folder.ask(*map(filtered, written))
        for one, it in zip(written, found):
            same(it.refusal, (status, code, locator, text), one)
        held = [one for one in written if "Envelope" not in one]
        for one, it in zip(held, folder.ask(*map(inserted, held))):
            same(it.refusal, (400, "InvalidValue", holder(one)[1], "value does not fit"), one)


def test_elements_are_refused():
    refused(REFUSED, "Filter", "OperationParsingFailed", 400, "misplaced or malformed")


def test_other_reference_systems_are_refused():
    refused(ELSEWHERE, "srsName", "InvalidParameterValue", 400, "value refused")


# What is written of a geometry, byte by byte.
WRITTEN = [
    ("point", "<Point><pos>12.0 +7</pos></Point>", '<gml:Point gml:id="Mark.1.place" srsName="a&amp;b"><gml:pos>12 7</gml:pos></gml:Point>'),
    (
        "line",
        "<LineString><posList> 01 -2\n3 -0 </posList></LineString>",
        '<gml:LineString gml:id="Mark.1.place" srsName="a&amp;b"><gml:posList>1 -2 3 0</gml:posList></gml:LineString>',
    ),
    (
        "polygon",
        area(ring(SQUARE), ring("2 2 4 2 4 4 2 2")),
        '<gml:Polygon gml:id="Mark.1.place" srsName="a&amp;b"><gml:exterior><gml:LinearRing><gml:posList>0 0 10 0 10 10 0 10 0 0</gml:posList></gml:LinearRing>'
        "</gml:exterior><gml:interior><gml:LinearRing><gml:posList>2 2 4 2 4 4 2 2</gml:posList></gml:LinearRing></gml:interior></gml:Polygon>",
    ),
]
PLACED = """title="Marks"
address="http://localhost:8080/wfs"
namespace="http://example.org/marks"
prefix="m"
srs=["a&b"]
[[type]]
name="Mark"
property=[{name="place", kind="%s"}]
"""


@rows(*WRITTEN)
def test_geometries_are_written(written, wanted):
    kind = {"Point": "point", "LineString": "line", "Polygon": "polygon"}[re.match(r"<(\w*)", written)[1]]
    with Folder(PLACED % kind) as folder:
        _, found = folder.ask(insert(feature("Mark", place=whole(written))), get("service=WFS&request=GetPropertyValue&typeNames=Mark&valueReference=place"))
        same(re.search(r"<m:place>(.*)</m:place>", found.body)[1], wanted)


# ---- shapes and their limits

LISTED, APART = "<LineString><posList>%s</posList></LineString>", "<LineString>%s</LineString>"
HOLE = ring("5 2 6 2 6 3 5 2")
GAP, AWAY, BOW = "2 2 4 2 4 4 2 4 2 2", "20 20 21 20 21 21 20 20", "0 0 10 10 10 0 0 10 0 0"
# The first corner stands 65 times, so that the edge after it ends a block of edges.
CORNERED = "10 -10 " * 64 + "10 10 -10 10 -10 -10 10 -10"
# A field with a part left open at its top, and a hole whose corners lie to both sides of that part.
YARD, ACROSS = "0 0 10 0 10 10 8 10 8 2 2 2 2 10 0 10 0 0", "1 9 9 9 9 1 1 9"


def last(positions: str, times: int) -> str:
    """A ring whose last position stands some times."""
    return ring(positions + (" " + " ".join(positions.split()[-2:])) * (times - 1))


# A geometry, and whether it is one.
SHAPES = [
    ("two positions", LISTED % "1 2 1 2", True),
    ("10,000 positions", LISTED % ("1 2\n" * 10000), True),
    ("10,001 positions", LISTED % ("1 2\n" * 10001), False),
    ("a word after 10,000", LISTED % ("1 2\n" * 10000 + "x 2"), False),
    ("10,000 elements", APART % ("<pos>1 2</pos>" * 10000), True),
    ("10,001 elements", APART % ("<pos>1 2</pos>" * 10001), False),
    ("10,000 positions of rings", area(ring("0 0 9 0 9 9 0 0"), *[HOLE] * 2499), True),
    ("10,004 positions of rings", area(ring("0 0 9 0 9 9 0 0"), *[HOLE] * 2500), False),
    ("no hole", area(ring(SQUARE)), True),
    ("a hole", area(ring(SQUARE), ring(GAP)), True),
    ("three corners", area(ring("0 0 1 0 1 1 0 0")), True),
    ("the hole's corners on the shell", area(ring(SQUARE), ring(BOW)), True),
    ("far away", area(ring("0 0 1000000001 0")), False),
    ("far below", area(ring("0 0 0 -1000000001")), False),
    ("far to the left", area(ring("0 0 -1000000001 0")), False),
    ("far above", area(ring("0 0 0 1000000001")), False),
    ("few", area(ring("0 0 1 0 0 0")), False),
    ("few and not closed", area(ring("0 0 1 0 1 1")), False),
    ("not closed, same x", area(ring("0 0 1 0 1 1 0 1")), False),
    ("not closed, same y", area(ring("0 0 1 1 0 1 1 0")), False),
    ("ring of 10,000", area(last(SQUARE, 9996)), True),
    ("ring of 10,001", area(last(SQUARE, 9997)), False),
    ("hole of 10,001", area(ring(SQUARE), last(GAP, 9997)), False),
    ("10,000 in all", area(ring(SQUARE), last(GAP, 9991)), True),
    ("10,001 in all", area(ring(SQUARE), last(GAP, 9992)), False),
    ("outside", area(ring(SQUARE), ring(AWAY)), False),
    ("outside, of many", area(ring(SQUARE), last(AWAY, 9992)), False),
    ("partly outside", area(ring(SQUARE), ring("8 8 12 8 8 9 8 8")), False),
    ("outside by an edge alone", area(ring(YARD), ring(ACROSS)), True),
    ("shell in the hole", area(ring(GAP), ring(SQUARE)), False),
    ("a second hole outside", area(ring(SQUARE), ring(GAP), ring(AWAY)), False),
    ("10,000 with a second hole", area(ring(SQUARE), ring(GAP), last(GAP, 9986)), True),
    ("10,001 with a second hole", area(ring(SQUARE), ring(GAP), last(GAP, 9987)), False),
    ("a hole beside a block of edges", area(ring(CORNERED), ring(GAP)), True),
    ("a hole to the left of them", area(ring(CORNERED), ring("-20 -5 -15 -5 -15 5 -20 -5")), False),
]


@rows(*SHAPES)
def test_shapes_have_their_limits(written, is_one):
    with Folder() as folder:
        (found,) = folder.ask(inserted(written))
        wanted = None if is_one else (400, "InvalidValue", holder(written)[1], "value does not fit")
        same(None if found.status == 200 else found.refusal, wanted)
