"""Which features a query finds: by type, by identifier, by box and by filter, sorted and page by page; and by what it is refused. What is expected
is worked out from OGC 09-025r2 (7.6.3 and 7.9), OGC 09-026r2, and the coordinates of the features below."""

import urllib.parse

from bodies import refused
from harness import Folder, insert, mark, rows, same
from worked import find

GML = 'xmlns="http://www.opengis.net/gml/3.2"'
PLACE = "<m:size>%d</m:size><m:place><gml:Point><gml:pos>%s</gml:pos></gml:Point></m:place>"
WAY = "<m:Way><m:course><gml:LineString><gml:posList>%s</gml:posList></gml:LineString></m:course></m:Way>"
# Four marks, two fields of which the first has a hole, and two ways.
ALL = insert(
    mark("STRASSE", PLACE % (5, "10 10")),
    mark("A*b"),
    mark("Ab", PLACE % (-3, "3 3")),
    mark("b", PLACE % (5, "0 5")),
    "<m:Field><m:name>north</m:name><m:area><gml:Polygon><gml:exterior><gml:LinearRing><gml:posList>0 0 10 0 10 10 0 10 0 0</gml:posList></gml:LinearRing></gml:exterior><gml:interior><gml:LinearRing><gml:posList>2 2 4 2 4 4 2 4 2 2</gml:posList></gml:LinearRing></gml:interior></gml:Polygon></m:area></m:Field>",
    "<m:Field/>",
    WAY % "1000000000 0 1000000000 1000000000",
    WAY % "0 0 5 5",
)


def filtered(content: str) -> str:
    """The pair of a query that gives a filter with this content."""
    return "&filter=" + urllib.parse.quote('<Filter xmlns="http://www.opengis.net/fes/2.0">%s</Filter>' % content)


def reference(name: str) -> str:
    return "<ValueReference>%s</ValueReference>" % name


def literal(text: str) -> str:
    return "<Literal>%s</Literal>" % text


def compared(operator: str, name: str, text: str, attributes: str = "") -> str:
    """A comparison: `EqualTo`, say, of a property and a literal."""
    return "<PropertyIs%s%s>%s%s</PropertyIs%s>" % (operator, attributes, reference(name), literal(text), operator)


def between(low: str, high: str) -> str:
    bounds = "<LowerBoundary>%s</LowerBoundary><UpperBoundary>%s</UpperBoundary>" % (literal(low), literal(high))
    return "<PropertyIsBetween>%s%s</PropertyIsBetween>" % (reference("size"), bounds)


def like(pattern: str, wild: str = "*", single: str = ".", escape: str = "!") -> str:
    return '<PropertyIsLike wildCard="%s" singleChar="%s" escapeChar="%s">%s%s</PropertyIsLike>' % (wild, single, escape, reference("label"), literal(pattern))


def box(low: str, high: str, name: str = "") -> str:
    envelope = "<Envelope %s><lowerCorner>%s</lowerCorner><upperCorner>%s</upperCorner></Envelope>" % (GML, low, high)
    return "<BBOX>%s%s</BBOX>" % (reference(name) if name else "", envelope)


def spatial(operator: str, name: str, geometry: str) -> str:
    return "<%s>%s%s</%s>" % (operator, reference(name), geometry, operator)


def point(place: str) -> str:
    return "<Point %s><pos>%s</pos></Point>" % (GML, place)


def named(*rids: str) -> str:
    return "".join('<ResourceId rid="%s"/>' % it for it in rids)


MARK, FIELD, LINE = "typeNames=Mark", "typeNames=Field", "typeNames=Way"
SIZE_5, LABEL_B = compared("EqualTo", "size", "5"), compared("EqualTo", "label", "b")
APART = filtered(spatial("Disjoint", "place", point("3 3")))

BY_TYPE_AND_ID = [
    (MARK, 4, "Mark.1 Mark.2 Mark.3 Mark.4"),
    ("typeNames=m:Mark&count=2", 4, "Mark.1 Mark.2"),
    (MARK + "&startIndex=3", 4, "Mark.4"),
    (MARK + "&startIndex=1&count=2", 4, "Mark.2 Mark.3"),
    (MARK + "&startIndex=4&count=5", 4, ""),
    (MARK + "&count=0", 4, ""),
    (MARK + "&resultType=hits", 4, ""),
    ("typeName=Way", 2, "Way.1 Way.2"),
    ("typeNames=Way&typeName=Way", 2, "Way.1 Way.2"),
    ("TYPENAMES=Field&srsname=EPSG:25832", 2, "Field.1 Field.2"),
    ("resourceId=Mark.2,Mark.9", 1, "Mark.2"),
    ("resourceId=Way.1,Mark.1,Field.1", 3, "Mark.1 Field.1 Way.1"),
    (MARK + "&resourceId=Mark.3,Way.1", 1, "Mark.3"),
    ("resourceId=Mark.2,Mark.2", 1, "Mark.2"),
    ("resourceId=Mark.02,Mark.0,Nope.1,Mark", 0, ""),
]

BY_BOX = [
    # The edges of a box belong to it.
    (MARK + "&bbox=0,0,5,5", 2, "Mark.3 Mark.4"),
    (MARK + "&bbox=-5,-5,20,20", 3, "Mark.1 Mark.3 Mark.4"),
    # A corner of a field, a place in its hole, and the ring of the hole.
    (FIELD + "&bbox=10,10,12,12", 1, "Field.1"),
    (FIELD + "&bbox=3,3,3,3", 0, ""),
    (FIELD + "&bbox=2,2,4,4", 1, "Field.1"),
    # A way at the far edge of all coordinates.
    (LINE + "&bbox=1000000000,5,1000000000,5", 1, "Way.1"),
    (LINE + "&bbox=999999999,5,999999999,5", 0, ""),
    # On the way that leads across, and beside it though within its bounds.
    (LINE + "&bbox=2.0,2,2,2.00", 1, "Way.2"),
    (LINE + "&bbox=1,2,1,2", 0, ""),
    (LINE + "&bbox=5,5,9,9,EPSG:25832", 1, "Way.2"),
    (MARK + "&bbox=0,0,5,5&resultType=hits", 2, ""),
]

# Nulls come first where the order ascends and last where it descends, texts by their bytes, ties in default order.
SORTED = [
    (MARK + "&sortBy=label", 4, "Mark.2 Mark.3 Mark.1 Mark.4"),
    (MARK + "&sortBy=label+DESC", 4, "Mark.4 Mark.1 Mark.3 Mark.2"),
    (MARK + "&sortBy=size", 4, "Mark.2 Mark.3 Mark.1 Mark.4"),
    (MARK + "&sortBy=size%20DESC", 4, "Mark.1 Mark.4 Mark.3 Mark.2"),
    (MARK + "&sortBy=size+DESC,label+DESC", 4, "Mark.4 Mark.1 Mark.3 Mark.2"),
    (MARK + "&sortBy=m:size+ASC,label", 4, "Mark.2 Mark.3 Mark.1 Mark.4"),
    (MARK + "&sortBy=size+DESC&startIndex=1&count=2", 4, "Mark.4 Mark.3"),
    (MARK + "&sortBy=label+DESC&resourceId=Mark.1,Mark.4", 2, "Mark.4 Mark.1"),
    (MARK + "&sortBy=label&bbox=0,0,5,5", 2, "Mark.3 Mark.4"),
]

COMPARED = [
    (compared("EqualTo", "size", "1"), 0, ""),
    # A null under Not.
    ("<Not>%s</Not>" % compared("EqualTo", "size", "1"), 4, "Mark.1 Mark.2 Mark.3 Mark.4"),
    (compared("EqualTo", "m:size", "5"), 2, "Mark.1 Mark.4"),
    (compared("NotEqualTo", "size", "5"), 1, "Mark.3"),
    (compared("LessThan", "size", "5"), 1, "Mark.3"),
    ("<PropertyIsLessThan>%s%s</PropertyIsLessThan>" % (literal("0"), reference("size")), 2, "Mark.1 Mark.4"),
    (compared("GreaterThanOrEqualTo", "size", "5"), 2, "Mark.1 Mark.4"),
    (compared("LessThanOrEqualTo", "size", "-3"), 1, "Mark.3"),
    (compared("GreaterThan", "size", "-3"), 2, "Mark.1 Mark.4"),
    # A sharp s without its case, and with it.
    (compared("EqualTo", "label", "straße", ' matchCase="false"'), 1, "Mark.1"),
    (compared("EqualTo", "label", "straße"), 0, ""),
    ("<PropertyIsNull>%s</PropertyIsNull>" % reference("size"), 1, "Mark.2"),
    # The bounds of a range belong to it.
    (between("-3", "5"), 3, "Mark.1 Mark.3 Mark.4"),
    (between("-2", "4"), 0, ""),
]

BY_OTHER_OPERATORS = [
    # A star that is escaped is a star.
    (MARK + filtered(like("A!*.")), 1, "Mark.2"),
    (MARK + filtered(like("*b")), 3, "Mark.2 Mark.3 Mark.4"),
    (MARK + filtered(like("_b", "%", "_", "\\")), 1, "Mark.3"),
    (MARK + filtered("<And>%s%s</And>" % (SIZE_5, LABEL_B)), 1, "Mark.4"),
    (MARK + filtered("<Or>%s%s</Or>" % (compared("EqualTo", "size", "-3"), LABEL_B)), 2, "Mark.3 Mark.4"),
    (MARK + filtered(named("Mark.4", "Mark.2", "Mark.02")), 2, "Mark.2 Mark.4"),
    (MARK + filtered("<And>%s%s</And>" % (compared("EqualTo", "size", "-3"), named("Mark.4"))), 0, ""),
    (MARK + filtered(box("0 0", "3 3", "place")), 1, "Mark.3"),
    (FIELD + filtered(box("3 3", "3 3")), 0, ""),
    (FIELD + filtered(spatial("Intersects", "area", point("4 4"))), 1, "Field.1"),
    (LINE + filtered(spatial("Intersects", "course", "<LineString %s><posList>0 2 2 0</posList></LineString>" % GML)), 1, "Way.2"),
    # What is apart from a geometry; a feature without one is too.
    (MARK + APART, 3, "Mark.1 Mark.2 Mark.4"),
    (MARK + "&startIndex=1" + APART, 3, "Mark.2 Mark.4"),
    (MARK + "&sortBy=label&count=1" + filtered(SIZE_5), 2, "Mark.1"),
]


@rows(
    ("by type and identifier, page by page", BY_TYPE_AND_ID),
    ("by box, which meets geometries and not their bounds", BY_BOX),
    ("in the order of their keys", SORTED),
    ("by comparison", [(MARK + filtered(it[0]), *it[1:]) for it in COMPARED]),
    ("by other operators", BY_OTHER_OPERATORS),
)
def test_features_are_found(table):
    with Folder() as folder:
        for (query, matched, ids), found in zip(table, folder.ask(ALL, *(find(it[0]) for it in table))[1:]):
            what = urllib.parse.unquote(query)
            same(found.status, 200, what)
            same(found.ids, ids.split(), what)
            same(found.matched, matched, what)
            same('numberReturned="%d"' % len(ids.split()) in found.body, True, "returned of " + what)


# A query, the text of its refusal, and the locator.
UNFIT = [
    ("typeNames=Nope", "value refused", "typeNames"),
    ("typeNames=Mark,Way", "option refused", "typeNames"),
    ("count=1", "value missing", "typeNames"),
    ("bbox=1,2,3,4", "value missing", "typeNames"),
    (MARK + "&count=x", "value refused", "count"),
    (MARK + "&count=4294967296", "value refused", "count"),
    (MARK + "&startIndex=4294967296", "value refused", "startIndex"),
    (MARK + "&resultType=all", "value refused", "resultType"),
    (MARK + "&resolve=local", "option refused", "resolve"),
    (MARK + "&srsName=EPSG:1", "value refused", "srsName"),
    (MARK + "&propertyName=label", "option refused", "propertyName"),
    (MARK + "&TypeNames=Mark", "misplaced or malformed", "typeNames"),
    (LINE + "&bbox=1000000001,5,1000000001,5", "value refused", "bbox"),
    (LINE + "&bbox=1,2,3", "value refused", "bbox"),
    (LINE + "&bbox=1,2,3,4,EPSG:1", "value refused", "bbox"),
    (LINE + "&bbox=1,2,3,4,EPSG:25832,5", "value refused", "bbox"),
    (LINE + "&bbox=1.5,2,3,4", "value refused", "bbox"),
    (LINE + "&bbox=5,5,4,9", "value refused", "bbox"),
    ("resourceId=Mark.1&bbox=0,0,1,1", "value refused", "bbox"),
    ("resourceId=Mark.1&typeNames=Mark" + filtered(named("Mark.1")), "value refused", "filter"),
    ("bbox=0,0,1,1&typeNames=Mark" + filtered(named("Mark.1")), "value refused", "bbox"),
    ("resourceId=Mark.1&filter=x", "misplaced or malformed", "filter"),
    (MARK + "&filter=%3Cx/%3E", "misplaced or malformed", "x"),
    (MARK + "&sortBy=place", "value refused", "sortBy"),
    (MARK + "&sortBy=nope", "value refused", "nope"),
    (MARK + "&sortBy=label+UP", "value refused", "sortBy"),
    ("resourceId=Mark.1&sortBy=label", "value refused", "sortBy"),
    (MARK + filtered(compared("EqualTo", "size", "x")), "value refused", "size"),
    (MARK + filtered(compared("EqualTo", "m:sort", "x")), "value refused", "m:sort"),
    (MARK + filtered("<Touches>%s</Touches>" % reference("place")), "option refused", "Touches"),
    ("count=1" + filtered(named("Mark.1")), "value missing", "typeNames"),
    ("count=1" + filtered("<PropertyIsNull>%s</PropertyIsNull>" % reference("size")), "value refused", "size"),
]


def test_queries_are_refused_by_their_first_fault():
    with Folder() as folder:
        for (query, text, locator), unfit in zip(UNFIT, folder.ask(ALL, *(find(it[0]) for it in UNFIT))[1:]):
            same(unfit.refusal, refused(text, locator), urllib.parse.unquote(query))
