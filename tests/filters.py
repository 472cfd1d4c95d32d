"""Filters (OGC 09-026r2, section 7): what each finds among twelve features, sent by POST, by GET, and from a stored query; and how a filter
is written for a stored query."""

import re
from urllib.parse import quote

from harness import DONE, Folder, get, insert, request, rows, same
from refusals import MISSING, OPTION, REFUSED, all_refused, refusal

SCHEMA = """title = "Marks"
address = "http://localhost:8080/wfs"
namespace = "http://example.org/marks"
prefix = "m"
srs = ["urn:ogc:def:crs:EPSG::25832", "EPSG:25832"]
[[type]]
name = "Mark"
property = [ {name="label", kind="text", max=6}, {name="size", kind="integer"}, {name="place", kind="point"},
  {name="lit", kind="boolean"}, {name="other", kind="text"}, {name="spot", kind="point"} ]
"""

# The label, the size, the place, whether it is lit, another text and another place of each; None where a feature has none.
FEATURES = [
    ("A", 1, "1 2", "true", "B", None),
    ("B", 2, "2 3", "false", "A", None),
    ("a", -7, "0 1", None, "a", None),
    ("", 5, "-1 2", "true", "A*1x!", None),
    (None, None, None, None, None, "1 1"),
    ("a%b", 6, None, "false", "A*1x", None),
    ("${id}", -8, "3 4", "true", "Axxx!", None),
    ("aé", None, "5 5", None, "", None),
    ("AB", 8, None, "false", "AB", None),
    (" ${id}", None, None, None, None, None),
    ("${id}x", None, None, None, None, None),
    ("$", None, None, None, None, None),
]


def feature(label, size, place, lit, other, spot) -> str:
    texts = [("label", label), ("size", size), ("lit", lit), ("other", other)]
    points = [("place", place), ("spot", spot)]
    content = "".join("<m:%s>%s</m:%s>" % (name, text, name) for name, text in texts if text is not None)
    content += "".join("<m:%s><gml:Point><gml:pos>%s</gml:pos></gml:Point></m:%s>" % (name, at, name) for name, at in points if at)
    return "<m:Mark>%s</m:Mark>" % content


INSERT = insert(*[feature(*values) for values in FEATURES])


def filter_of(content: str, attributes: str = "") -> str:
    """A filter whose elements need no prefix."""
    spaces = 'xmlns="http://www.opengis.net/fes/2.0" xmlns:gml="http://www.opengis.net/gml/3.2" xmlns:x="http://example.org/other"'
    return "<Filter %s%s>%s</Filter>" % (spaces, attributes, content)


def query_of(content: str) -> str:
    return '<wfs:Query typeNames="Mark">%s</wfs:Query>' % filter_of(content)


def by_post(content: str) -> bytes:
    return request("GetFeature", query_of(content))


def by_get(content: str, whole: bool = False) -> bytes:
    return get("service=WFS&request=GetFeature&typeNames=Mark&filter=" + quote(content if whole else filter_of(content)))


def stored(name: str, content: str, *parameters: str) -> str:
    """A definition of a stored query with a filter."""
    declared = "".join('<wfs:Parameter name="%s" type="x"/>' % it for it in parameters)
    text = "<wfs:QueryExpressionText>%s</wfs:QueryExpressionText>" % query_of(content)
    return '<wfs:StoredQueryDefinition id="%s">%s%s</wfs:StoredQueryDefinition>' % (name, declared, text)


def numbers(answer) -> str:
    """The numbers of the features that were found."""
    same(answer.status, 200, repr(answer))
    return " ".join(it.split(".")[1] for it in answer.ids)


LIKE = '<PropertyIsLike wildCard="*" singleChar="." escapeChar="!">'

# What is sent, and the numbers of the features for which it is true.
FOUND = [
    ("<PropertyIsEqualTo><ValueReference>m:label</ValueReference><Literal>A</Literal></PropertyIsEqualTo>", "1"),
    ('<PropertyIsEqualTo matchCase="true" matchAction="Any"><ValueReference>label</ValueReference><Literal>A</Literal></PropertyIsEqualTo>', "1"),
    ('<PropertyIsEqualTo matchCase="false" matchAction="All"><ValueReference>label</ValueReference><Literal>A</Literal></PropertyIsEqualTo>', "1 3"),
    # A whole pattern is matched, as GDAL sends one.
    ('<PropertyIsLike wildCard="*" singleChar="_" escapeChar="!" matchCase="true"><ValueReference>m:label</ValueReference><Literal>A*</Literal></PropertyIsLike>', "1 9"),
    ('<PropertyIsNull matchCase="true"><ValueReference>m:size</ValueReference></PropertyIsNull>', "5 8 10 11 12"),
    ('<PropertyIsBetween matchCase="true"><ValueReference>m:size</ValueReference><LowerBoundary><Literal>1</Literal></LowerBoundary><UpperBoundary><Literal>2</Literal></UpperBoundary></PropertyIsBetween>', "1 2"),
    ('<PropertyIsLessThan matchCase="true"><ValueReference>m:size</ValueReference><Literal>2</Literal></PropertyIsLessThan>', "1 3 7"),
    ("<PropertyIsLessThan><Literal>2</Literal><ValueReference>m:size</ValueReference></PropertyIsLessThan>", "4 6 9"),
    # A literal may be longer than the property's texts.
    ('<PropertyIsNotEqualTo matchCase="false" matchAction="One"><Literal>long text</Literal><ValueReference>m:label</ValueReference></PropertyIsNotEqualTo>', "1 2 3 4 6 7 8 9 10 11 12"),
    ('<PropertyIsNotEqualTo matchCase="false"><Literal>ab</Literal><ValueReference>m:label</ValueReference></PropertyIsNotEqualTo>', "1 2 3 4 6 7 8 10 11 12"),
    ("<PropertyIsGreaterThanOrEqualTo><ValueReference>m:size</ValueReference><Literal> -7 </Literal></PropertyIsGreaterThanOrEqualTo>", "1 2 3 4 6 9"),
    # Texts are compared by their bytes.
    ("<PropertyIsLessThan><ValueReference>m:label</ValueReference><ValueReference>m:other</ValueReference></PropertyIsLessThan>", "1 4 7"),
    ("<PropertyIsEqualTo><ValueReference>m:lit</ValueReference><Literal>1</Literal></PropertyIsEqualTo>", "1 4 7"),
    ("<PropertyIsNotEqualTo><ValueReference>m:lit</ValueReference><Literal> false </Literal></PropertyIsNotEqualTo>", "1 4 7"),
    ('<BBOX><ValueReference>m:place</ValueReference><gml:Envelope srsName="urn:ogc:def:crs:EPSG::25832"><gml:lowerCorner>0 1</gml:lowerCorner><gml:upperCorner>2 3</gml:upperCorner></gml:Envelope></BBOX>', "1 2 3"),
    # Without a property, some geometry is within.
    ("<BBOX><gml:Envelope><gml:lowerCorner>0 1</gml:lowerCorner><gml:upperCorner>2 3</gml:upperCorner></gml:Envelope></BBOX>", "1 2 3 5"),
    ("<And><PropertyIsNull><ValueReference>m:place</ValueReference></PropertyIsNull><Not><PropertyIsNull><ValueReference>m:size</ValueReference></PropertyIsNull></Not></And>", "6 9"),
    ('<Or><ResourceId rid="Mark.1"/><PropertyIsNull><ValueReference>m:size</ValueReference></PropertyIsNull></Or>', "1 5 8 10 11 12"),
    ('<PropertyIsLike wildCard="%" singleChar="_" escapeChar="\\"><ValueReference>m:label</ValueReference><Literal>a\\%_%</Literal></PropertyIsLike>', "6"),
    ('<ResourceId rid="Mark.1"/><ResourceId rid="Mark.02"/><ResourceId rid="Mark.3"/>', "1 3"),
    ("<PropertyIsBetween><ValueReference>m:size</ValueReference><LowerBoundary><Literal>1</Literal></LowerBoundary><UpperBoundary><ValueReference>size</ValueReference></UpperBoundary></PropertyIsBetween>", "1 2 4 6 9"),
    ('<Intersects><ValueReference>m:place</ValueReference><gml:Point srsName="EPSG:25832"><gml:pos>1 2</gml:pos></gml:Point></Intersects>', "1"),
    # All before the first colon is dropped from a name, and nothing before it too.
    ("<PropertyIsLessThanOrEqualTo><ValueReference>:label</ValueReference><Literal/></PropertyIsLessThanOrEqualTo>", "4"),
    ('<PropertyIsGreaterThan x:id="1"> <ValueReference>a:size</ValueReference> <Literal>+5</Literal> </PropertyIsGreaterThan>', "6 9"),
    ("<PropertyIsEqualTo><ValueReference>label</ValueReference><Literal>${id}</Literal></PropertyIsEqualTo>", "7"),
    ('<ResourceId rid="${id}"/>', ""),
    ('<ResourceId rid=""/>', ""),
    (LIKE + "<ValueReference>other</ValueReference><Literal>A!*.!x!!</Literal></PropertyIsLike>", "4"),
    (LIKE + "<ValueReference>label</ValueReference><Literal/></PropertyIsLike>", "4"),
    # A null is disjoint from all.
    ("<Disjoint><ValueReference>place</ValueReference><gml:Point><gml:pos>-1 +2.0</gml:pos></gml:Point></Disjoint>", "1 2 3 5 6 7 8 9 10 11 12"),
    ("<PropertyIsBetween><ValueReference>label</ValueReference><LowerBoundary><Literal>b</Literal></LowerBoundary><UpperBoundary><Literal>a</Literal></UpperBoundary></PropertyIsBetween>", ""),
    ('<Not><Not><ResourceId rid="Mark.18446744073709551615"/></Not></Not>', ""),
    ('<Not><Not><ResourceId rid="Mark.2"/></Not></Not>', "2"),
    ('<PropertyIsLike wildCard="é" singleChar="." escapeChar="!"><ValueReference>label</ValueReference><Literal>aé</Literal></PropertyIsLike>', "3 6 8"),
]


@rows(("POST", by_post), ("GET", by_get))
def test_what_a_filter_finds_when_sent_by(message):
    with Folder(SCHEMA) as folder:
        found = folder.ask(INSERT, *[message(content) for content, _ in FOUND])
        for (content, wanted), answer in zip(FOUND, found[1:]):
            same(numbers(answer), wanted, content)


def test_what_a_filter_finds_from_a_stored_query():
    kept = [(content, wanted) for content, wanted in FOUND if "${" not in content]
    definitions = "".join(stored(str(number), content) for number, (content, _) in enumerate(kept))
    uses = [request("GetFeature", '<wfs:StoredQuery id="%d"/>' % number) for number in range(len(kept))]
    with Folder(SCHEMA) as folder:
        folder.ask(INSERT, request("CreateStoredQuery", definitions))
        for (content, wanted), answer in zip(kept, folder.ask(*uses)):
            same(numbers(answer), wanted, content)


# ---- how many operators


def nulls(count: int, after: str = "") -> bytes:
    """An Or of some operators, and of what follows them in it."""
    return by_post("<Or>%s%s</Or>" % ("<PropertyIsNull><ValueReference>size</ValueReference></PropertyIsNull>" * count, after))


def test_a_thousand_operators_are_read_and_no_more():
    unknown = "<PropertyIsNull><ValueReference>none</ValueReference></PropertyIsNull>"
    with Folder(SCHEMA) as folder:
        _, most, more, before = folder.ask(INSERT, nulls(999), nulls(1000), nulls(999, unknown))
        same(numbers(most), "5 8 10 11 12")
        same(more.refusal, refusal(OPTION, "Filter"))
        same(before.refusal, refusal(OPTION, "Filter"), "an operator is counted before what it holds is judged")


def test_more_than_a_thousand_identifiers_are_one_operator():
    with Folder(SCHEMA) as folder:
        _, found = folder.ask(INSERT, by_post('<ResourceId rid="Mark.1"/>' * 1001))
        same(numbers(found), "1")


# ---- the filters of stored queries

# What is sent, what is written for it, and what it finds with the parameters `id` and `text` of stored queries, here Mark.2 and 5.
WRITTEN = [
    ('<PropertyIsEqualTo matchCase="true" matchAction="Any"><ValueReference>label</ValueReference><Literal>A</Literal></PropertyIsEqualTo>', "<PropertyIsEqualTo><ValueReference>m:label</ValueReference><Literal>A</Literal></PropertyIsEqualTo>", "1"),
    ('<PropertyIsNotEqualTo matchCase="false" matchAction="One"><Literal>long text</Literal><ValueReference>x:label</ValueReference></PropertyIsNotEqualTo>', '<PropertyIsNotEqualTo matchCase="false"><Literal>long text</Literal><ValueReference>m:label</ValueReference></PropertyIsNotEqualTo>', "1 2 3 4 6 7 8 9 10 11 12"),
    ("<PropertyIsGreaterThanOrEqualTo><ValueReference>m:size</ValueReference><Literal> -07 </Literal></PropertyIsGreaterThanOrEqualTo>", "<PropertyIsGreaterThanOrEqualTo><ValueReference>m:size</ValueReference><Literal>-7</Literal></PropertyIsGreaterThanOrEqualTo>", "1 2 3 4 6 9"),
    ("<PropertyIsLessThanOrEqualTo><Literal>-9223372036854775808</Literal><ValueReference>m:size</ValueReference></PropertyIsLessThanOrEqualTo>", "<PropertyIsLessThanOrEqualTo><Literal>-9223372036854775808</Literal><ValueReference>m:size</ValueReference></PropertyIsLessThanOrEqualTo>", "1 2 3 4 6 7 9"),
    ("<Or><PropertyIsLessThan><ValueReference>label</ValueReference><ValueReference>other</ValueReference></PropertyIsLessThan><PropertyIsGreaterThan><ValueReference>size</ValueReference><Literal>+5</Literal></PropertyIsGreaterThan></Or>", "<Or><PropertyIsLessThan><ValueReference>m:label</ValueReference><ValueReference>m:other</ValueReference></PropertyIsLessThan><PropertyIsGreaterThan><ValueReference>m:size</ValueReference><Literal>5</Literal></PropertyIsGreaterThan></Or>", "1 4 6 7 9"),
    ("<And><PropertyIsEqualTo><ValueReference>lit</ValueReference><Literal>1</Literal></PropertyIsEqualTo><PropertyIsNotEqualTo><ValueReference>lit</ValueReference><Literal> false </Literal></PropertyIsNotEqualTo></And>", "<And><PropertyIsEqualTo><ValueReference>m:lit</ValueReference><Literal>true</Literal></PropertyIsEqualTo><PropertyIsNotEqualTo><ValueReference>m:lit</ValueReference><Literal>false</Literal></PropertyIsNotEqualTo></And>", "1 4 7"),
    ('<BBOX><ValueReference>place</ValueReference><gml:Envelope srsName="EPSG:25832"><gml:lowerCorner>0 +1</gml:lowerCorner><gml:upperCorner>2.0 3</gml:upperCorner></gml:Envelope></BBOX>', '<BBOX><ValueReference>m:place</ValueReference><gml:Envelope srsName="urn:ogc:def:crs:EPSG::25832"><gml:lowerCorner>0 1</gml:lowerCorner><gml:upperCorner>2 3</gml:upperCorner></gml:Envelope></BBOX>', "1 2 3"),
    ("<BBOX><gml:Envelope><gml:lowerCorner>-9 1</gml:lowerCorner><gml:upperCorner>2 3</gml:upperCorner></gml:Envelope></BBOX>", '<BBOX><gml:Envelope srsName="urn:ogc:def:crs:EPSG::25832"><gml:lowerCorner>-9 1</gml:lowerCorner><gml:upperCorner>2 3</gml:upperCorner></gml:Envelope></BBOX>', "1 2 3 4 5"),
    ("<Not><PropertyIsNull><ValueReference>place</ValueReference></PropertyIsNull></Not>", "<Not><PropertyIsNull><ValueReference>m:place</ValueReference></PropertyIsNull></Not>", "1 2 3 4 7 8"),
    ('<PropertyIsLike wildCard="%" singleChar="_" escapeChar="\\"><ValueReference>label</ValueReference><Literal>a\\%_%*.!</Literal></PropertyIsLike>', LIKE + "<ValueReference>m:label</ValueReference><Literal>a%.*!*!.!!</Literal></PropertyIsLike>", ""),
    ('<ResourceId rid="Mark.1"/><ResourceId rid="Mark.02"/><ResourceId rid="Mark.18446744073709551615"/>', '<ResourceId rid="Mark.1"/><ResourceId rid=""/><ResourceId rid="Mark.18446744073709551615"/>', "1"),
    ('<Or><ResourceId rid="Mark.1"/><ResourceId rid="${}"/></Or>', '<Or><ResourceId rid="Mark.1"/><ResourceId rid=""/></Or>', "1"),
    ("<PropertyIsBetween><ValueReference>size</ValueReference><LowerBoundary><Literal>01</Literal></LowerBoundary><UpperBoundary><ValueReference>size</ValueReference></UpperBoundary></PropertyIsBetween>", "<PropertyIsBetween><ValueReference>m:size</ValueReference><LowerBoundary><Literal>1</Literal></LowerBoundary><UpperBoundary><ValueReference>m:size</ValueReference></UpperBoundary></PropertyIsBetween>", "1 2 4 6 9"),
    ('<And><Intersects><ValueReference>place</ValueReference><gml:Point srsName="EPSG:25832"><gml:pos>1 2</gml:pos></gml:Point></Intersects><Disjoint><ValueReference>place</ValueReference><gml:Point><gml:pos>-1 +2.0</gml:pos></gml:Point></Disjoint></And>', '<And><Intersects><ValueReference>m:place</ValueReference><gml:Point gml:id="g" srsName="urn:ogc:def:crs:EPSG::25832"><gml:pos>1 2</gml:pos></gml:Point></Intersects><Disjoint><ValueReference>m:place</ValueReference><gml:Point gml:id="g" srsName="urn:ogc:def:crs:EPSG::25832"><gml:pos>-1 2</gml:pos></gml:Point></Disjoint></And>', "1"),
    # A parameter is the whole text.
    ("<PropertyIsEqualTo><Literal>${text}</Literal><ValueReference>size</ValueReference></PropertyIsEqualTo>", "<PropertyIsEqualTo><Literal>${text}</Literal><ValueReference>m:size</ValueReference></PropertyIsEqualTo>", "4"),
    ('<ResourceId rid="${id}"/><ResourceId rid="${}"/>', '<ResourceId rid="${id}"/><ResourceId rid=""/>', "2"),
    ('<ResourceId rid="${id"/>', '<ResourceId rid=""/>', ""),
    ("<PropertyIsEqualTo><ValueReference>label</ValueReference><Literal> ${id}</Literal></PropertyIsEqualTo>", "<PropertyIsEqualTo><ValueReference>m:label</ValueReference><Literal> ${id}</Literal></PropertyIsEqualTo>", "10"),
    ("<PropertyIsEqualTo><ValueReference>label</ValueReference><Literal>${id}x</Literal></PropertyIsEqualTo>", "<PropertyIsEqualTo><ValueReference>m:label</ValueReference><Literal>${id}x</Literal></PropertyIsEqualTo>", "11"),
    (LIKE + "<ValueReference>label</ValueReference><Literal>$</Literal></PropertyIsLike>", LIKE + "<ValueReference>m:label</ValueReference><Literal>$</Literal></PropertyIsLike>", "12"),
    ("<PropertyIsBetween><ValueReference>size</ValueReference><LowerBoundary><Literal>1</Literal></LowerBoundary><UpperBoundary><Literal>${text}</Literal></UpperBoundary></PropertyIsBetween>", "<PropertyIsBetween><ValueReference>m:size</ValueReference><LowerBoundary><Literal>1</Literal></LowerBoundary><UpperBoundary><Literal>${text}</Literal></UpperBoundary></PropertyIsBetween>", "1 2 4"),
    ("<PropertyIsBetween><ValueReference>size</ValueReference><LowerBoundary><Literal>${text}</Literal></LowerBoundary><UpperBoundary><Literal>${text}</Literal></UpperBoundary></PropertyIsBetween>", "<PropertyIsBetween><ValueReference>m:size</ValueReference><LowerBoundary><Literal>${text}</Literal></LowerBoundary><UpperBoundary><Literal>${text}</Literal></UpperBoundary></PropertyIsBetween>", "4"),
    ('<Or><PropertyIsEqualTo><ValueReference>size</ValueReference><Literal>${text}</Literal></PropertyIsEqualTo><ResourceId rid="${id}"/></Or>', '<Or><PropertyIsEqualTo><ValueReference>m:size</ValueReference><Literal>${text}</Literal></PropertyIsEqualTo><ResourceId rid="${id}"/></Or>', "2 4"),
]


def written(content: str) -> str:
    """Elements as a stored query has them, with a prefix for FES."""
    return re.sub(r"(</?)(?=[A-Z])", r"\1fes:", content)


USED = '<wfs:Parameter name="id">Mark.2</wfs:Parameter><wfs:Parameter name="text">5</wfs:Parameter>'


def test_what_is_written_for_a_filter_and_finds_the_same_after_a_restart():
    create = [request("CreateStoredQuery", stored(str(number), row[0], "id", "text")) for number, row in enumerate(WRITTEN)]
    describe = [request("DescribeStoredQueries", "<wfs:StoredQueryId>%d</wfs:StoredQueryId>" % number) for number in range(len(WRITTEN))]
    use = [request("GetFeature", '<wfs:StoredQuery id="%d">%s</wfs:StoredQuery>' % (number, USED)) for number in range(len(WRITTEN))]
    with Folder(SCHEMA) as folder:
        first = folder.ask(INSERT, *create, *describe)
        same(folder.run("check").status, DONE, "what was written is read back")
        again = folder.ask(*describe, *use)
        for number, (content, wanted, found) in enumerate(WRITTEN):
            for answer in (first[1 + len(create) + number], again[number]):
                same(re.findall("<fes:Filter>(.*)</fes:Filter>", answer.body), [written(wanted)], content)
            same(numbers(again[len(describe) + number]), found, content)


# What names no parameter, though it should, and what is judged before it.
UNDECLARED = [
    ('<ResourceId rid="${ID}" a="1"/>', MISSING, "ID"),
    ("<PropertyIsEqualTo><Literal>${no}</Literal><ValueReference>none</ValueReference></PropertyIsEqualTo>", MISSING, "no"),
    ("<PropertyIsEqualTo><ValueReference>none</ValueReference><Literal>${no}</Literal></PropertyIsEqualTo>", REFUSED, "none"),
]


def test_a_parameter_has_to_be_declared():
    with Folder(SCHEMA) as folder:
        all_refused(folder, lambda content: request("CreateStoredQuery", stored("q", content, "id", "text")), UNDECLARED)
