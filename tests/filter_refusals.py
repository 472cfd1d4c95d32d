"""Filters that are refused, by POST and by GET: which element, attribute or name the refusal points at (OGC 09-026r2, sections 7.5 to
7.11). The first fault in the document decides."""

from filters import SCHEMA, by_get, by_post, filter_of
from harness import Folder, request, rows
from refusals import MISPLACED, OPTION, REFUSED, all_refused

# Elements in a wrong place, too many, or missing.
MISPLACED_PARTS = [
    ("", MISPLACED, "Filter"),
    ("<PropertyIsNull><ValueReference>size</ValueReference></PropertyIsNull><PropertyIsNull><ValueReference>size</ValueReference></PropertyIsNull>", MISPLACED, "PropertyIsNull"),
    ('<ResourceId rid="Mark.1"/><PropertyIsNull><ValueReference>size</ValueReference></PropertyIsNull>', MISPLACED, "PropertyIsNull"),
    ('<PropertyIsNull><ValueReference>size</ValueReference></PropertyIsNull><ResourceId rid="Mark.1"/>', MISPLACED, "ResourceId"),
    ("<ResourceId/>", MISPLACED, "ResourceId"),
    ('<ResourceId rid="Mark.1"><Literal>1</Literal></ResourceId>', MISPLACED, "Literal"),
    ("<And/>", MISPLACED, "And"),
    ("<And><PropertyIsNull><ValueReference>size</ValueReference></PropertyIsNull></And>", MISPLACED, "And"),
    ('<Or><ResourceId rid="Mark.1"/></Or>', MISPLACED, "Or"),
    ("<Not/>", MISPLACED, "Not"),
    ("<Not><PropertyIsNull><ValueReference>size</ValueReference></PropertyIsNull><PropertyIsNull><ValueReference>size</ValueReference></PropertyIsNull></Not>", MISPLACED, "PropertyIsNull"),
    ("<PropertyIsEqualTo/>", MISPLACED, "PropertyIsEqualTo"),
    ("<PropertyIsEqualTo><ValueReference>label</ValueReference></PropertyIsEqualTo>", MISPLACED, "PropertyIsEqualTo"),
    ("<PropertyIsEqualTo><Literal>1</Literal></PropertyIsEqualTo>", MISPLACED, "PropertyIsEqualTo"),
    ("<PropertyIsEqualTo><Literal>1</Literal><Literal>1</Literal></PropertyIsEqualTo>", MISPLACED, "Literal"),
    ("<PropertyIsEqualTo><ValueReference>label</ValueReference><Literal>1</Literal><Literal>2</Literal></PropertyIsEqualTo>", MISPLACED, "Literal"),
    ("<PropertyIsEqualTo><ValueReference>label</ValueReference><Function>1</Function></PropertyIsEqualTo>", MISPLACED, "Function"),
    ("<PropertyIsEqualTo><ValueReference>label</ValueReference><x:Literal>1</x:Literal></PropertyIsEqualTo>", MISPLACED, "Literal"),
    ("<PropertyIsEqualTo><ValueReference><Literal/></ValueReference><Literal>1</Literal></PropertyIsEqualTo>", MISPLACED, "Literal"),
    ('<PropertyIsLike wildCard="*" singleChar="." escapeChar="!"><Literal>a</Literal><ValueReference>label</ValueReference></PropertyIsLike>', MISPLACED, "Literal"),
    ('<PropertyIsLike wildCard="*" singleChar="."><ValueReference>label</ValueReference><Literal>a</Literal></PropertyIsLike>', MISPLACED, "PropertyIsLike"),
    ("<PropertyIsBetween><ValueReference>size</ValueReference><UpperBoundary><Literal>1</Literal></UpperBoundary><LowerBoundary><Literal>1</Literal></LowerBoundary></PropertyIsBetween>", MISPLACED, "UpperBoundary"),
    ("<PropertyIsBetween><ValueReference>size</ValueReference><LowerBoundary/><UpperBoundary><Literal>1</Literal></UpperBoundary></PropertyIsBetween>", MISPLACED, "LowerBoundary"),
    ("<BBOX><ValueReference>place</ValueReference></BBOX>", MISPLACED, "BBOX"),
    ("<Intersects><gml:Point><gml:pos>1 2</gml:pos></gml:Point><ValueReference>place</ValueReference></Intersects>", MISPLACED, "Point"),
    ("<PropertyIsNull><x:ValueReference>size</x:ValueReference></PropertyIsNull>", MISPLACED, "ValueReference"),
    ('<PropertyIsEqualTo matchAction="All"/>', MISPLACED, "PropertyIsEqualTo"),
    ('<PropertyIsLike singleChar="." escapeChar="!"><ValueReference>label</ValueReference><Literal>a</Literal></PropertyIsLike>', MISPLACED, "PropertyIsLike"),
    ('<PropertyIsLike wildCard="*" escapeChar="!"><ValueReference>label</ValueReference><Literal>a</Literal></PropertyIsLike>', MISPLACED, "PropertyIsLike"),
    ("<PropertyIsNull><ValueReference>size</ValueReference><Literal>1</Literal></PropertyIsNull>", MISPLACED, "Literal"),
    ("<PropertyIsEqualTo><Literal>A</Literal><ValueReference>label</ValueReference><Literal>A</Literal></PropertyIsEqualTo>", MISPLACED, "Literal"),
    ("<PropertyIsBetween><ValueReference>size</ValueReference><LowerBoundary><Literal>1</Literal><Literal>1</Literal></LowerBoundary><UpperBoundary><Literal>2</Literal></UpperBoundary></PropertyIsBetween>", MISPLACED, "Literal"),
    ("<PropertyIsBetween><ValueReference>size</ValueReference><LowerBoundary><Literal>1</Literal></LowerBoundary><UpperBoundary><Literal>2</Literal></UpperBoundary><Literal>1</Literal></PropertyIsBetween>", MISPLACED, "Literal"),
    ('<PropertyIsLike wildCard="*" singleChar="." escapeChar="!"><ValueReference>label</ValueReference><Literal>a</Literal><Literal>a</Literal></PropertyIsLike>', MISPLACED, "Literal"),
    ("<BBOX><gml:Envelope><gml:lowerCorner>0 1</gml:lowerCorner><gml:upperCorner>2 3</gml:upperCorner></gml:Envelope><Literal>1</Literal></BBOX>", MISPLACED, "Literal"),
    ('<PropertyIsLike wildCard="*" singleChar="." escapeChar="!"><ValueReference>label</ValueReference><Function>a</Function></PropertyIsLike>', MISPLACED, "Function"),
    ('<PropertyIsLike wildCard="*" singleChar="." escapeChar="!"><ValueReference>label</ValueReference></PropertyIsLike>', MISPLACED, "PropertyIsLike"),
    ("<PropertyIsBetween><Literal>size</Literal><LowerBoundary><Literal>1</Literal></LowerBoundary><UpperBoundary><Literal>2</Literal></UpperBoundary></PropertyIsBetween>", MISPLACED, "Literal"),
    ("<PropertyIsEqualTo><Function>A</Function><ValueReference>label</ValueReference></PropertyIsEqualTo>", MISPLACED, "Function"),
    ("<PropertyIsBetween><ValueReference>size</ValueReference><LowerBoundary><Literal>1</Literal></LowerBoundary></PropertyIsBetween>", MISPLACED, "PropertyIsBetween"),
    ("<Intersects><ValueReference>place</ValueReference></Intersects>", MISPLACED, "Intersects"),
]

# Operators, attributes and values that this service does not have, and names that the type does not have.
REFUSED_PARTS = [
    ("<PropertyIsNil><ValueReference>size</ValueReference></PropertyIsNil>", OPTION, "PropertyIsNil"),
    ("<Function/>", OPTION, "Function"),
    ("<x:And/>", OPTION, "And"),
    ("<DWithin><ValueReference>place</ValueReference></DWithin>", OPTION, "DWithin"),
    ("<And><PropertyIsNull><ValueReference>none</ValueReference></PropertyIsNull><Function/></And>", REFUSED, "none"),
    ("<And><Function/><PropertyIsNull><ValueReference>none</ValueReference></PropertyIsNull></And>", OPTION, "Function"),
    ('<And b="1" a="1"><Function/></And>', OPTION, "a"),
    ('<ResourceId rid="Mark.1" version="1"/>', OPTION, "version"),
    ('<PropertyIsEqualTo matchCase="no"><ValueReference>none</ValueReference></PropertyIsEqualTo>', OPTION, "matchCase"),
    ('<PropertyIsEqualTo matchAction="any" matchCase="no"/>', OPTION, "matchCase"),
    ('<PropertyIsEqualTo matchAction="any" a="1"/>', OPTION, "matchAction"),
    ('<PropertyIsLessThan matchCase="false"><ValueReference>none</ValueReference></PropertyIsLessThan>', OPTION, "matchCase"),
    ('<PropertyIsEqualTo matchCase="false"><ValueReference>size</ValueReference><Literal>1</Literal></PropertyIsEqualTo>', OPTION, "matchCase"),
    ('<PropertyIsEqualTo matchCase="false"><ValueReference>size</ValueReference><Literal>x</Literal></PropertyIsEqualTo>', REFUSED, "size"),
    ('<PropertyIsNull matchCase="false"><ValueReference>none</ValueReference></PropertyIsNull>', OPTION, "matchCase"),
    ('<PropertyIsNull b="1" a="1" matchCase="no"/>', OPTION, "matchCase"),
    ('<PropertyIsNull b="1" a="1" matchCase="true"/>', OPTION, "a"),
    ('<PropertyIsBetween a="1" matchCase="false"><ValueReference>none</ValueReference></PropertyIsBetween>', OPTION, "matchCase"),
    ('<PropertyIsBetween matchCase="true" matchAction="Any"/>', OPTION, "matchAction"),
    ('<PropertyIsLike matchCase="false"><ValueReference>none</ValueReference></PropertyIsLike>', OPTION, "matchCase"),
    ('<PropertyIsLike matchCase="" wildCard="*" singleChar="*" escapeChar="!"/>', OPTION, "matchCase"),
    ('<And matchCase="true"/>', OPTION, "matchCase"),
    ('<Not matchCase="true"/>', OPTION, "matchCase"),
    ('<ResourceId rid="Mark.1" matchCase="true"/>', OPTION, "matchCase"),
    ('<BBOX matchCase="true"/>', OPTION, "matchCase"),
    ('<Intersects matchCase="true"/>', OPTION, "matchCase"),
    ("<PropertyIsEqualTo><ValueReference>m:nope</ValueReference><Literal>1</Literal></PropertyIsEqualTo>", REFUSED, "m:nope"),
    ("<PropertyIsEqualTo><Literal>x</Literal><ValueReference>m:size</ValueReference></PropertyIsEqualTo>", REFUSED, "m:size"),
    ("<PropertyIsEqualTo><ValueReference>size</ValueReference><ValueReference>m:label</ValueReference></PropertyIsEqualTo>", REFUSED, "m:label"),
    ("<PropertyIsEqualTo><ValueReference>m:place</ValueReference><Literal>1</Literal></PropertyIsEqualTo>", REFUSED, "m:place"),
    ("<PropertyIsLessThan><ValueReference>lit</ValueReference><Literal>true</Literal></PropertyIsLessThan>", REFUSED, "lit"),
    ("<PropertyIsBetween><ValueReference>lit</ValueReference></PropertyIsBetween>", REFUSED, "lit"),
    ("<PropertyIsBetween><ValueReference>size</ValueReference><LowerBoundary><Literal>a</Literal></LowerBoundary></PropertyIsBetween>", REFUSED, "size"),
    ('<PropertyIsLike wildCard="*" singleChar="." escapeChar="!"><ValueReference>size</ValueReference><Literal>a</Literal></PropertyIsLike>', REFUSED, "size"),
    ('<PropertyIsLike wildCard="*" singleChar="*" escapeChar="!"><ValueReference>none</ValueReference></PropertyIsLike>', OPTION, "escapeChar"),
    ('<PropertyIsLike wildCard="**" singleChar="." escapeChar="!"><ValueReference>none</ValueReference></PropertyIsLike>', OPTION, "escapeChar"),
    ('<PropertyIsLike wildCard="*" singleChar="." escapeChar="!"><ValueReference>label</ValueReference><Literal>a!</Literal></PropertyIsLike>', OPTION, "escapeChar"),
    ("<BBOX><ValueReference>label</ValueReference><gml:Envelope><gml:lowerCorner>0 1</gml:lowerCorner><gml:upperCorner>2 3</gml:upperCorner></gml:Envelope></BBOX>", REFUSED, "label"),
    ('<PropertyIsEqualTo><ValueReference>label</ValueReference><Literal type="a">1</Literal></PropertyIsEqualTo>', OPTION, "type"),
    ('<Or a="1"><PropertyIsNull><ValueReference>size</ValueReference></PropertyIsNull><PropertyIsNull><ValueReference>size</ValueReference></PropertyIsNull></Or>', OPTION, "a"),
    ('<PropertyIsEqualTo matchCase="1"><ValueReference>label</ValueReference><Literal>A</Literal></PropertyIsEqualTo>', OPTION, "matchCase"),
    ('<PropertyIsLike wildCard="*" singleChar="." escapeChar="!" a="1"><ValueReference>label</ValueReference><Literal>a</Literal></PropertyIsLike>', OPTION, "a"),
    ('<PropertyIsLike wildCard="!" singleChar="." escapeChar="!"><ValueReference>label</ValueReference><Literal>a</Literal></PropertyIsLike>', OPTION, "escapeChar"),
    ('<PropertyIsLike wildCard="*" singleChar="!" escapeChar="!"><ValueReference>label</ValueReference><Literal>a</Literal></PropertyIsLike>', OPTION, "escapeChar"),
    ('<PropertyIsBetween><ValueReference>size</ValueReference><LowerBoundary a="1"><Literal>1</Literal></LowerBoundary><UpperBoundary><Literal>2</Literal></UpperBoundary></PropertyIsBetween>', OPTION, "a"),
    ('<PropertyIsEqualTo a="1"><ValueReference>label</ValueReference><Literal>A</Literal></PropertyIsEqualTo>', OPTION, "a"),
    ('<PropertyIsLike wildCard="*" singleChar="." escapeChar="!"><ValueReference>label</ValueReference><Literal a="1">a</Literal></PropertyIsLike>', OPTION, "a"),
    ("<Not><PropertyIsNull><ValueReference>none</ValueReference></PropertyIsNull><PropertyIsNull><ValueReference>size</ValueReference></PropertyIsNull></Not>", REFUSED, "none"),
    ("<PropertyIsNull><ValueReference>none</ValueReference></PropertyIsNull><PropertyIsNull><ValueReference>size</ValueReference></PropertyIsNull>", REFUSED, "none"),
    ("<PropertyIsNull><ValueReference>none</ValueReference><Literal>1</Literal></PropertyIsNull>", REFUSED, "none"),
    ("<PropertyIsEqualTo><ValueReference>size</ValueReference><Literal>x</Literal><Literal>1</Literal></PropertyIsEqualTo>", REFUSED, "size"),
]

# Boxes and geometries.
GEOMETRIES = [
    ('<BBOX><gml:Envelope srsName="EPSG:4326"><gml:lowerCorner>0 1</gml:lowerCorner><gml:upperCorner>2 3</gml:upperCorner></gml:Envelope></BBOX>', REFUSED, "srsName"),
    ("<BBOX><gml:Envelope><gml:lowerCorner>9 9</gml:lowerCorner><gml:upperCorner>2 3</gml:upperCorner></gml:Envelope></BBOX>", MISPLACED, "Filter"),
    ("<BBOX><gml:Point><gml:pos>1 2</gml:pos></gml:Point></BBOX>", MISPLACED, "Filter"),
    ("<BBOX><ValueReference>place</ValueReference><ValueReference>place</ValueReference></BBOX>", MISPLACED, "Filter"),
    ("<Intersects><ValueReference>place</ValueReference><gml:Point><gml:pos>1 2.5</gml:pos></gml:Point></Intersects>", MISPLACED, "Filter"),
    ("<Disjoint><ValueReference>place</ValueReference><gml:Point><gml:pos>1 2</gml:pos></gml:Point><Literal/></Disjoint>", MISPLACED, "Literal"),
    ("<BBOX><gml:Box><gml:lowerCorner>0 1</gml:lowerCorner><gml:upperCorner>2 3</gml:upperCorner></gml:Box></BBOX>", MISPLACED, "Filter"),
]


@rows(("elements in a wrong place", MISPLACED_PARTS), ("options and names", REFUSED_PARTS), ("geometries", GEOMETRIES))
def test_the_first_fault_of_a_filter_is_named(table):
    with Folder(SCHEMA) as folder:
        all_refused(folder, by_post, table)
        all_refused(folder, by_get, table)


# A filter with its own element.
WHOLE = [
    (filter_of("<PropertyIsNull><ValueReference>size</ValueReference></PropertyIsNull>", ' a="1"'), OPTION, "a"),
    (filter_of(""), MISPLACED, "Filter"),
]


def test_what_the_element_of_a_filter_may_have():
    with Folder(SCHEMA) as folder:
        all_refused(folder, lambda text: request("GetFeature", '<wfs:Query typeNames="Mark">%s</wfs:Query>' % text), WHOLE)
        all_refused(folder, lambda text: by_get(text, whole=True), WHOLE)
