"""What chooses and sorts features in a request as a query (OGC 09-025r2, sections 6.2.5.3, 7.9.2 and 8; OGC 09-026r2, section 8.3): a box, a
filter, an order; and the first fault that is named."""

from urllib.parse import quote

from harness import Folder, same
from key_values import PLACES, features_by
from refusals import MISPLACED, MISSING, OPTION, REFUSED, all_refused
from samples import SCHEMA, found


def filter_of(content: str) -> str:
    """A filter as the value of a parameter."""
    return quote('<fes:Filter xmlns:fes="http://www.opengis.net/fes/2.0">%s</fes:Filter>' % content)


# After `service=WFS&request=GetFeature&`.
UNCHOSEN = [
    ("typeNames=Mark&bbox=1", REFUSED, "bbox"),
    ("typeNames=Mark&bbox=1,2,3", REFUSED, "bbox"),
    ("typeNames=Mark&bbox=1,2,3,4,5", REFUSED, "bbox"),
    ("typeNames=Mark&bbox=1,2,3,4,", REFUSED, "bbox"),
    ("typeNames=Mark&bbox=1,2,3,4,EPSG:4326", REFUSED, "bbox"),
    ("typeNames=Mark&bbox=1,2,3,4,EPSG:25832,5", REFUSED, "bbox"),
    ("typeNames=Mark&bbox=12.5,2,30,4", REFUSED, "bbox"),
    ("typeNames=Mark&bbox=1.,2,30,4", REFUSED, "bbox"),
    ("typeNames=Mark&bbox=1e1,2,30,4", REFUSED, "bbox"),
    ("typeNames=Mark&bbox=1,%202,3,4", REFUSED, "bbox"),
    ("typeNames=Mark&bbox=+1,2,3,4", REFUSED, "bbox"),
    ("typeNames=Mark&bbox=1,,3,4", REFUSED, "bbox"),
    ("typeNames=Mark&bbox=2,2,1,1", REFUSED, "bbox"),
    ("typeNames=Mark&bbox=1,5,3,4", REFUSED, "bbox"),
    ("typeNames=Way&bbox=1000000001,5,1000000001,5", REFUSED, "bbox"),
    ("typeNames=Way&bbox=-1000000001,5,5,5", REFUSED, "bbox"),
    ("bbox=1,2,3", REFUSED, "bbox"),
    ("bbox=1,2,3,4", MISSING, "typeNames"),
    ("typeNames=Mark&filter=x", MISPLACED, "filter"),
    ("typeNames=Mark&filter=" + quote('<fes:Filter><fes:ResourceId rid="Mark.1"/></fes:Filter>'), MISPLACED, "filter"),
    ("typeNames=Mark&filter=" + quote("<a>"), MISPLACED, "filter"),
    ("typeNames=Mark&filter=" + quote("<a/>"), MISPLACED, "a"),
    ("typeNames=Mark&filter=" + quote("<Filter/>"), MISPLACED, "Filter"),
    ("typeNames=Mark&filter=" + quote('<And xmlns="http://www.opengis.net/fes/2.0"/>'), MISPLACED, "And"),
    ("typeNames=Mark&filter=" + filter_of(""), MISPLACED, "Filter"),
    ("typeNames=Mark&filter=" + filter_of("<fes:During/>"), OPTION, "During"),
    ("typeNames=Mark&filter=" + filter_of("<fes:PropertyIsEqualTo><fes:ValueReference>nope</fes:ValueReference><fes:Literal>1</fes:Literal></fes:PropertyIsEqualTo>"), REFUSED, "nope"),
    ("typeNames=Mark&filter=" + filter_of("<fes:PropertyIsEqualTo><fes:ValueReference>m:nope</fes:ValueReference><fes:Literal>1</fes:Literal></fes:PropertyIsEqualTo>"), REFUSED, "m:nope"),
    ("typeNames=Field&filter=" + filter_of("<fes:PropertyIsEqualTo><fes:ValueReference>label</fes:ValueReference><fes:Literal>A</fes:Literal></fes:PropertyIsEqualTo>"), REFUSED, "label"),
    ("typeNames=Mark&filter=" + filter_of("<fes:PropertyIsEqualTo><fes:ValueReference>m:size</fes:ValueReference><fes:Literal>x</fes:Literal></fes:PropertyIsEqualTo>"), REFUSED, "m:size"),
    ("typeNames=Mark&filter=" + filter_of('<fes:BBOX><fes:ValueReference>place</fes:ValueReference><gml:Envelope xmlns:gml="http://www.opengis.net/gml/3.2" srsName="EPSG:4326"><gml:lowerCorner>1 2</gml:lowerCorner><gml:upperCorner>3 4</gml:upperCorner></gml:Envelope></fes:BBOX>'), REFUSED, "srsName"),
    ("filter=" + filter_of("<fes:PropertyIsEqualTo><fes:ValueReference>label</fes:ValueReference><fes:Literal>A</fes:Literal></fes:PropertyIsEqualTo>"), REFUSED, "label"),
    ("filter=" + filter_of('<fes:ResourceId rid="Mark.1"/>'), MISSING, "typeNames"),
    ("typeNames=Mark&resourceId=Mark.1&filter=" + filter_of('<fes:ResourceId rid="Mark.1"/>'), REFUSED, "filter"),
    ("resourceId=Mark.1&bbox=1,2,3,4", REFUSED, "bbox"),
    ("typeNames=Mark&bbox=1,2,3,4&filter=" + filter_of('<fes:ResourceId rid="Mark.1"/>'), REFUSED, "bbox"),
    ("typeNames=Mark&bbox=1,2,3,4&resourceId=Mark.1&filter=" + filter_of('<fes:ResourceId rid="Mark.1"/>') + "&sortBy=nope", REFUSED, "bbox"),
    ("typeNames=Mark&resourceId=Mark.1&filter=x", MISPLACED, "filter"),
    ("typeNames=Mark&bbox=2,2,1,1&filter=x", MISPLACED, "filter"),
    ("typeNames=Mark&sortBy=x&filter=" + filter_of("<fes:PropertyIsEqualTo><fes:ValueReference>y</fes:ValueReference><fes:Literal>1</fes:Literal></fes:PropertyIsEqualTo>"), REFUSED, "y"),
    ("resourceId=Mark.1&sortBy=label", REFUSED, "sortBy"),
    ("sortBy=label&propertyName=label", REFUSED, "sortBy"),
    ("typeNames=Mark&sortBy=label&propertyName=label", OPTION, "propertyName"),
    ("typeNames=Mark&sortBy=place", REFUSED, "sortBy"),
    ("typeNames=Mark&sortBy=label,m:place%20DESC", REFUSED, "sortBy"),
    ("typeNames=Field&sortBy=label", REFUSED, "label"),
    ("typeNames=Mark&sortBy=m:nope%20DESC", REFUSED, "m:nope"),
    ("typeNames=Mark&sortBy=label%20desc", REFUSED, "sortBy"),
    ("typeNames=Mark&sortBy=label%20%20ASC", REFUSED, "sortBy"),
    ("typeNames=Mark&sortBy=label%20ASC+", REFUSED, "sortBy"),
    ("typeNames=Mark&sortBy=label+", REFUSED, "sortBy"),
    ("typeNames=Mark&sortBy=nope%20up", REFUSED, "nope"),
    ("typeNames=Mark&sortBy=label%20up,nope", REFUSED, "sortBy"),
    ("typeNames=Mark&sortBy=label,", REFUSED, ""),
    ("typeNames=Mark&sortBy=+label", REFUSED, ""),
]


def test_the_first_fault_is_named():
    with Folder(SCHEMA) as folder:
        all_refused(folder, features_by, UNCHOSEN)


# What is asked, and the numbers of the marks, ways or fields that are found, in their order.
CHOSEN = [
    ("typeNames=Mark&bbox=1,2,3,4", "1 2"),
    ("typeNames=Mark&BBOX=1%2C2%2C3%2C4", "1 2"),
    ("typeNames=Mark&bbox=1,2,3,4,EPSG:25832", "1 2"),
    ("typeNames=Mark&srsName=EPSG:25832&bbox=1,2,3,4,urn:ogc:def:crs:EPSG::25832", "1 2"),
    ("typeNames=Mark&bbox=1,2,3,4,urn:ogc:def:crs,crs:EPSG::25832", "1 2"),
    ("typeNames=Mark&bbox=-1,%2B2,3.0,4.000", "1 2 6"),
    ("typeNames=Mark&bbox=007,-0,8,00", "5"),
    ("typeNames=Mark&bbox=5,5,5,5", "4"),
    ("typeNames=Mark&bbox=5,1,5,9", "4"),
    ("typeNames=Way&bbox=1000000000,5,1000000000,5", "1"),
    ("typeNames=Way&bbox=-1000000000,-1000000000,1000000000,1000000000", "1 2"),
    ("typeNames=Mark&filter=" + filter_of('<fes:ResourceId rid="Mark.2"/>'), "2"),
    ("typeNames=Mark&FILTER=" + filter_of("\n <fes:PropertyIsEqualTo><fes:ValueReference>size</fes:ValueReference><fes:Literal>1</fes:Literal></fes:PropertyIsEqualTo>\n"), "1 4"),
    ("filter=" + quote('<?xml version="1.0"?><Filter xmlns="http://www.opengis.net/fes/2.0"><Not><PropertyIsNull><ValueReference>m:size</ValueReference></PropertyIsNull></Not></Filter>') + "&typeName=m:Mark", "1 2 4 5 7"),
    ("typeNames=Mark&filter=" + quote('<Filter xmlns="http://www.opengis.net/fes/2.0"><PropertyIsNull><ValueReference>place</ValueReference></PropertyIsNull></Filter>').replace("%20", "+"), "7"),
    ("typeNames=Mark&filter=" + filter_of('<fes:BBOX><fes:ValueReference>place</fes:ValueReference><gml:Envelope xmlns:gml="http://www.opengis.net/gml/3.2"><gml:lowerCorner>1 2</gml:lowerCorner><gml:upperCorner>3 4</gml:upperCorner></gml:Envelope></fes:BBOX>'), "1 2"),
    ("typeNames=Field&filter=" + filter_of('<fes:ResourceId rid="Field.1"/><fes:ResourceId rid="Nope.1"/><fes:ResourceId rid="${id}"/>'), "1"),
    ("typeNames=Mark&sortBy=label", "2 4 1 3 5 6 7"),
    ("typeNames=Mark&sortBy=label%20ASC", "2 4 1 3 5 6 7"),
    ("typeNames=Mark&sortBy=size+DESC", "5 2 7 1 4 3 6"),
    ("typeNames=m:Mark&sortBy=m:size%20DESC,m:label", "5 2 7 4 1 3 6"),
    ("typeNames=Mark&SORTBY=x:size%2C:label+DESC", "6 3 1 4 7 2 5"),
    ("typeNames=Mark&sortBy=label,label%20DESC", "2 4 1 3 5 6 7"),
    ("typeNames=Mark&sortBy=size%20DESC&bbox=1,2,3,4", "2 1"),
    ("typeNames=Field&resourceId=Field.1,Field.2&sortBy=name%20DESC", "2 1"),
]


def test_what_is_chosen_in_its_order():
    with Folder(SCHEMA) as folder:
        answers = folder.ask(PLACES, *[features_by(query) for query, _ in CHOSEN])[1:]
        for (query, wanted), answer in zip(CHOSEN, answers):
            same(" ".join(it.split(".")[1] for it in found(answer).split()), wanted, query)
