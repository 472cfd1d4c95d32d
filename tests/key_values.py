"""Requests as queries (OGC 09-025r2, sections 6.2.5.2 and 7 to 14; OGC 06-121r9, section 11.5): what each operation is asked by its
parameters, and the first fault that is named."""

from harness import Folder, get, same
from refusals import MISPLACED, MISSING, NO_QUERY, NO_VERSION, NOT_FREE, OPTION, REFUSED, UNKNOWN_LOCK, UNKNOWN_OPERATION, all_refused, refusal
from samples import SCHEMA, creation, described, found, inserted, lock_of, locked, mark, root, types, values

# After `service=WFS&request=`.
OPERATIONS = [
    ("GetCapabilities&acceptVersions=1.1.0", NO_VERSION, "acceptVersions"),
    ("GetCapabilities&acceptVersions=2.0,1.0.0", NO_VERSION, "acceptVersions"),
    ("GetCapabilities&acceptVersions=1.1.0&expiry=1&EXPIRY=1", MISPLACED, "expiry"),
    ("DescribeFeatureType&version=1.1.0&typeNames=Nope", REFUSED, "version"),
    ("DescribeFeatureType&typeNames=Mark,Nope&outputFormat=x", REFUSED, "typeNames"),
    ("DescribeFeatureType&typeNames=Mark,", REFUSED, "typeNames"),
    ("DescribeFeatureType&typeNames=Mark&outputFormat=x", REFUSED, "outputFormat"),
    ("DescribeFeatureType&valueReference=a&VALUEREFERENCE=b", MISPLACED, "valueReference"),
    ("GetFeature&storedQuery_id=q&sortBy=label", REFUSED, "sortBy"),
    ("GetFeature&storedQuery_id=q&bbox=1", REFUSED, "bbox"),
    ("GetFeature&storedQuery_id=q&resourceId=Mark.1&bbox=1,2,3,4", REFUSED, "bbox"),
    ("GetFeature&storedQuery_id=q&StoredQuery_Id=q", MISPLACED, "storedQuery_id"),
    ("GetFeature&storedQuery_id=q&srsName=x&propertyName=y", REFUSED, "srsName"),
    ("GetPropertyValue", MISSING, "valueReference"),
    ("GetPropertyValue&valueReference=label", MISSING, "typeNames"),
    ("GetPropertyValue&typeNames=Mark", MISSING, "valueReference"),
    ("GetPropertyValue&valueReference=label&resourceId=Mark.1", REFUSED, "valueReference"),
    ("GetPropertyValue&typeNames=Mark&valueReference=m:nope", REFUSED, "m:nope"),
    ("GetPropertyValue&typeNames=Mark&valueReference=nope&propertyName=x", OPTION, "propertyName"),
    ("GetPropertyValue&storedQuery_id=q", MISSING, "valueReference"),
    ("GetPropertyValue&typeNames=Nope&count=x", REFUSED, "count"),
    ("GetFeatureWithLock&resultType=hits", REFUSED, "resultType"),
    ("GetFeatureWithLock&expiry=0", REFUSED, "expiry"),
    ("GetFeatureWithLock&expiry=1&lockAction=all", REFUSED, "lockAction"),
    ("GetFeatureWithLock", MISSING, "typeNames"),
    ("GetFeatureWithLock&typeNames=Nope&expiry=0", REFUSED, "typeNames"),
    ("LockFeature", MISSING, "typeNames"),
    ("LockFeature&lockId=lock-01-1&expiry=0", UNKNOWN_LOCK, "lockId"),
    ("LockFeature&lockId=lock-1-1&expiry=0&typeNames=x", REFUSED, "expiry"),
    ("LockFeature&lockId=lock-1-1&lockAction=x&typeNames=Mark", REFUSED, "lockAction"),
    ("LockFeature&lockId=lock-1-1&typeName=Nope", REFUSED, "lockId"),
    ("LockFeature&lockId=lock-1-1&storedQuery_id=q", REFUSED, "lockId"),
    ("LockFeature&lockId=lock-1-1&srsName=x", REFUSED, "lockId"),
    ("LockFeature&lockId=lock-1-1&resourceId=x", REFUSED, "lockId"),
    ("LockFeature&lockId=lock-1-1&filter=x", REFUSED, "lockId"),
    ("LockFeature&lockId=lock-1-1&bbox=x", REFUSED, "lockId"),
    ("LockFeature&lockId=lock-1-1&sortBy=x", REFUSED, "lockId"),
    ("LockFeature&lockId=lock-1-1&propertyName=*", REFUSED, "lockId"),
    ("LockFeature&expiry=4294967296", REFUSED, "expiry"),
    ("ListStoredQueries&version=3", REFUSED, "version"),
    ("DropStoredQuery", MISSING, "storedQuery_id"),
    ("DropStoredQuery&storedQuery_id=urn:ogc:def:query:OGC-WFS::GetFeatureById", OPTION, "storedQuery_id"),
    ("DropStoredQuery&storedQuery_id=http://www.opengis.net/def/query/OGC-WFS/0/GetFeatureById", OPTION, "storedQuery_id"),
    ("GetFeature&typeNames=Nope&srsName=x", REFUSED, "typeNames"),
    ("GetPropertyValue&typeNames=Nope", REFUSED, "typeNames"),
    ("GetFeatureWithLock&typeNames=Nope&count=x", REFUSED, "count"),
    ("GetFeatureWithLock&expiry=0&lockAction=x", REFUSED, "expiry"),
    ("LockFeature&typeNames=Nope&expiry=0&lockAction=x", REFUSED, "expiry"),
    ("LockFeature&typeNames=Nope&lockAction=x", REFUSED, "lockAction"),
]

# Whole.
BASE = [
    ("", MISSING, "service"),
    ("request=Foo", MISSING, "service"),
    ("service=&request=GetFeature&typeNames=Mark", MISSING, "service"),
    ("service=wfs&request=Foo", REFUSED, "service"),
    ("service=WFS%20&request=GetFeature", REFUSED, "service"),
    ("service=WFS", MISSING, "request"),
    ("service=WFS&version=9", MISSING, "request"),
    ("service=WFS&request=Foo&version=9", UNKNOWN_OPERATION, "Foo"),
    ("service=WFS&request=getfeature", UNKNOWN_OPERATION, "getfeature"),
    ("service=WFS&request=Transaction", UNKNOWN_OPERATION, "Transaction"),
    ("service=WFS&request=CreateStoredQuery", UNKNOWN_OPERATION, "CreateStoredQuery"),
    ("service=WFS&request=GetCapabilities&bbox=1&BBOX=2", MISPLACED, "bbox"),
    ("SERVICE=WFS&service=WFS&request=Foo", MISPLACED, "service"),
]

# After `service=WFS&request=GetFeature&`.
FEATURES = [
    ("", MISSING, "typeNames"),
    ("typeNames=Nope", REFUSED, "typeNames"),
    ("typeNames=mark", REFUSED, "typeNames"),
    ("typeNames=+Mark", REFUSED, "typeNames"),
    ("typeName=Nope", REFUSED, "typeNames"),
    ("typeNames=m:n:Mark", REFUSED, "typeNames"),
    ("typeNames=Mark,Field", OPTION, "typeNames"),
    ("typeNames=Nope%2C", OPTION, "typeNames"),
    ("resourceId=", MISSING, "typeNames"),
    ("version=2.0.1&typeNames=Nope", REFUSED, "version"),
    ("version=1.1.0&count=x", REFUSED, "version"),
    ("typeNames=Nope&count=-1", REFUSED, "count"),
    ("typeNames=Mark&count=4294967296", REFUSED, "count"),
    ("typeNames=Mark&count=%2B1", REFUSED, "count"),
    ("typeNames=Mark&count=+1", REFUSED, "count"),
    ("typeNames=Mark&startIndex=1.0&count=1", REFUSED, "startIndex"),
    ("startIndex=x&count=y", REFUSED, "count"),
    ("typeNames=Mark&resultType=Hits&startIndex=x", REFUSED, "startIndex"),
    ("typeNames=Mark&resultType=Hits", REFUSED, "resultType"),
    ("typeNames=Nope&outputFormat=text/xml", REFUSED, "outputFormat"),
    ("outputFormat=application/gml+xml;%20version=3.2", REFUSED, "outputFormat"),
    ("typeNames=Nope&resolve=local", OPTION, "resolve"),
    ("storedQuery_id=x&typeNames=Nope", REFUSED, "typeNames"),
    ("storedQuery_id=x&resolve=all", OPTION, "resolve"),
    ("typeNames=Mark&srsName=EPSG:4326&propertyName=label", REFUSED, "srsName"),
    ("srsName=EPSG:4326", REFUSED, "srsName"),
    ("typeNames=Mark&filter=x&srsName=EPSG:4326", REFUSED, "srsName"),
    ("typeNames=Mark&filter=x&propertyName=label", MISPLACED, "filter"),
    ("sortBy=label", REFUSED, "sortBy"),
    ("typeNames=Mark&propertyName=label", OPTION, "propertyName"),
    ("propertyName=label", OPTION, "propertyName"),
    ("propertyName=*", MISSING, "typeNames"),
    ("typeName=Mark&typeName=Mark", MISPLACED, "typeNames"),
    ("TYPENAMES=Mark&typename=Field&COUNT=1&count=1", MISPLACED, "typeNames"),
    ("typeName=Mark&typeNames=Mark&typeNames=Mark", MISPLACED, "typeNames"),
    ("count=1&LOCKID=a&COUNT=1&lockid=a", MISPLACED, "count"),
]


def by_operation(query: str) -> bytes:
    return get("service=WFS&request=" + query)


def features_by(query: str) -> bytes:
    return get("service=WFS&request=GetFeature&" + query)


def test_the_first_fault_is_named():
    with Folder(SCHEMA) as folder:
        for message, table in ((by_operation, OPERATIONS), (get, BASE), (features_by, FEATURES)):
            all_refused(folder, message, table)


# ---- what is asked

PLACES = inserted(
    mark("B", 1, "1 2"),
    mark("A", 2, "3 4"),
    mark("C", None, "2 1"),
    mark("A", 1, "5 5"),
    mark("D", 3, "7 0"),
    mark("E", None, "-1 3"),
    mark("a b", 2),
    "<m:Field><m:name>x</m:name></m:Field><m:Field><m:name>y</m:name></m:Field>",
    "<m:Way><m:course><g:LineString><g:posList>0 5 1000000000 5</g:posList></g:LineString></m:course></m:Way>",
    "<m:Way><m:course><g:LineString><g:posList>-1000000000 -1000000000 0 0</g:posList></g:LineString></m:course></m:Way>",
)
ALL_MARKS = "Mark.1 Mark.2 Mark.3 Mark.4 Mark.5 Mark.6 Mark.7"
BUILT_IN = "urn:ogc:def:query:OGC-WFS::GetFeatureById"


def stored(name: str, *tests: str) -> str:
    """A stored query of the marks for which one of some tests is true: each is a property and the parameter that it is equal to."""
    pairs = [test.split("=") for test in tests]
    compared = "".join("<f:PropertyIsEqualTo><f:ValueReference>%s</f:ValueReference><f:Literal>${%s}</f:Literal></f:PropertyIsEqualTo>" % tuple(pair) for pair in pairs)
    compared = "<f:Or>%s</f:Or>" % compared if len(pairs) > 1 else compared
    parameters = "".join("<Parameter name='%s'/>" % pair[1] for pair in pairs)
    text = "<QueryExpressionText><Query typeNames='Mark'><f:Filter>%s</f:Filter></Query></QueryExpressionText>" % compared
    return "<StoredQueryDefinition id='%s'>%s%s</StoredQueryDefinition>" % (name, parameters, text)


STORED = creation(
    "".join(
        [
            stored("urn:q", "label=id"),
            stored("locks", "label=ID", "size=EXPIRY", "label=LOCKID"),
            stored("values", "label=valueReference"),
            stored("words", "label=handle", "size=acceptVersions"),
            stored("others", "size=id", "label=lockAction"),
            stored("lock", "label=lockId"),
            stored("count", "size=count"),
            stored("sized", "size=size"),
            stored("urn:q,r", "label=id"),
        ]
    )
)
STORED_IDS = "urn:q locks values words others lock count sized urn:q,r"


def matched(answer) -> int:
    same(found(answer), "", "what is only counted is not there")
    return answer.matched


def refused(answer) -> tuple:
    return answer.refusal


# After `service=WFS&request=`: what is asked, what its answer is looked at for, and what is there.
ASKED = [
    ("GetCapabilities", root, "wfs:WFS_Capabilities"),
    ("GetCapabilities&version=9", root, "wfs:WFS_Capabilities"),
    ("GetCapabilities&acceptVersions=1.1.0,2.0.0", root, "wfs:WFS_Capabilities"),
    ("GetCapabilities&acceptVersions=2.0.2&typeNames=Nope&count=x", root, "wfs:WFS_Capabilities"),
    ("GetCapabilities&ACCEPTVERSIONS=", root, "wfs:WFS_Capabilities"),
    ("DescribeFeatureType", types, "Mark Field Way Lamp"),
    ("DescribeFeatureType&typeNames=Way,m:Mark", types, "Way Mark"),
    ("DescribeFeatureType&typeName=Field,Field", types, "Field"),
    ("DescribeFeatureType&typeNames=Mark&outputFormat=text/xml;+subtype=gml/3.2&bbox=1", types, "Mark"),
    ("GetFeature&storedQuery_id=urn:q&id=C", found, "Mark.3"),
    # Names of parameters are compared without case, and of several values the first counts.
    ("GetFeature&STOREDQUERY_ID=locks&Id=A&iD=B&expiry=3&lockId=C&=y&z=&count=3", found, "Mark.2 Mark.3 Mark.4"),
    # What selects features has no effect beside a stored query.
    ("GetFeature&storedQuery_id=values&typeNames=Mark&bbox=1,2,3,4&sortBy=size&srsName=EPSG:25832&propertyName=*&valueReference=C", found, "Mark.3"),
    ("GetFeature&storedQuery_id=words&service=&handle=a+b&acceptVersions=3", found, "Mark.5 Mark.7"),
    ("GetPropertyValue&typeNames=Mark&valueReference=m:size", values, "1 2 1 3 2"),
    ("GetPropertyValue&typeNames=Mark&valueReference=place&resultType=hits&count=2", lambda answer: answer.matched, 6),
    ("GetPropertyValue&storedQuery_id=others&valueReference=label&id=1&lockAction=C", values, "B C A"),
    ("GetPropertyValue&storedQuery_id=others&valueReference=nope&id=1&lockAction=C", refused, refusal(REFUSED, "nope")),
    ("GetPropertyValue&storedQuery_id=none&valueReference=nope", refused, refusal(NO_QUERY, "storedQuery_id")),
    ("GetPropertyValue&storedQuery_id=count&valueReference=label&count=2", refused, refusal(MISSING, "count")),
    ("GetPropertyValue&storedQuery_id=sized&size=2&valueReference=label&count=2&startIndex=1", values, "a b"),
    ("GetPropertyValue&storedQuery_id=sized&size=2&valueReference=label&count=2&startIndex=1&resultType=hits", lambda answer: (values(answer), answer.matched), ("", 2)),
    ("ListStoredQueries&storedQuery_id=x&count=y", described, BUILT_IN + " " + STORED_IDS),
    ("DescribeStoredQueries", described, BUILT_IN + " " + STORED_IDS),
    ("DescribeStoredQueries&storedQuery_id=sized,locks,sized", described, "locks sized"),
    ("DropStoredQuery&storedQuery_id=urn:q,r", root, "wfs:DropStoredQueryResponse"),
    ("DescribeStoredQueries", described, BUILT_IN + " " + STORED_IDS[: -len(" urn:q,r")]),
]

# After `service=WFS&request=GetFeature&`.
CHOSEN = [
    ("typeNames=m:Mark", found, ALL_MARKS),
    ("typeNames=Field", found, "Field.1 Field.2"),
    ("typeNames=:Way", found, "Way.1 Way.2"),
    ("typeNames=x:Mark", found, ALL_MARKS),
    ("typeNames=m%3AMark&resultType=hits", matched, 7),
    ("typeNames=Mark&resultType=results", found, ALL_MARKS),
    ("typeName=Mark", found, ALL_MARKS),
    ("TYPENAME=Mark", found, ALL_MARKS),
    ("typenames=Mark&typename=Mark", found, ALL_MARKS),
    ("typeName=Mark&typeNames=Mark", found, ALL_MARKS),
    ("typeNames=&typeName=Way", found, "Way.1 Way.2"),
    ("resourceId=Mark.2,Mark.9", found, "Mark.2"),
    ("RESOURCEID=Mark.2%2CMark.9", found, "Mark.2"),
    ("resourceId=Mark.2,,Nope.1,Mark.02,Mark.2", found, "Mark.2"),
    ("resourceId=Way.2,Mark.2", found, "Mark.2 Way.2"),
    ("resourceId=nobody", found, ""),
    ("resourceId=,", found, ""),
    ("resourceId=Field.1&typeNames=Mark", found, ""),
    ("resourceId=Field.1&typeNames=Field", found, "Field.1"),
    ("resourceId=Mark.18446744073709551615", found, ""),
    ("resourceId=Mark.18446744073709551616", found, ""),
    ("resourceId=m:Mark.1", found, ""),
    ("typeNames=Mark&count=0&startIndex=0", matched, 7),
    ("typeNames=Mark&COUNT=4294967295&STARTINDEX=005", found, "Mark.6 Mark.7"),
    ("typeNames=Mark&count=&count=2", found, "Mark.1 Mark.2"),
    ("typeNames=Mark&version=2.0.0", found, ALL_MARKS),
    ("typeNames=Mark&VERSION=2.0.2&resolve=none&propertyName=*", found, ALL_MARKS),
    ("typeNames=Mark&outputFormat=application/gml%2Bxml;%20version%3D3.2", found, ALL_MARKS),
    ("typeNames=Mark&outputFormat=text/xml;+subtype=gml/3.2.1", found, ALL_MARKS),
    ("typeNames=Mark&srsName=urn:ogc:def:crs:EPSG::25832", found, ALL_MARKS),
    ("typeNames=Mark&srsName=EPSG%3a25832&resourceId=Mark.1", found, "Mark.1"),
    ("typeNames=Mark&handle=a&handle=b&foo&=x&foo=1&foo=2", found, ALL_MARKS),
    ("typeNames=Mark&valueReference=label&lockId=x&expiry=y", found, ALL_MARKS),
    ("&&typeNames=Mark&bbox=&filter&sortBy=&storedQuery_id=", found, ALL_MARKS),
]


def are_asked(message, table: list) -> None:
    with Folder(SCHEMA) as folder:
        answers = folder.ask(PLACES, STORED, *[message(row[0]) for row in table])[2:]
        for (query, look, wanted), answer in zip(table, answers):
            same(look(answer), wanted, query)


def test_what_each_operation_asks():
    are_asked(by_operation, ASKED)


def test_what_features_are_chosen():
    are_asked(features_by, CHOSEN)


# ---- locks: what each request answers, one after the other

TAKEN = [
    ("GetFeatureWithLock&typeNames=Mark&expiry=4294967295&lockAction=SOME&count=1", lambda answer: (found(answer), lock_of(answer)), ("Mark.1", "lock-1-1")),
    ("GetFeatureWithLock&typeNames=Mark", refused, refusal(NOT_FREE, "Mark.1")),
    ("GetFeatureWithLock&storedQuery_id=sized&size=2&count=2&startIndex=1", lambda answer: (found(answer), lock_of(answer)), ("Mark.7", "lock-1-2")),
    ("GetFeatureWithLock&storedQuery_id=lock&expiry=60&lockAction=ALL&lockId=C", lambda answer: (found(answer), lock_of(answer)), ("Mark.3", "lock-1-3")),
    ("LockFeature&typeNames=Field&expiry=5", locked, ("Field.1 Field.2", "")),
    ("LockFeature&resourceId=Mark.1,Mark.2&lockAction=SOME", locked, ("Mark.2", "Mark.1")),
    ("LockFeature&resourceId=Mark.1,Way.1", refused, refusal(NOT_FREE, "Mark.1")),
    ("LockFeature&storedQuery_id=count&count=3&expiry=20", locked, ("Mark.5", "")),
    ("LockFeature&lockId=lock-1-1", lambda answer: (locked(answer), lock_of(answer)), (("Mark.1", ""), "lock-1-1")),
    ("LockFeature&LOCKID=lock-1-3&expiry=7&lockAction=SOME&count=x", lambda answer: (locked(answer), lock_of(answer)), (("Mark.3", ""), "lock-1-3")),
    ("LockFeature&lockId=lock-1-2&filter=&typeNames=", locked, ("Mark.7", "")),
]


def test_what_a_lock_takes():
    are_asked(by_operation, TAKEN)
