"""One session in which every operation is served, each answer byte by byte as the formats have it."""

import time

from bodies import FEATURES, START, WFS, answer, at_one_moment, collection, feature, locked, refusal, transacted, types
from harness import Folder, TWO_MARKS, get, mark, request, same
from worked import BY_LABEL, deleting, find, ids, lock, setting, transaction

SERVICE = "service=WFS&request="
ADDRESS = "http://localhost:8080/wfs"
BUILT_IN = "urn:ogc:def:query:OGC-WFS::GetFeatureById"
BY_ID = find("storedQuery_id=%s&id=Mark.2" % BUILT_IN)
# Answers that say that all is well, and nothing more.
CREATED = answer(START + '<wfs:CreateStoredQueryResponse%s status="OK"/>' % WFS)
DROPPED = answer(START + '<wfs:DropStoredQueryResponse%s status="OK"/>' % WFS)
SPACE = ' xmlns:m="http://example.org/marks"'


def all_marks(attributes: str = "") -> bytes:
    """A LockFeature by a document."""
    return request("LockFeature", '<wfs:Query typeNames="m:Mark"/>', attributes)


def link(rel: str, operation: str, query: str) -> str:
    return ' %s="%s?service=WFS&amp;request=%s&amp;%s"' % (rel, ADDRESS, operation, query.replace("&", "&amp;"))


def bare(rid: str, values: str) -> str:
    """A feature by itself, which declares the names that it uses."""
    spaces = ' xmlns:gml="http://www.opengis.net/gml/3.2"' + SPACE
    return answer('%s<m:Mark%s gml:id="%s">%s</m:Mark>' % (START, spaces, rid, values), FEATURES)


CHANGES = [
    (TWO_MARKS, answer(transacted(["Mark.1", "Mark.2"]))),
    (
        transaction(setting("size", "7", ids("Mark.1")).replace("<wfs:Update", '<wfs:Update handle="u"'), "<wfs:Replace>%s%s</wfs:Replace>" % (mark("C"), ids("Mark.2"))),
        answer(transacted(updated=[("u", "Mark.1")], replaced=["Mark.2"])),
    ),
]

LOCKS = [
    (request("LockFeature", '<wfs:Query typeNames="m:Mark">%s</wfs:Query>' % ids("Mark.1"), 'expiry="60"'), answer(locked("lock-1-1", ["Mark.1"]))),
    (transaction(setting("size", "8", ids("Mark.1"))), refusal("feature is locked", "lockId")),
    (transaction(setting("size", "5", ids("Mark.2")), lock_id="lock-1-1", release="SOME"), answer(transacted(updated=["Mark.2"]))),
    (all_marks(), refusal("not all are free", "Mark.1")),
    (all_marks('lockAction="SOME"'), answer(locked("lock-1-2", ["Mark.2"], ["Mark.1"]))),
    (transaction(setting("size", "9", ids("Mark.2")), lock_id="lock-1-1"), refusal("feature is locked by another", "Mark.2")),
    (lock("lockId=lock-1-9"), refusal("unknown lock", "lockId")),
    (lock("lockId=lock-1-1&expiry=1"), answer(locked("lock-1-1", ["Mark.1"]))),
]

# More than a second later.
ENDED_LOCKS = [
    (transaction(deleting("Mark.1"), lock_id="lock-1-1"), refusal("lock has expired", "lockId")),
    (transaction(lock_id="lock-1-2"), answer(transacted())),
    (all_marks(), answer(locked("lock-1-3", ["Mark.1", "Mark.2"]))),
    (all_marks('lockAction="SOME"'), answer(locked(free=["Mark.1", "Mark.2"]))),
]

READS = [
    (find("typeNames=Mark&count=1"), answer(collection(2, feature("Mark.1", label="A", size="7"), more=link("next", "GetFeature", "typeNames=Mark&startIndex=1&count=1")), FEATURES)),
    (
        get(SERVICE + "GetPropertyValue&typeNames=Mark&valueReference=label&count=1"),
        answer(collection(2, "<m:label>A</m:label>", name="ValueCollection", more=link("next", "GetPropertyValue", "typeNames=Mark&valueReference=label&startIndex=1&count=1")), FEATURES),
    ),
    (BY_ID, bare("Mark.2", "<m:label>C</m:label><m:size>5</m:size>")),
    # One feature is no page, whatever the page would be.
    (find("storedQuery_id=%s&id=Mark.2&startIndex=1&count=0" % BUILT_IN), bare("Mark.2", "<m:label>C</m:label><m:size>5</m:size>")),
    (find("storedQuery_id=%s&id=Mark.9" % BUILT_IN), refusal("no such feature", "id")),
]

LISTED = '%s<wfs:ListStoredQueriesResponse%s%s><wfs:StoredQuery id="%s">%s</wfs:StoredQuery><wfs:StoredQuery id="urn:x:by">%s</wfs:StoredQuery></wfs:ListStoredQueriesResponse>' % (
    START,
    WFS,
    SPACE,
    BUILT_IN,
    "".join("<wfs:ReturnFeatureType>m:%s</wfs:ReturnFeatureType>" % it for it in ("Mark", "Field", "Way")),
    "<wfs:ReturnFeatureType>m:Mark</wfs:ReturnFeatureType>",
)
TEXT = '<wfs:Query xmlns:wfs="http://www.opengis.net/wfs/2.0" xmlns:fes="http://www.opengis.net/fes/2.0" xmlns:gml="http://www.opengis.net/gml/3.2" xmlns:m="http://example.org/marks" typeNames="m:Mark"><fes:Filter><fes:PropertyIsEqualTo><fes:ValueReference>m:label</fes:ValueReference><fes:Literal>${l}</fes:Literal></fes:PropertyIsEqualTo></fes:Filter></wfs:Query>'
DESCRIBED = (
    START
    + '<wfs:DescribeStoredQueriesResponse%s%s xmlns:xs="http://www.w3.org/2001/XMLSchema"><wfs:StoredQueryDescription id="urn:x:by"><wfs:Parameter name="l" type="xs:string"/><wfs:QueryExpressionText returnFeatureTypes="m:Mark" language="urn:ogc:def:queryLanguage:OGC-WFS::WFS_QueryExpression" isPrivate="false">%s</wfs:QueryExpressionText></wfs:StoredQueryDescription></wfs:DescribeStoredQueriesResponse>'
    % (WFS, SPACE, TEXT)
)

STORED = [
    (BY_LABEL, CREATED),
    (BY_LABEL, refusal("query exists", "urn:x:by")),
    (find("storedQuery_id=urn:x:by&L=C"), answer(collection(1, feature("Mark.2", label="C", size="5")), FEATURES)),
    (find("storedQuery_id=urn:x:by"), refusal("value missing", "l")),
    (get(SERVICE + "ListStoredQueries"), answer(LISTED)),
    (get(SERVICE + "DescribeStoredQueries&storedQuery_id=urn:x:by"), answer(DESCRIBED)),
    (get(SERVICE + "DropStoredQuery&storedQuery_id=urn:x:by"), DROPPED),
    (get(SERVICE + "DropStoredQuery&storedQuery_id=urn:x:by"), refusal("no such query", "storedQuery_id")),
]


def capabilities() -> str:
    """The capabilities: the operations in the order of the standard's table, those that a query can ask for with their Get."""
    posted = {"Transaction", "CreateStoredQuery"}
    names = "GetCapabilities DescribeFeatureType GetPropertyValue GetFeature GetFeatureWithLock LockFeature Transaction ListStoredQueries DescribeStoredQueries CreateStoredQuery DropStoredQuery".split()
    gets = {name: "" if name in posted else '<ows:Get xlink:href="%s?"/>' % ADDRESS for name in names}
    operations = "".join('<ows:Operation name="%s"><ows:DCP><ows:HTTP>%s<ows:Post xlink:href="%s"/></ows:HTTP></ows:DCP></ows:Operation>' % (name, gets[name], ADDRESS) for name in names)
    kind = "<wfs:FeatureType><wfs:Name>m:%s</wfs:Name><wfs:Title>%s</wfs:Title><wfs:DefaultCRS>urn:ogc:def:crs:EPSG::25832</wfs:DefaultCRS><wfs:OtherCRS>EPSG:25832</wfs:OtherCRS></wfs:FeatureType>"
    kinds = "".join(kind % (name, name) for name in ("Mark", "Field", "Way"))
    spaces = WFS + ' xmlns:ows="http://www.opengis.net/ows/1.1" xmlns:xlink="http://www.w3.org/1999/xlink"' + SPACE
    service = "<ows:ServiceIdentification><ows:Title>Marks</ows:Title><ows:ServiceType>WFS</ows:ServiceType><ows:ServiceTypeVersion>2.0.2</ows:ServiceTypeVersion></ows:ServiceIdentification>"
    rest = "<ows:OperationsMetadata>%s</ows:OperationsMetadata><wfs:FeatureTypeList>%s</wfs:FeatureTypeList>" % (operations, kinds)
    return '%s<wfs:WFS_Capabilities%s version="2.0.2">%s%s</wfs:WFS_Capabilities>' % (START, spaces, service, rest)


CHUNKED = b"".join(b"%x\r\n%s\r\n" % (len(it), it) for it in [TWO_MARKS.split(b"\r\n\r\n", 1)[1][:100], TWO_MARKS.split(b"\r\n\r\n", 1)[1][100:]])

REST = [
    (get(SERVICE + "GetCapabilities"), answer(capabilities())),
    (request("GetCapabilities"), answer(capabilities())),
    (get(SERVICE + "DescribeFeatureType"), answer(types("Mark", "Field", "Way"), FEATURES)),
    (b"POST /wfs HTTP/1.1\r\nHost: h\r\nTransfer-Encoding: chunked\r\n\r\n" + CHUNKED + b"0\r\n\r\n", answer(transacted(["Mark.3", "Mark.4"]))),
    (
        get(SERVICE + "GetFeatureWithLock&typeNames=Mark&startIndex=2&expiry=9"),
        answer(collection(4, feature("Mark.3", label="A"), feature("Mark.4", label="B"), more=' lockId="lock-1-4"'), FEATURES),
    ),
]


def test_every_operation_is_served():
    with Folder() as folder, folder.serve() as server, server.connect() as connection:
        for part in (CHANGES, LOCKS, ENDED_LOCKS, READS, STORED, REST):
            if part is ENDED_LOCKS:
                time.sleep(1.05)
            for message, wanted in part:
                same(at_one_moment(written(connection, message)), wanted, message.decode())


def written(connection, message: bytes) -> bytes:
    """The bytes of the answer to a message."""
    came = connection.ask(message)
    head = "\r\n".join([came.line] + ["%s: %s" % it for it in came.fields.items()])
    return (head + "\r\n\r\n" + came.body).encode()
