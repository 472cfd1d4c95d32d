"""What Python's ElementTree says of the answers: it reads each of one session with all operations and refusals, of the demonstrations, and of the messages
of other tests."""

import os
import urllib.parse
import xml.etree.ElementTree as tree

import every_operation
import found
from harness import ROOT, Folder, get, insert, mark, request, rows, same
from worked import deleting, ids, setting, transaction


def asked(operation: str, **pairs: str) -> bytes:
    return get(urllib.parse.urlencode({"service": "WFS", "request": operation, **pairs}))


def placed(label: str, place: str) -> str:
    return mark(label, "<m:place><gml:Point><gml:pos>%s</gml:pos></gml:Point></m:place>" % place)


FIELD = "<m:Field><m:name>Mill &amp; weir</m:name><m:area><gml:Polygon><gml:exterior><gml:LinearRing><gml:posList>0 0 10 0 10 10 0 10 0 0</gml:posList></gml:LinearRing></gml:exterior></gml:Polygon></m:area></m:Field>"
WAY = "<m:Way><m:course><gml:LineString><gml:posList>0 0 5 5 9 1</gml:posList></gml:LineString></m:course></m:Way>"
ALL_MARKS = '<wfs:Query typeNames="m:Mark"/>'
SORTED = '<wfs:Query typeNames="m:Mark"><fes:SortBy><fes:SortProperty><fes:ValueReference>label</fes:ValueReference><fes:SortOrder>DESC</fes:SortOrder></fes:SortProperty></fes:SortBy></wfs:Query><wfs:Query typeNames="m:Field"/>'
LABEL = '<wfs:Query typeNames="m:Mark"><fes:Filter><fes:PropertyIsEqualTo><fes:ValueReference>label</fes:ValueReference><fes:Literal>${l}</fes:Literal></fes:PropertyIsEqualTo></fes:Filter></wfs:Query>'
DEFINITION = '<wfs:StoredQueryDefinition id="urn:x:by"><wfs:Title>By label</wfs:Title><wfs:Parameter name="l" type="xs:string"/><wfs:QueryExpressionText>%s</wfs:QueryExpressionText></wfs:StoredQueryDefinition>' % LABEL
BUILT_IN = "urn:ogc:def:query:OGC-WFS::GetFeatureById"

# What is asked, and the status of its answer.
MESSAGES = [
    (asked("GetCapabilities"), 200),
    (request("GetCapabilities"), 200),
    (asked("DescribeFeatureType"), 200),
    (request("DescribeFeatureType", "<wfs:TypeName>m:Way</wfs:TypeName>"), 200),
    (insert(placed("A", "1 2"), placed("B", "3 4"), FIELD, WAY), 200),
    (request("LockFeature", '<wfs:Query typeNames="m:Mark">%s</wfs:Query>' % ids("Mark.1"), 'expiry="600"'), 200),
    (request("LockFeature", ALL_MARKS), 409),
    (request("LockFeature", ALL_MARKS, 'lockAction="SOME"'), 200),
    (transaction(deleting("Mark.1")), 400),
    (transaction(setting("size", "7", ids("Mark.1")), lock_id="lock-1-1", release="SOME"), 200),
    (transaction("<wfs:Replace>%s%s</wfs:Replace>" % (placed("C", "8 8"), ids("Mark.2")), lock_id="lock-1-2"), 200),
    (asked("LockFeature", lockId="lock-1-9"), 400),
    (asked("GetFeatureWithLock", typeNames="Way"), 200),
    (request("GetFeature", SORTED), 200),
    (asked("GetFeature", typeNames="Mark", count="1"), 200),
    (asked("GetFeature", typeNames="Mark", startIndex="1", count="1"), 200),
    (asked("GetFeature", typeNames="Field", bbox="10,10,12,12"), 200),
    (asked("GetPropertyValue", typeNames="Mark", valueReference="size"), 200),
    (asked("GetPropertyValue", typeNames="Field", valueReference="area"), 200),
    (asked("GetPropertyValue", typeNames="Mark", valueReference="none"), 400),
    (asked("GetFeature", storedQuery_id=BUILT_IN, id="Field.1"), 200),
    (asked("GetFeature", storedQuery_id=BUILT_IN, id="Mark.9"), 404),
    (request("CreateStoredQuery", DEFINITION), 200),
    (request("CreateStoredQuery", DEFINITION), 409),
    (asked("ListStoredQueries"), 200),
    (asked("DescribeStoredQueries"), 200),
    (asked("GetFeature", storedQuery_id="urn:x:by", L="C"), 200),
    (asked("GetFeature", storedQuery_id="urn:x:by"), 400),
    (asked("DropStoredQuery", storedQuery_id="urn:x:by"), 200),
    (asked("DropStoredQuery", storedQuery_id="urn:x:by"), 400),
    # A name that no document may hold.
    (asked("\x00<"), 501),
]


def test_each_reply_of_a_session_is_a_document():
    with Folder() as folder:
        for (message, status), answered in zip(MESSAGES, folder.ask(*(it[0] for it in MESSAGES))):
            tree.fromstring(answered.body)
            same(answered.status, status, message.decode())


EVERY = every_operation
OF_OTHER_TESTS = {
    "every operation": [it[0] for part in (EVERY.CHANGES, EVERY.LOCKS, EVERY.ENDED_LOCKS, EVERY.READS, EVERY.STORED, EVERY.REST) for it in part],
    "queries that find": [found.ALL, *(found.find(it[0]) for it in found.BY_TYPE_AND_ID + found.BY_BOX + found.SORTED + found.BY_OTHER_OPERATORS)],
    "queries that are refused": [found.ALL, *(found.find(it[0]) for it in found.UNFIT)],
}


@rows(*((name, messages) for name, messages in OF_OTHER_TESTS.items()))
def test_replies_are_documents_to(messages):
    with Folder() as folder:
        for answered in folder.ask(*messages):
            tree.fromstring(answered.body)


DEMO = os.path.join(ROOT, "demo")
SESSIONS = sorted(it for it in os.listdir(DEMO) if it.endswith(".http"))


@rows(*((it, it) for it in SESSIONS))
def test_replies_are_documents_to_the_demonstration(name):
    with open(os.path.join(DEMO, name), "rb") as file, Folder() as folder:
        run = folder.talk(file.read())
        same((run.status, len(run.answers) > 0), (0, True))
        for answered in run.answers:
            if answered.body:
                tree.fromstring(answered.body)
