"""Sessions on one connection: what each message is answered, how a session ends, and what the order of its messages changes."""

import os
import subprocess
import time

from bodies import FEATURES, START, answer, collection, feature, locked, refusal, refused, says, transacted, types
from harness import CUT, DONE, LONGEST, PROGRAM, READ_FAULT, TWO_MARKS, UNFRAMED, WRITE_FAULT, Folder, get, hits, insert, mark, post, request, rows, same
from worked import deleting, find, ids, lock, matched, query, setting, totals, transaction

TWO_INSERTED = answer(transacted(["Mark.1", "Mark.2"]))
POINT = "<m:place><gml:Point><gml:pos>%s</gml:pos></gml:Point></m:place>"
WAY = "<m:Way><m:course><gml:LineString><gml:posList>%s</gml:posList></gml:LineString></m:course></m:Way>"
FIELD = "<m:Field><m:area><gml:Polygon><gml:exterior><gml:LinearRing><gml:posList>%s</gml:posList></gml:LinearRing></gml:exterior></gml:Polygon></m:area></m:Field>"


def session(messages: list, *wanted: str, status: int = DONE) -> None:
    """That a session in a new folder is answered so, byte by byte, and ends with this status."""
    with Folder() as folder:
        says(folder.talk(*messages), *wanted, status=status)


# ---- answers


def test_what_is_inserted_is_read_on_the_same_connection():
    found = collection(1, feature("Mark.2", label="B"))
    session([TWO_MARKS, find("resourceId=Mark.2,Mark.9")], TWO_INSERTED, answer(found, FEATURES))


def test_a_point_goes_in_and_comes_out_in_one_spelling():
    place = '<gml:Point gml:id="Mark.1.place" srsName="urn:ogc:def:crs:EPSG::25832"><gml:pos>12 7</gml:pos></gml:Point>'
    found = collection(1, feature("Mark.1", label="A", place=place))
    asked = get("SERVICE=WFS&REQUEST=GetFeature&TYPENAMES=m:Mark")
    session([insert(mark("A", POINT % "12.0 7")), asked], answer(transacted(["Mark.1"])), answer(found, FEATURES))


@rows(
    ("a shell of three positions", insert(FIELD % "0 0 10 0 0 0"), "area"),
    ("a coordinate with a fraction", insert(mark("A", POINT % "12.5 7")), "place"),
    ("a property that the type has not", insert("<m:Mark><m:sort>A</m:sort></m:Mark>"), "sort"),
)
def test_a_feature_does_not_fit(message, locator):
    session([message, hits()], refusal("value does not fit", locator), answer(collection(0), FEATURES))


def test_shapes_meet_where_they_share_a_point():
    meets = "<fes:Intersects><fes:ValueReference>%s</fes:ValueReference>%s</fes:Intersects>"
    line = "<gml:LineString><gml:posList>%s</gml:posList></gml:LineString>"
    place = "<gml:Point><gml:pos>3 3</gml:pos></gml:Point>"
    holed = (FIELD % "0 0 10 0 10 10 0 10 0 0").replace("</gml:exterior>", "</gml:exterior><gml:interior><gml:LinearRing><gml:posList>2 2 4 2 4 4 2 4 2 2</gml:posList></gml:LinearRing></gml:interior>")
    asked = [
        query(meets % ("course", line % "0 2 2 0"), "Way"),
        query(meets % ("area", line % "10 10 12 12"), "Field"),
        query(meets % ("area", place), "Field"),
    ]
    with Folder() as folder:
        same(matched(folder.ask(insert(holed, WAY % "0 0 5 5"), *asked)[1:]), [1, 1, 0])


def test_properties_are_set_in_order_and_replaced_as_a_whole():
    sets = "".join("<wfs:Property><wfs:ValueReference>%s</wfs:ValueReference><wfs:Value>%s</wfs:Value></wfs:Property>" % it for it in [("size", "7"), ("label", "Q"), ("size", "8")])
    replaced = "<wfs:Replace>%s%s</wfs:Replace>" % (mark("Z"), ids("Mark.1"))
    asked = transaction('<wfs:Update typeName="m:Mark">%s</wfs:Update>' % sets, replaced)
    found = collection(2, feature("Mark.1", label="Z"), feature("Mark.2", label="Q", size="8"))
    changed = transacted(updated=["Mark.1", "Mark.2"], replaced=["Mark.1"])
    session([TWO_MARKS, asked, find("typeNames=Mark")], TWO_INSERTED, answer(changed), answer(found, FEATURES))


def test_an_update_without_a_filter_takes_the_whole_type():
    replaced = "<wfs:Replace>%s%s</wfs:Replace>" % (mark("Z"), ids("Mark.1"))
    with Folder() as folder:
        _, both, found = folder.ask(TWO_MARKS, transaction(setting("size", "5"), replaced), find("typeNames=Mark"))
        same(totals(both), (0, 2, 1, 0))
        same(feature("Mark.1", label="Z") in found.body and feature("Mark.2", label="B", size="5") in found.body, True)


def test_deletes_and_locators_are_of_their_own_type():
    # The way has a lock, and would pass the filter of the Delete of marks. It is not deleted, and so its lock does not count.
    but = "<wfs:Delete typeName=\"m:Mark\"><fes:Filter><fes:Not><fes:ResourceId rid=\"Mark.9\"/></fes:Not></fes:Filter></wfs:Delete>"
    asked = [insert(mark("A"), WAY % "0 0 5 5"), lock("resourceId=Way.1"), lock("typeNames=Way"), transaction(but)]
    session(asked, answer(transacted(["Mark.1", "Way.1"])), answer(locked("lock-1-1", ["Way.1"])), refusal("not all are free", "Way.1"), answer(transacted(deleted=1)))


def test_pages_with_a_lock_are_collections_without_links():
    held = "service=WFS&request=GetFeatureWithLock&"
    asked = [get(held + "storedQuery_id=urn:ogc:def:query:OGC-WFS::GetFeatureById&id=Mark.2"), get(held + "typeNames=Mark&count=1")]
    by_id = collection(1, feature("Mark.2", label="B"), more=' lockId="lock-1-1"')
    page = collection(2, feature("Mark.1", label="A"), more=' lockId="lock-1-2"')
    session([TWO_MARKS, *asked], TWO_INSERTED, answer(by_id, FEATURES), answer(page, FEATURES))


def test_a_page_locks_what_it_shows():
    page = "service=WFS&request=GetFeatureWithLock&typeNames=Mark&count=1"
    asked = [lock("resourceId=Mark.9&startIndex=x"), get(page), get(page + "&lockAction=SOME")]
    took = collection(2, feature("Mark.1", label="A"), more=' lockId="lock-1-1"')
    session([TWO_MARKS, *asked], TWO_INSERTED, answer(locked()), answer(took, FEATURES), answer(collection(2), FEATURES))


def test_a_renewal_tells_what_the_lock_holds():
    both = answer(locked("lock-1-1", ["Mark.1", "Mark.2"]))
    session([TWO_MARKS, lock("typeNames=Mark"), lock("lockId=lock-1-1")], TWO_INSERTED, both, both)


def test_a_renewal_lets_a_lock_live_longer():
    with Folder() as folder, folder.serve() as server:
        server.ask(TWO_MARKS, lock("resourceId=Mark.1&expiry=2"), lock("resourceId=Mark.2&expiry=1"))
        time.sleep(0.9)
        server.ask(lock("lockId=lock-1-1&expiry=60"))
        time.sleep(1.2)
        renewed, ended = server.ask(transaction(deleting("Mark.1"), lock_id="lock-1-1"), lock("lockId=lock-1-2"))
        same(totals(renewed), (0, 0, 0, 1))
        same(ended.refusal, refused("lock has expired", "lockId"))


def test_lock_identifiers_have_no_leading_zero():
    with Folder() as folder:
        for answered in folder.ask(TWO_MARKS, *map(lambda it: lock("lockId=" + it), ["lock-01-1", "lock-1-0", "lock-1-9"]))[1:]:
            same(answered.refusal, refused("unknown lock", "lockId"))


def test_types_stand_in_the_order_asked():
    session([get("service=WFS&request=DescribeFeatureType&typeNames=Way,Field")], answer(types("Way", "Field"), FEATURES))


def test_values_are_of_the_type_of_the_first_query():
    both = '<wfs:StoredQueryDefinition id="urn:x:all"><wfs:QueryExpressionText><wfs:Query typeNames="m:Mark"/><wfs:Query typeNames="m:Field"/></wfs:QueryExpressionText></wfs:StoredQueryDefinition>'
    asked = [insert(mark("A"), "<m:Field><m:name>north</m:name></m:Field>"), request("CreateStoredQuery", both)]
    asked.append(get("service=WFS&request=GetPropertyValue&storedQuery_id=urn:x:all&valueReference=label"))
    created = START + '<wfs:CreateStoredQueryResponse xmlns:wfs="http://www.opengis.net/wfs/2.0" status="OK"/>'
    values = collection(1, "<m:label>A</m:label>", name="ValueCollection")
    session(asked, answer(transacted(["Mark.1", "Field.1"])), answer(created), answer(values, FEATURES))


def test_values_leave_out_nulls():
    asked = "service=WFS&request=GetPropertyValue&typeNames=Mark&valueReference=%s&count=1"
    link = ' next="http://localhost:8080/wfs?service=WFS&amp;request=GetPropertyValue&amp;typeNames=Mark&amp;valueReference=label&amp;startIndex=1&amp;count=1"'
    labels = collection(2, "<m:label>A</m:label>", more=link, name="ValueCollection")
    sizes = collection(0, name="ValueCollection")
    session([TWO_MARKS, get(asked % "label"), get(asked % "size")], TWO_INSERTED, answer(labels, FEATURES), answer(sizes, FEATURES))


# ---- refusals and ends


@rows(
    ("an unknown type", find("typeNames=Nope"), "value refused", "typeNames"),
    ("an unknown path", b"GET /x HTTP/1.1\r\n\r\n", "unknown path", "path"),
    ("an unknown method", b"PUT /wfs HTTP/1.1\r\nContent-Length: 0\r\n\r\n", "unknown method", "method"),
    ("a path before a method", b"PUT /x HTTP/1.1\r\nContent-Length: 0\r\n\r\n", "unknown path", "path"),
    ("a path with an escape, and a bad document", b"POST /%77fs HTTP/1.1\r\nContent-Length: 1\r\n\r\nx", "bad document", "document"),
)
def test_refused_by_its_first_fault(message, text, locator):
    session([message], refusal(text, locator))


def test_a_document_of_one_letter_is_refused_in_280_bytes():
    bad = refusal("bad document", "document")
    same(len(bad.split("\r\n\r\n", 1)[1]), 280)
    session([post("x")], bad)


def test_a_session_ends_with_the_answer_that_closes_it():
    closing = post(TWO_MARKS.split(b"\r\n\r\n", 1)[1], fields="Connection: close\r\n")
    session([closing, closing], answer(transacted(["Mark.1", "Mark.2"]), closes=True))
    session([b"G(T /x"], refusal("bad message head", "head", closes=True), status=UNFRAMED)


def test_a_bad_head_is_bad_and_not_too_long():
    bad = b"GET /wfs HTTP/1.1\r\na b: " + b"x" * 20_000
    session([bad], refusal("bad message head", "head", closes=True), status=UNFRAMED)


def test_a_body_is_asked_for_and_a_message_may_be_cut():
    expecting = post(TWO_MARKS.split(b"\r\n\r\n", 1)[1], fields="Expect: 100-continue\r\n")
    cut = b"POST /wfs HTTP/1.1\r\nContent-Length: 200\r\n\r\n0123456789"
    session([expecting, cut], "HTTP/1.1 100 Continue\r\n\r\n", TWO_INSERTED, status=CUT)


def test_an_output_that_cannot_be_written_has_its_status():
    with Folder() as folder:
        folder.write("messages", TWO_MARKS)
        with open(folder.file("messages"), "rb") as file, open("/dev/full", "wb") as full:
            ended = subprocess.run([PROGRAM, "talk", folder.path], stdin=file, stdout=full, timeout=LONGEST, check=False)
        same(ended.returncode, WRITE_FAULT)
        # It was carried out, though nobody was told.
        same(folder.ask(hits())[0].matched, 2)


def test_an_input_that_cannot_be_read_has_its_status():
    with Folder() as folder:
        # A folder can be opened, but no byte of it can be read.
        folder_itself = os.open(folder.path, os.O_RDONLY)
        ended = subprocess.run([PROGRAM, "talk", folder.path], stdin=folder_itself, stdout=subprocess.PIPE, timeout=LONGEST, check=False)
        os.close(folder_itself)
        same((ended.returncode, ended.stdout), (READ_FAULT, b""))


# ---- several connections


def test_two_connections_insert_one_mark_each():
    with Folder() as folder:
        with folder.serve(workers=2) as server:
            with server.connect() as one, server.connect() as other:
                inserted = [one.ask(insert(mark("A"))), other.ask(insert(mark("A")))]
                same([it.ids for it in inserted], [["Mark.1"], ["Mark.2"]])
        same(folder.ask(hits())[0].matched, 2)


def test_a_connection_that_changes_nothing_sees_what_another_was_answered():
    with Folder() as folder, folder.serve(workers=2) as server, server.connect() as reads, server.connect() as writes:
        same(reads.ask(hits()).matched, 0)
        writes.ask(insert(mark("A")))
        same(reads.ask(hits()).matched, 1)


def test_a_session_finds_what_the_one_before_it_inserted():
    with Folder() as folder, folder.serve(workers=1) as server:
        same(server.ask(insert(mark("A")))[0].ids, ["Mark.1"])
        same(server.ask(hits())[0].matched, 1)
