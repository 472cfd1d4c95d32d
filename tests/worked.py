"""Rows that were worked out by hand: small sessions on marks, fields and ways, and what each comes to. What they say byte by byte is looked at so."""

import time

from bodies import FEATURES, answer, collection, feature, locked, refusal, refused, says, transacted
from harness import CUT, DONE, UNFRAMED, Folder, get, hits, insert, mark, post, request, same, skip

TWO = '<wfs:Transaction service="WFS" version="2.0.2" xmlns:wfs="http://www.opengis.net/wfs/2.0" xmlns:m="http://example.org/marks"><wfs:Insert><m:Mark><m:label>A</m:label></m:Mark><m:Mark><m:label>B</m:label></m:Mark></wfs:Insert></wfs:Transaction>'
TWO_MARKS = post(TWO)
TWO_INSERTED = answer(transacted(["Mark.1", "Mark.2"]))
THREE_MARKS = insert(mark("A"), mark("B"), mark("C"))


def find(query: str) -> bytes:
    return get("service=WFS&request=GetFeature&" + query)


def lock(query: str) -> bytes:
    return get("service=WFS&request=LockFeature&" + query)


def ids(*names: str) -> str:
    """A filter by identifiers."""
    return "<fes:Filter>%s</fes:Filter>" % "".join('<fes:ResourceId rid="%s"/>' % it for it in names)


def query(filtered: str, kind: str = "Mark") -> bytes:
    """A GetFeature whose filter has this content."""
    return request("GetFeature", '<wfs:Query typeNames="m:%s"><fes:Filter>%s</fes:Filter></wfs:Query>' % (kind, filtered))


def setting(name: str, value: str, chosen: str = "") -> str:
    """An Update of marks."""
    return '<wfs:Update typeName="m:Mark"><wfs:Property><wfs:ValueReference>%s</wfs:ValueReference><wfs:Value>%s</wfs:Value></wfs:Property>%s</wfs:Update>' % (name, value, chosen)


def deleting(*names: str) -> str:
    return '<wfs:Delete typeName="m:Mark">%s</wfs:Delete>' % ids(*names)


def transaction(*actions: str, lock_id: str = "", release: str = "") -> bytes:
    attributes = (' lockId="%s"' % lock_id if lock_id else "") + (' releaseAction="%s"' % release if release else "")
    return request("Transaction", "".join(actions), attributes)


def totals(answered) -> tuple:
    """How many were inserted, updated, replaced and deleted."""
    names = "Inserted", "Updated", "Replaced", "Deleted"
    return tuple(int(answered.body.split("<wfs:total%s>" % name)[1].split("<")[0]) for name in names)


def after(*messages: bytes) -> list:
    """The answers of a session in a new folder."""
    with Folder() as folder:
        return folder.ask(*messages)


def matched(answered: list) -> list:
    return [it.matched for it in answered]


# ---- bytes


def test_two_marks_inserted():
    same(len(TWO), 242)
    same(len(transacted(["Mark.1", "Mark.2"])), 549)
    with Folder() as folder:
        says(folder.talk(TWO_MARKS), TWO_INSERTED)


def test_hits_of_nothing():
    none = collection(0)
    same(len(none), 253)
    with Folder() as folder:
        says(folder.talk(find("typeNames=m:Mark&resultType=hits")), answer(none, FEATURES))


def test_page_past_the_end():
    link = ' previous="http://localhost:8080/wfs?service=WFS&amp;request=GetFeature&amp;typeNames=Mark&amp;startIndex=0&amp;count=2"'
    with Folder() as folder:
        says(folder.talk(TWO_MARKS, find("typeNames=Mark&startIndex=2&count=5")), TWO_INSERTED, answer(collection(2, more=link), FEATURES))


def test_bytes_of_the_first_side():
    signature = b"Mark(label:text,size:integer,place:point);Field(name:text,area:polygon);Way(course:line);"
    same(len(signature), 89)
    with Folder() as folder:
        says(folder.talk())
        side = folder.read("journal.a")
        same(side, b"\x01WFSJNL\x01" + (1).to_bytes(8, "big") + b"\x01\0\0\0\x66\x01" + (1).to_bytes(8, "big") + b"\0\0\0\x59" + signature + b"\0")
        same((len(side), len(folder.read("journal.b"))), (124, 0))


def test_bytes_of_one_record():
    body = bytes.fromhex("02 00000001 01 0000 0000000000000001 0003 01 00000001 41 00 00")
    same(len(body), 26)
    with Folder() as folder:
        folder.ask(insert(mark("A")))
        side = folder.read("journal.a")
        same(len(side), 155)
        same(side[123:], b"\x01\0\0\0\x1a" + body + b"\0")


def test_second_message_cut():
    with Folder() as folder:
        cut = folder.talk(TWO_MARKS, b"POST /wfs HTTP/1.1\r\nContent-Length: 200\r\n\r\n0123456789")
        says(cut, TWO_INSERTED, status=CUT)


def test_chunks_and_a_coded_body():
    pieces = [TWO[:100], TWO[100:200], TWO[200:]]
    same([len(it) for it in pieces], [100, 100, 42])
    body = "".join("%x\r\n%s\r\n" % (len(it), it) for it in pieces) + "0\r\n\r\n"
    head = "POST /wfs HTTP/1.1\r\nHost: h\r\n%s\r\n\r\n"
    with Folder() as folder:
        says(folder.talk((head % "Transfer-Encoding: chunked" + body).encode()), TWO_INSERTED)
    with Folder() as folder:
        coded = folder.talk((head % "Content-Encoding: gzip\r\nContent-Length: 1" + "x").encode())
        says(coded, refusal("coded body", "coding", closes=True), status=UNFRAMED)


# ---- geometry and filters


def test_field_with_a_hole():
    field = "<m:Field><m:area><gml:Polygon><gml:exterior><gml:LinearRing><gml:posList>0 0 10 0 10 10 0 10 0 0</gml:posList></gml:LinearRing></gml:exterior><gml:interior><gml:LinearRing><gml:posList>2 2 4 2 4 4 2 4 2 2</gml:posList></gml:LinearRing></gml:interior></gml:Polygon></m:area></m:Field>"
    boxes = ["10,10,12,12", "3,3,3,3", "2,2,4,4"]
    same(matched(after(insert(field), *(find("typeNames=Field&bbox=" + it) for it in boxes))[1:]), [1, 0, 1])


def test_way_at_the_far_edge():
    way = "<m:Way><m:course><gml:LineString><gml:posList>1000000000 0 1000000000 1000000000</gml:posList></gml:LineString></m:course></m:Way>"
    asked = [find("typeNames=Way&bbox=%d,5,%d,5" % (x, x)) for x in (1_000_000_000, 999_999_999, 1_000_000_001)]
    _, on, beside, beyond = after(insert(way), *asked)
    same(matched([on, beside]), [1, 0])
    same(beyond.refusal, refused("value refused", "bbox"))


def test_null_under_not():
    one = "<fes:PropertyIsEqualTo><fes:ValueReference>size</fes:ValueReference><fes:Literal>1</fes:Literal></fes:PropertyIsEqualTo>"
    same(matched(after(TWO_MARKS, query(one), query("<fes:Not>%s</fes:Not>" % one))[1:]), [0, 2])


def test_sharp_s_without_case():
    equal = "<fes:PropertyIsEqualTo%s><fes:ValueReference>label</fes:ValueReference><fes:Literal>straße</fes:Literal></fes:PropertyIsEqualTo>"
    asked = [query(equal % it) for it in (' matchCase="false"', "")]
    same(matched(after(insert(mark("STRASSE")), *asked)[1:]), [1, 0])


def test_like_with_an_escape():
    like = '<fes:PropertyIsLike wildCard="*" singleChar="." escapeChar="!"><fes:ValueReference>label</fes:ValueReference><fes:Literal>A!*.</fes:Literal></fes:PropertyIsLike>'
    _, found = after(insert(*map(mark, ["A*b", "Ab", "A*", "A*bc"])), query(like))
    same(found.ids, ["Mark.1"])


# ---- locks


def test_lock_all_then_the_free_ones():
    asked = [lock("resourceId=Mark.2"), lock("typeNames=Mark"), lock("typeNames=Mark&lockAction=SOME")]
    with Folder() as folder:
        wanted = [locked("lock-1-1", ["Mark.2"]), locked("lock-1-2", ["Mark.1", "Mark.3"], ["Mark.2"])]
        inserted = answer(transacted(["Mark.1", "Mark.2", "Mark.3"]))
        says(folder.talk(THREE_MARKS, *asked), inserted, answer(wanted[0]), refusal("not all are free", "Mark.2"), answer(wanted[1]))


def test_delete_before_the_deadline():
    _, granted, deleted = after(TWO_MARKS, lock("resourceId=Mark.1&expiry=60"), transaction(deleting("Mark.1"), lock_id="lock-1-1"))
    same(granted.body, locked("lock-1-1", ["Mark.1"]))
    same(totals(deleted), (0, 0, 0, 1))


def test_delete_at_the_deadline():
    with Folder() as folder, folder.serve() as server:
        server.ask(TWO_MARKS, lock("resourceId=Mark.1&expiry=1"))
        time.sleep(1.05)
        late, again = server.ask(transaction(deleting("Mark.1"), lock_id="lock-1-1"), lock("resourceId=Mark.1"))
        same(late.refusal, refused("lock has expired", "lockId"))
        same(again.body, locked("lock-1-2", ["Mark.1"]))


def test_without_the_lock_and_under_anothers_lock():
    update = setting("size", "1", ids("Mark.1"))
    asked = [transaction(update), transaction(update, lock_id="lock-1-2")]
    without, other = after(TWO_MARKS, lock("resourceId=Mark.1"), lock("resourceId=Mark.2"), *asked)[3:]
    same(without.refusal, refused("feature is locked", "lockId"))
    same(other.refusal, refused("feature is locked by another", "Mark.1"))


def sleep_until(moment: float) -> None:
    time.sleep(max(0, moment - time.time()))


def test_partial_release_moves_the_deadline():
    # A lock for two seconds, in its first second; one of its marks is released in the next one. It lives on in the second after.
    with Folder() as folder, folder.serve() as server:
        server.ask(THREE_MARKS)
        start = int(time.time()) + 1
        sleep_until(start + 0.05)
        server.ask(lock("typeNames=Mark&expiry=2"))
        sleep_until(start + 1.05)
        same(totals(server.ask(transaction(setting("size", "1", ids("Mark.1")), lock_id="lock-1-1", release="SOME"))[0]), (0, 1, 0, 0))
        sleep_until(start + 2.05)
        deleted, ended, again = server.ask(transaction(deleting("Mark.2")), transaction(lock_id="lock-1-1"), lock("typeNames=Mark"))
        if time.time() >= start + 3:
            skip("the machine was too slow for these seconds")
        same(deleted.refusal, refused("feature is locked", "lockId"))
        same(totals(ended), (0, 0, 0, 0))
        same(again.body, locked("lock-1-2", ["Mark.1", "Mark.2", "Mark.3"]))


def test_restart_ends_locks():
    with Folder() as folder:
        folder.ask(TWO_MARKS, lock("resourceId=Mark.1"))
        asked = [transaction(lock_id=it) for it in ("lock-1-1", "lock-2-1", "lock-3-1")]
        earlier, own, later, counted, granted = folder.ask(*asked, hits(), lock("resourceId=Mark.1"))
        same(earlier.refusal, refused("lock has expired", "lockId"))
        same([own.refusal, later.refusal], [refused("unknown lock", "lockId")] * 2)
        same(counted.matched, 2)
        same(granted.body, locked("lock-2-1", ["Mark.1"]))


# ---- transactions


def test_refused_second_action():
    third = "<wfs:Insert>%s</wfs:Insert>" % mark("C")
    like = '<fes:Filter><fes:PropertyIsLike wildCard="*" singleChar="." escapeChar="!"><fes:ValueReference>label</fes:ValueReference><fes:Literal>*</fes:Literal></fes:PropertyIsLike></fes:Filter>'
    asked = [transaction(third, setting("size", "x")), transaction(third, "<wfs:Replace>%s%s</wfs:Replace>" % (mark("Z"), like)), hits(), insert(mark("A"))]
    unfit, two, counted, inserted = after(TWO_MARKS, *asked)[1:]
    same(unfit.refusal, refused("value does not fit", "size"))
    same(two.refusal, refused("more than one feature", "Filter"))
    same(counted.matched, 2)
    same(inserted.ids, ["Mark.3"])


def test_delete_and_insert_of_one_label():
    _, both = after(TWO_MARKS, transaction(deleting("Mark.1"), "<wfs:Insert>%s</wfs:Insert>" % mark("A")))
    same(both.body, transacted(["Mark.3"], deleted=1))


def test_another_clients_update_with_continue():
    body = '<?xml version="1.0" encoding="UTF-8"?><Transaction xmlns="http://www.opengis.net/wfs/2.0" xmlns:xsi="http://www.w3.org/2001/XMLSchema-instance" service="WFS" version="2.0.0" xsi:schemaLocation="a b"><Update typeName="m:Mark" xmlns:m="http://example.org/marks"><Property><ValueReference>m:place</ValueReference><Value><Point xmlns="http://www.opengis.net/gml/3.2" srsName="EPSG:25832"><pos>12.0 7</pos></Point></Value></Property><Filter xmlns="http://www.opengis.net/fes/2.0"><ResourceId rid="Mark.1"/></Filter></Update></Transaction>'
    with Folder() as folder:
        folder.ask(TWO_MARKS)
        updated = folder.talk(post(body, fields="Expect: 100-continue\r\n"), find("resourceId=Mark.1"))
        place = '<gml:Point gml:id="Mark.1.place" srsName="urn:ogc:def:crs:EPSG::25832"><gml:pos>12 7</gml:pos></gml:Point>'
        found = collection(1, feature("Mark.1", label="A", place=place))
        says(updated, "HTTP/1.1 100 Continue\r\n\r\n", answer(transacted(updated=["Mark.1"])), answer(found, FEATURES))


# ---- stored queries, commands


BY_LABEL = request(
    "CreateStoredQuery",
    '<wfs:StoredQueryDefinition id="urn:x:by"><wfs:Parameter name="l" type="xs:string"/><wfs:QueryExpressionText><wfs:Query typeNames="m:Mark"><fes:Filter><fes:PropertyIsEqualTo><fes:ValueReference>label</fes:ValueReference><fes:Literal>${l}</fes:Literal></fes:PropertyIsEqualTo></fes:Filter></wfs:Query></wfs:QueryExpressionText></wfs:StoredQueryDefinition>',
)


def test_stored_query_with_a_parameter():
    asked = [BY_LABEL, find("storedQuery_id=urn:x:by&L=B"), find("storedQuery_id=urn:x:by"), BY_LABEL]
    created, found, missing, again = after(TWO_MARKS, *asked)[1:]
    same(created.status, 200)
    same(found.ids, ["Mark.2"])
    same(missing.refusal, refused("value missing", "l"))
    same(again.refusal, refused("query exists", "urn:x:by"))


def test_no_feature_by_that_id():
    _, none = after(TWO_MARKS, find("storedQuery_id=urn:ogc:def:query:OGC-WFS::GetFeatureById&id=Mark.9"))
    same(none.refusal, refused("no such feature", "id"))


def test_checkpoint_of_two_marks():
    with Folder() as folder:
        folder.ask(TWO_MARKS)
        compacted = folder.run("compact")
        same((compacted.text, compacted.status), ("side 283 to 109 bytes\n", DONE))
        side = folder.read("journal.b")
        same((len(side), side[:16]), (109, b"\x01WFSJNL\x01" + (2).to_bytes(8, "big")))
        same(folder.check(), "types 3 features 2 queries 0 openings 2\n")
        same(folder.ask(hits())[0].matched, 2)
        same(len(folder.read("journal.b")), 216)
