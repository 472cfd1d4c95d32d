"""Answers byte by byte: features, values, transactions, locks and stored queries."""

from expected import FES, FL, GML, GMLS, M, WFS, XML, XS, collection, ids, is_answered, transacted
from harness import DONE, Folder, get, insert, mark, request, same
from written import feature, point, query, rid, sorted_by

HEAD = """title="Marks"
address=%s
namespace="%s"
prefix="%s"
srs=["urn:ogc:def:crs:EPSG::25832", "EPSG:25832"]
[[type]]
name="Mark"
property=[{name="label", kind="text"}, {name="size", kind="integer"}, {name="place", kind="point"}]
[[type]]
name="Flag"
property=[{name="up", kind="boolean"}, {name="lit", kind="boolean"}]
"""
ADDRESS, SPACE = "http://localhost:8080/wfs", "http://example.org/marks"
MARKED = HEAD % ('"%s"' % ADDRESS, SPACE, "m")
FLAGGED = HEAD % ('"%s"' % ADDRESS, 'urn:x:\\"a&b', "fl")
FLAG = feature("Flag")


def answers_with(bodies: list, *before: bytes, schema: str = MARKED) -> None:
    """That each message is answered by its body and media type, all in one session after some other messages."""
    with Folder(schema) as folder:
        for answer in folder.ask(*before) if before else []:
            same(answer.status, 200, repr(answer))
        for message, body, media in bodies:
            run = folder.talk(message)
            same(run.status, DONE)
            is_answered(run.output, body, media)


# ---- features


def test_nothing_was_found():
    nothing = collection(0, 0)
    answers_with([(get("service=WFS&request=GetFeature&typeNames=m:Mark"), nothing, GML)])


def test_hits_alone():
    hits = request("GetFeature", query("Mark"), 'resultType="hits"')
    answers_with([(hits, collection(5, 0), GML)], insert(*[mark("A")] * 5))


def test_features_are_members_with_the_values_that_they_have():
    least = feature("Mark", label="", size="-9223372036854775808", place=point("12 7"))
    features = insert(least, mark("B"), *[mark("x")] * 6, mark("&lt;é\"&gt;"), FLAG, FLAG, FLAG, feature("Flag", up="true", lit="false"))
    asked = query("Mark", rid("Mark.1", "Mark.2"), sorted_by(("label", "DESC"))) + query("Flag", rid("Flag.3", "Flag.4")) + query("Mark", rid("Mark.9"))
    place = '<gml:Point gml:id="Mark.1.place" srsName="urn:ogc:def:crs:EPSG::25832"><gml:pos>12 7</gml:pos></gml:Point>'
    members = [
        '<m:Mark gml:id="Mark.2"><m:label>B</m:label></m:Mark>',
        '<m:Mark gml:id="Mark.1"><m:label/><m:size>-9223372036854775808</m:size><m:place>%s</m:place></m:Mark>' % place,
        '<m:Flag gml:id="Flag.3"/>',
        '<m:Flag gml:id="Flag.4"><m:up>true</m:up><m:lit>false</m:lit></m:Flag>',
        '<m:Mark gml:id="Mark.9"><m:label>&lt;é"&gt;</m:label></m:Mark>',
    ]
    answers_with([(request("GetFeature", asked), collection(5, 5, "", *members), GML)], features)


def test_links_lead_to_other_pages():
    """The second page of three; and one past the end, which has a link back alone."""
    page = "service=WFS&request=GetFeature&typeNames=Mark&startIndex=%d&count=2"
    link = ADDRESS + "?service=WFS&amp;request=GetFeature&amp;typeNames=Mark&amp;startIndex=%d&amp;count=2"
    both = ' next="%s" previous="%s"' % (link % 4, link % 0)
    third, fourth = ('<m:Mark gml:id="Mark.%d"><m:label>A</m:label></m:Mark>' % number for number in (3, 4))
    middle = collection(6, 2, both, third, fourth)
    past = collection(6, 0, ' previous="%s"' % (link % 4))
    answers_with([(get(page % 2), middle, GML), (get(page % 6), past, GML)], insert(*[mark("A")] * 6))


def test_a_page_names_its_lock():
    """The lock is the fourteenth of the third opening. A page of a GetFeatureWithLock has no links."""
    locks = []
    for number in range(1, 14):
        locks += [request("LockFeature", query("Flag"), 'expiry="1000"'), request("Transaction", "", 'lockId="lock-3-%d"' % number)]
    with Folder(MARKED) as folder:
        folder.ask(insert(FLAG, FLAG, FLAG, FLAG))
        folder.ask()
        run = folder.talk(*locks, get("service=WFS&request=GetFeatureWithLock&typeNames=Flag&startIndex=2&count=1"))
        same(run.status, DONE)
        page = collection(4, 1, ' lockId="lock-3-14"', '<m:Flag gml:id="Flag.3"/>')
        is_answered(run.output[run.output.rindex(b"HTTP/1.1") :], page, GML)


def test_a_feature_stands_by_itself():
    by_id = "service=WFS&request=GetFeature&storedQuery_id=urn:ogc:def:query:OGC-WFS::GetFeatureById&id="
    bare = '<m:Mark%s%s gml:id="Mark.2"><m:label>B</m:label><m:size>5</m:size></m:Mark>' % (GMLS, M)
    flag = '<m:Flag%s%s gml:id="Flag.5"><m:lit>false</m:lit></m:Flag>' % (GMLS, M)
    features = insert(mark("A"), mark("B", "<m:size>5</m:size>"), *[FLAG] * 4, feature("Flag", lit="false"))
    answers_with([(get(by_id + "Mark.2"), bare, GML), (get(by_id + "Flag.5"), flag, GML)], features)


# ---- values


def test_values_are_members():
    marks = insert(mark("A"), mark("B"), mark(""), mark("C"))
    asked = "a=b&service=WFS&request=GetPropertyValue&typeNames=Mark&valueReference=label"
    link = "http://h/&quot;wfs?" + asked.replace("&", "&amp;") + "&amp;startIndex=%d&amp;count=%d"
    links = ' next="%s" previous="%s"' % (link % (3, 2), link % (0, 1))
    labels = collection(4, 2, links, "<m:label>B</m:label>", "<m:label/>", kind="Value")
    counted = collection(4, 0, kind="Value")
    answers_with([(get(asked + "&startIndex=1&count=2"), labels, GML), (get(asked + "&resultType=hits"), counted, GML)], marks, schema=HEAD % ("'http://h/\"wfs'", SPACE, "m"))


def test_values_that_are_null_are_none():
    marks = insert(feature("Mark", label="A", place=point("-12 7")), mark("B"))
    place = '<m:place><gml:Point gml:id="Mark.1.place" srsName="urn:ogc:def:crs:EPSG::25832"><gml:pos>-12 7</gml:pos></gml:Point></m:place>'
    answers_with([(get("service=WFS&request=GetPropertyValue&typeNames=Mark&valueReference=place"), collection(1, 1, "", place, kind="Value"), GML)], marks)


def test_values_are_those_of_the_first_type_of_a_stored_query():
    """A feature of another type has none."""
    features = insert(feature("Mark", label="A", size="5"), feature("Flag", up="true", lit="false"))
    made = create("q", "", [], ["Mark", "Flag"]), create("r", "", [], ["Flag", "Mark"])
    asked = "service=WFS&request=GetPropertyValue&storedQuery_id=%s&valueReference=%s"
    sizes = collection(1, 1, "", "<m:size>5</m:size>", kind="Value")
    lit_ones = collection(1, 1, "", "<m:lit>false</m:lit>", kind="Value")
    answers_with([(get(asked % ("q", "size")), sizes, GML), (get(asked % ("r", "lit")), lit_ones, GML)], features, *made)


# ---- transactions and locks


def results(kind: str, *ids_made: str, handle: str = "") -> str:
    return "<wfs:%sResults>%s</wfs:%sResults>" % (kind, "".join("<wfs:Feature%s>%s</wfs:Feature>" % (handle, ids(it)) for it in ids_made), kind)


def test_two_marks_were_inserted():
    answers_with([(insert(mark("A"), mark("B")), transacted(2, 0, 0, 0, results("Insert", "Mark.1", "Mark.2")), XML)])


def lit_flag(handle: str = "") -> str:
    """An Update of the seventh flag."""
    content = "<wfs:Property><wfs:ValueReference>lit</wfs:ValueReference><wfs:Value>true</wfs:Value></wfs:Property>"
    return '<wfs:Update typeName="Flag" %s>%s<fes:Filter>%s</fes:Filter></wfs:Update>' % (handle, content, rid("Flag.7"))


def test_the_inserted_stand_before_the_updated():
    both = request("Transaction", lit_flag() + "<wfs:Insert>%s</wfs:Insert>" % mark("C"))
    wanted = transacted(1, 1, 0, 0, results("Insert", "Mark.3") + results("Update", "Flag.7"))
    answers_with([(both, wanted, XML)], insert(mark("A"), mark("B"), *[FLAG] * 7))


def test_handles_and_each_kind_of_action_stand_in_the_answer():
    replaced = "<wfs:Replace>%s<fes:Filter>%s</fes:Filter></wfs:Replace>" % (mark("D"), rid("Mark.10"))
    deleted = '<wfs:Delete typeName="Mark"><fes:Filter>%s</fes:Filter></wfs:Delete>' % rid("Mark.1", "Mark.2", "Mark.3")
    changed = request("Transaction", lit_flag('handle="a&quot;b&lt;"') + replaced + deleted)
    handle = ' handle="a&quot;b&lt;"'
    wanted = transacted(0, 1, 1, 3, results("Update", "Flag.7", handle=handle) + results("Replace", "Mark.10"))
    answers_with([(changed, wanted, XML)], insert(*[mark("A")] * 10, *[FLAG] * 7))


def locked(more: str, taken: tuple, missed: tuple) -> str:
    """The answer to a LockFeature."""
    lists = "<wfs:FeaturesLocked>%s</wfs:FeaturesLocked>" % ids(*taken) if taken else ""
    lists += "<wfs:FeaturesNotLocked>%s</wfs:FeaturesNotLocked>" % ids(*missed) if missed else ""
    return "<wfs:LockFeatureResponse%s%s%s%s" % (WFS, FES, more, ">%s</wfs:LockFeatureResponse>" % lists if lists else "/>")


def test_a_lock_names_what_it_took_and_what_not():
    lock = "service=WFS&request=LockFeature&lockAction=SOME&expiry=1000&"
    second = request("LockFeature", query("Mark", rid("Mark.2")), 'expiry="1000"')
    with Folder(MARKED) as folder:
        run = folder.talk(
            insert(mark("A"), mark("B"), mark("C"), FLAG, FLAG),
            second,
            get(lock + "typeNames=Mark"),
            get(lock + "resourceId=Mark.2"),
            get(lock + "typeNames=Flag"),
            get(lock + "resourceId=Flag.2"),
            get(lock + "resourceId=Mark.9"),
        )
        same(run.status, DONE)
        wanted = [
            locked(' lockId="lock-1-1"', ("Mark.2",), ()),
            locked(' lockId="lock-1-2"', ("Mark.1", "Mark.3"), ("Mark.2",)),
            locked("", (), ("Mark.2",)),
            locked(' lockId="lock-1-3"', ("Flag.1", "Flag.2"), ()),
            locked("", (), ("Flag.2",)),
            locked("", (), ()),
        ]
        outputs = run.output.split(b"HTTP/1.1")[2:]
        same(len(outputs), len(wanted))
        for output, body in zip(outputs, wanted):
            is_answered(b"HTTP/1.1" + output, body)


# ---- stored queries


LANGUAGE = "urn:ogc:def:queryLanguage:OGC-WFS::WFS_QueryExpression"
BUILT_IN = "urn:ogc:def:query:OGC-WFS::GetFeatureById"


def create(id: str, title: str, parameters: list, kinds: list) -> bytes:
    """A CreateStoredQuery whose texts are written as they are given."""
    declared = "".join('<wfs:Parameter name="%s" type="xs:string"/>' % it for it in parameters)
    text = '<wfs:QueryExpressionText returnFeatureTypes="">%s</wfs:QueryExpressionText>' % "".join(map(query, kinds))
    titled = title and "<wfs:Title>%s</wfs:Title>" % title
    return request("CreateStoredQuery", '<wfs:StoredQueryDefinition id="%s">%s%s%s</wfs:StoredQueryDefinition>' % (id, titled, declared, text))


BY_LABEL = create("urn:x:by", "By &lt;l&gt;", ["l", "a&quot;b"], ["Flag", "Mark", "Flag", "Flag", "Mark"])
NAMELESS = create("a&quot;b", "", [], ["Flag"])


def listed(id: str, title: str, *kinds: str) -> str:
    types = "".join("<wfs:ReturnFeatureType>%s</wfs:ReturnFeatureType>" % kind for kind in kinds)
    return '<wfs:StoredQuery id="%s">%s%s</wfs:StoredQuery>' % (id, title, types)


def list_of(space: str, *members: str) -> str:
    return "<wfs:ListStoredQueriesResponse%s%s>%s</wfs:ListStoredQueriesResponse>" % (WFS, space, "".join(members))


def test_stored_queries_are_listed():
    built_in = listed(BUILT_IN, "", "m:Mark", "m:Flag")
    others = listed("urn:x:by", "<wfs:Title>By &lt;l&gt;</wfs:Title>", "m:Flag", "m:Mark"), listed("a&quot;b", "", "m:Flag")
    answers_with([(get("service=WFS&request=ListStoredQueries"), list_of(M, built_in, *others), XML)], BY_LABEL, NAMELESS)


def described(id: str, before: str, types: str, is_private: str, text: str) -> str:
    start = '<wfs:StoredQueryDescription id="%s">%s<wfs:QueryExpressionText returnFeatureTypes="%s" language="%s" isPrivate="%s"' % (id, before, types, LANGUAGE, is_private)
    return start + (">%s</wfs:QueryExpressionText>" % text if text else "/>") + "</wfs:StoredQueryDescription>"


def test_stored_queries_are_described():
    """Each text is its Query elements, which declare all prefixes."""
    text = '<wfs:Query%s%s%s%s typeNames="m:%%s"/>' % (WFS, FES, GMLS, M)
    names = '<wfs:Title>By &lt;l&gt;</wfs:Title><wfs:Parameter name="l" type="xs:string"/><wfs:Parameter name="a&quot;b" type="xs:string"/>'
    members = [
        described(BUILT_IN, '<wfs:Parameter name="id" type="xs:string"/>', "m:Mark m:Flag", "true", ""),
        described("urn:x:by", names, "m:Flag m:Mark", "false", "".join(text % kind for kind in ("Flag", "Mark", "Flag", "Flag", "Mark"))),
        described("a&quot;b", "", "m:Flag", "false", text % "Flag"),
    ]
    start = "<wfs:DescribeStoredQueriesResponse%s%s%s>" % (WFS, M, XS)
    wanted = start + "".join(members) + "</wfs:DescribeStoredQueriesResponse>"
    answers_with([(get("service=WFS&request=DescribeStoredQueries"), wanted, XML)], BY_LABEL, NAMELESS)


def test_stored_queries_were_made_and_dropped():
    status = "<wfs:%sStoredQueryResponse%s status=\"OK\"/>"
    dropped = request("DropStoredQuery", "", 'id="a&quot;b"')
    answers_with([(NAMELESS, status % ("Create", WFS), XML), (dropped, status % ("Drop", WFS), XML)])


def test_a_namespace_is_escaped_after_its_prefix():
    """In a page, in a feature by itself, and in the list of stored queries, whose types have the prefix of the schema."""
    by_id = "service=WFS&request=GetFeature&storedQuery_id=%s&id=Mark.2" % BUILT_IN
    content = "".join('<Mark xmlns="urn:x:&quot;a&amp;b"><label>%s</label></Mark>' % label for label in ("", "B"))
    page = collection(1, 1, "", '<fl:Mark gml:id="Mark.1"><fl:label/></fl:Mark>', spaces=WFS + GMLS + FL)
    bare = '<fl:Mark%s%s gml:id="Mark.2"><fl:label>B</fl:label></fl:Mark>' % (GMLS, FL)
    names = list_of(FL, listed(BUILT_IN, "", "fl:Mark", "fl:Flag"), listed("c", "", "fl:Flag"))
    asked = [
        (get("service=WFS&request=GetFeature&resourceId=Mark.1"), page, GML),
        (get(by_id), bare, GML),
        (get("service=WFS&request=ListStoredQueries"), names, XML),
    ]
    answers_with(asked, insert(content), create("c", "", [], ["Flag"]), schema=FLAGGED)
