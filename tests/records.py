"""Records of the journal (docs/FORMATS.md, The journal's bytes), written by hand: what each kind of body says, which bytes are none, which do not fit
the schema, and which a checkpoint has."""

import re

from harness import DONE, JOURNAL_REFUSED, MARKS, Folder, get, rows, same
from journals import FALSE, LAST_OF_ALL, NULL, SIGNATURE, TRUE, base, created, dropped, line, number, opening, part, point, polygon, put, put_mark
from journals import query, removed, side, whole, words

HEADER = MARKS.split("[[type]]")[0]
EACH = HEADER + """[[type]]
name = "Mark"
property = []
[[type]]
name = "Each"
property = [ {name="none", kind="integer"}, {name="word", kind="text"}, {name="more", kind="integer"}, {name="less", kind="integer"},
  {name="yes", kind="boolean"}, {name="no", kind="boolean"}, {name="at", kind="point"}, {name="along", kind="line"}, {name="over", kind="polygon"} ]
"""
EACH_SIGNATURE = b"Mark();Each(none:integer,word:text,more:integer,less:integer,yes:boolean,no:boolean,at:point,along:line,over:polygon);"

# A value of each kind, byte by byte.
VALUES = (
    b"\0",
    b"\1\0\0\0\2\xc3\xa9",
    b"\2\0\0\0\0\0\0\1\2",
    b"\2\xff\xff\xff\xff\xff\xff\xff\xfe",
    b"\3\1",
    b"\3\0",
    b"\4\0\0\0\1\xff\xff\xff\xff",
    b"\5\0\0\0\2" + b"\0" * 8 + b"\xc4\x65\x36\0\x3b\x9a\xca\0",
    b"\6\0\0\0\2"
    + b"\0\0\0\4" + b"\0\0\0\0\0\0\0\0" + b"\0\0\0\x09\0\0\0\0" + b"\0\0\0\0\0\0\0\x09" + b"\0\0\0\0\0\0\0\0"
    + b"\0\0\0\4" + b"\0\0\0\1\0\0\0\1" + b"\0\0\0\2\0\0\0\1" + b"\0\0\0\1\0\0\0\2" + b"\0\0\0\1\0\0\0\1",
)
# What they say, as the answers write it.
SAID = {
    "word": "\u00e9",
    "more": "258",
    "less": "-2",
    "yes": "true",
    "no": "false",
    "at": "1 -1",
    "along": "0 0 -1000000000 1000000000",
    "over": "0 0 9 0 0 9 0 0|1 1 2 1 1 2 1 1",
}
SHELL, HOLE = [(0, 0), (9, 0), (0, 9), (0, 0)], [(1, 1), (2, 1), (1, 2), (1, 1)]
EACH_PUT = b"\1\0\1\0\0\0\0\0\0\0\7\0\x09" + b"".join(VALUES)


def test_the_encoder_writes_what_stands_here_byte_by_byte():
    values = NULL, words("\u00e9"), whole(258), whole(-2), TRUE, FALSE, point(1, -1), line((0, 0), (-(10**9), 10**9)), polygon(SHELL, HOLE)
    same(values, VALUES)
    same(part(1, 7, *values), EACH_PUT)
    same(put_mark(1, "A"), b"\1\0\0\0\0\0\0\0\0\0\1\0\3\1\0\0\0\1A\0\0")
    same(put(removed(0, 256)), b"\2\0\0\0\1\2\0\0\0\0\0\0\0\0\1\0")
    same(created(query("q", "", ["a", "bc"], "<x/>")), b"\3\0\0\0\1\0\0\0\1q\0\0\0\0\0\0\0\2\0\0\0\1a\0\0\0\2bc\0\0\0\4<x/>")
    same(dropped("q"), b"\4\0\0\0\1q")
    same(base(3, 7, LAST_OF_ALL), b"\5\0\0\0\0\0\0\0\3\0\2\0\0\0\0\0\0\0\7\0\0\0\xe8\xd4\xa5\x10\0")
    same(opening(1), b"\1\0\0\0\0\0\0\0\1\0\0\0\x59" + SIGNATURE)


def said_of(body: str) -> dict:
    """The properties of the one feature of a collection, with the positions of a geometry alone."""
    feature = re.search(r"<m:Each gml:id=\"Each.7\">(.*)</m:Each>", body)[1]
    found = {}
    for name, content in re.findall(r"<m:(\w+)>(.*?)</m:\1>", feature):
        places = re.findall(r"<gml:pos(?:List)?>(.*?)</gml:pos", content)
        found[name] = "|".join(places) or content
    return found


def test_a_value_of_each_kind_is_read_and_written_again():
    with Folder(EACH) as folder:
        first = opening(1, EACH_SIGNATURE)
        folder.write("journal.a", side(first, put(part(0, 256)), put(EACH_PUT, removed(0, 256))))
        same(folder.check(), "types 2 features 1 queries 0 openings 1\n")
        same(said_of(folder.ask(get("service=WFS&request=GetFeature&typeNames=Each"))[0].body), SAID)
        same(folder.run("compact").status, DONE)
        same(folder.read("journal.b"), side(base(3, 256, 7), put(EACH_PUT), generation=2))


QUERY = (
    '<wfs:Query xmlns:wfs="http://www.opengis.net/wfs/2.0" xmlns:fes="http://www.opengis.net/fes/2.0" xmlns:gml="http://www.opengis.net/gml/3.2"'
    ' xmlns:m="http://example.org/marks" typeNames="m:Mark"/>'
)
INSERT = put(put_mark(1, "A"))
REPLACE = put(put_mark(1, "A", whole(7), point(12, 7)))
SWAP = put(removed(0, 1), put_mark(2, "A"))
BY, TO = (created(query(it, "", ["l"], QUERY)) for it in ("urn:x:by", "urn:x:to"))
BASE = base(7, 2, 0, 0)


@rows(
    ("an opening", opening(1), False),
    ("a checkpoint's beginning", BASE, False),
    ("a feature that is put", INSERT, True),
    ("a value of each kind", put(EACH_PUT, removed(0, 256)), True),
    ("a stored query", BY, True),
    ("a stored query that goes", dropped("urn:x:by"), True),
)
def test_no_front_of_a_body_is_one(body, is_second):
    with Folder() as folder:
        for end in range(len(body)):
            before = [opening(1)] if is_second else []
            folder.write("journal.a", side(*before, body[:end]))
            run = folder.run("check")
            same((run.text, run.status), ("wfsd: not a journal: a %d\n" % (123 if is_second else 16), JOURNAL_REFUSED), "%d bytes" % end)


def of_values(*values: bytes) -> bytes:
    return put(part(0, 1, *values))


@rows(
    ("nothing", b""),
    ("the kind 0", b"\0"),
    ("the kind 6", b"\6"),
    ("a part of the kind 0", b"\2\0\0\0\1\0"),
    ("a part of the kind 3", b"\2\0\0\0\1\3"),
    ("an identifier that is no text", b"\4\0\0\0\1\xff"),
    ("a signature that is no text", b"\1" + number(2, 8) + b"\0\0\0\1\xc3"),
    ("a length past the end", b"\4\xff\xff\xff\xffa"),
    ("a length whose lowest byte stands first", b"\4\1\0\0\0q"),
    ("a number of parts whose lowest byte stands first", b"\2\1\0\0\0" + removed(0, 1)),
    ("a byte after an opening", opening(2) + b"\0"),
    ("a byte after features", INSERT + b"\0"),
    ("a byte after no features", put() + b"\0"),
    ("a byte after stored queries", BY + b"\0"),
    ("a byte after one that goes", dropped("q") + b"q"),
    ("a byte after a checkpoint's beginning", BASE + b"\0"),
    ("a value of the kind 7", of_values(b"\7")),
    ("a label of the kind 7", of_values(words("A"), b"\7", NULL)),
    ("the boolean 2", of_values(b"\3\2")),
    ("a position too far off", of_values(point(0, 1_000_000_001))),
    ("a line of one position", of_values(line((0, 0)))),
    ("a polygon of no ring", of_values(polygon())),
    ("a ring that is not closed", of_values(polygon(SHELL[:3] + [(1, 1)]))),
)
def test_no_body_is(body):
    with Folder() as folder:
        folder.write("journal.a", side(opening(1), body))
        run = folder.run("check")
        same((run.text, run.status), ("wfsd: not a journal: a 123\n", JOURNAL_REFUSED))


# ---- what fits the schema


@rows(
    ("features put, put anew, gone and come", [opening(1), INSERT, REPLACE, SWAP, put(), opening(2)], (1, 0, 2)),
    ("the last number of all", [opening(1), put(put_mark(LAST_OF_ALL, "A"))], (1, 0, 1)),
    ("a stored query that goes and comes again", [opening(1), BY, dropped("urn:x:by"), BY], (0, 1, 1)),
    ("what stands after a checkpoint's beginning", [BASE, INSERT, BY, opening(8)], (1, 1, 8)),
    ("a checkpoint's beginning before any opening", [base(0, 0, 0, 0), opening(1)], (0, 0, 1)),
)
def test_a_journal_opens_with(bodies, counts):
    with Folder() as folder:
        folder.write("journal.a", side(*bodies))
        same(folder.check(), "types 3 features %d queries %d openings %d\n" % counts)


def test_a_journal_opens_with_its_features_and_numbers():
    with Folder() as folder:
        folder.write("journal.a", side(opening(1), INSERT, REPLACE, put(put_mark(5, "E")), put(removed(0, 5))))
        body = folder.ask(get("service=WFS&request=GetFeature&typeNames=Mark"))[0].body
        place = '<m:place><gml:Point gml:id="Mark.1.place" srsName="urn:ogc:def:crs:EPSG::25832"><gml:pos>12 7</gml:pos></gml:Point></m:place>'
        same(re.findall(r"<m:Mark .*?</m:Mark>", body), ['<m:Mark gml:id="Mark.1"><m:label>A</m:label><m:size>7</m:size>%s</m:Mark>' % place])
        same(folder.run("compact").status, DONE)
        # The number of the feature that went is given.
        same(folder.read("journal.b"), side(base(3, 5, 0, 0), REPLACE, generation=2))


TWO_TYPES = SIGNATURE[: SIGNATURE.index(b"Way(")]
BUILT_IN = "urn:ogc:def:query:OGC-WFS::GetFeatureById"


def stored(name: str, parameters: list, content: str = QUERY) -> bytes:
    """A change that makes one stored query without a title."""
    return created(query(name, "", parameters, content))


TWICE = created(query("q", "", [], QUERY), query("q", "", [], QUERY))


@rows(
    ("a second opening first", [opening(2)]),
    ("an opening of another schema", [opening(1, TWO_TYPES)]),
    ("a later opening of another schema", [BASE, opening(8, TWO_TYPES)]),
    ("a change first", [INSERT]),
    ("no change first", [put()]),
    ("an opening again", [opening(1), opening(1)]),
    ("an opening too late", [opening(1), opening(8)]),
    ("an opening too early after a checkpoint's beginning", [BASE, opening(2)]),
    ("a checkpoint's beginning after an opening", [opening(1), BASE]),
    ("a checkpoint's beginning again", [BASE, BASE]),
    ("one before any opening again", [base(0, 0, 0, 0), base(0, 0, 0, 0)]),
    ("a counter too few", [base(7, 2, 0)]),
    ("a counter too great", [base(7, LAST_OF_ALL + 1, 0, 0)]),
    ("the number 0", [opening(1), put(put_mark(0, "A"))]),
    ("a number too great", [opening(1), put(put_mark(LAST_OF_ALL + 1, "A"))]),
    ("a type that is not there", [opening(1), put(part(3, 1, NULL))]),
    ("a mark without its label", [opening(1), of_values(NULL, NULL, NULL)]),
    ("a label of 41 characters", [opening(1), put(put_mark(1, "A" * 41))]),
    ("a value too few", [opening(1), of_values(words("A"), NULL)]),
    ("a value of another kind", [opening(1), of_values(words("A"), TRUE, NULL)]),
    ("a feature that is not there goes", [opening(1), put(removed(0, 1))]),
    ("a feature goes twice", [opening(1), INSERT, put(removed(0, 1)), put(removed(0, 1))]),
    ("a stored query that is not there goes", [opening(1), dropped("urn:x:by")]),
    ("a stored query comes again", [opening(1), BY, BY]),
    ("a stored query comes twice", [opening(1), TWICE]),
    ("the built-in query", [opening(1), stored(BUILT_IN, ["id"])]),
    ("a text that is not written so", [opening(1), stored("q", [], QUERY + " ")]),
    ("a parameter without a name", [opening(1), stored("q", [""])]),
    ("parameters equal but for their case", [opening(1), stored("q", ["l", "L"])]),
)
def test_the_last_record_does_not_fit(bodies):
    with Folder() as folder:
        folder.write("journal.a", side(*bodies))
        for command in ("check", "talk"):
            run = folder.run(command)
            same((run.text, run.status), ("wfsd: not of this schema: %d\n" % (len(bodies) - 1), JOURNAL_REFUSED), command)


# ---- checkpoints


@rows(
    ("of nothing has no features", [opening(1)], [base(2, 0, 0, 0)]),
    ("has a record for each stored query", [opening(1), BY, INSERT, SWAP, dropped("urn:x:by"), BY, TO], [base(2, 2, 0, 0), put(put_mark(2, "A")), BY, TO]),
    (
        "has 1,000 features in a record, and the rest in the last",
        [opening(1), *(put(put_mark(it, "A")) for it in range(1001, 0, -1))],
        [base(2, 1001, 0, 0), put(*(put_mark(it, "A") for it in range(1, 1001))), put(put_mark(1001, "A"))],
    ),
)
def test_a_checkpoint(bodies, wanted):
    before, after = side(*bodies, opening(2)), side(*wanted, generation=2)
    with Folder() as folder:
        folder.write("journal.a", side(*bodies))
        run = folder.run("compact")
        same((run.text, run.status), ("side %d to %d bytes\n" % (len(before), len(after)), DONE))
        same((folder.read("journal.a"), folder.read("journal.b")), (before, after))
