"""The text of a stored query: written by hand from the rules of such texts, it is what DescribeStoredQueries gives for a definition, and
what a journal may hold. A journal with another text for the same queries is none of the schema."""

import struct

from harness import DONE, JOURNAL_REFUSED, Folder, MARKS, rows, same
from samples import creation, document

DEFINITION = "<StoredQueryDefinition id='urn:x:by'><Parameter name='l'/><QueryExpressionText><Query typeNames='Mark' handle='h'><f:Filter><f:PropertyIsEqualTo matchCase='true'><f:ValueReference>label</f:ValueReference><f:Literal>${l}</f:Literal></f:PropertyIsEqualTo></f:Filter><f:SortBy><f:SortProperty><f:ValueReference>x:size</f:ValueReference><f:SortOrder>DESC</f:SortOrder></f:SortProperty><f:SortProperty><f:ValueReference>label</f:ValueReference><f:SortOrder>ASC</f:SortOrder></f:SortProperty></f:SortBy></Query><Query typeNames='m:Mark'/></QueryExpressionText></StoredQueryDefinition>"

QUERY = '<wfs:Query xmlns:wfs="http://www.opengis.net/wfs/2.0" xmlns:fes="http://www.opengis.net/fes/2.0" xmlns:gml="http://www.opengis.net/gml/3.2" xmlns:m="http://example.org/marks" typeNames="m:Mark"'
TEXT = (
    QUERY + "><fes:Filter><fes:PropertyIsEqualTo><fes:ValueReference>m:label</fes:ValueReference><fes:Literal>${l}</fes:Literal></fes:PropertyIsEqualTo></fes:Filter>"
    "<fes:SortBy><fes:SortProperty><fes:ValueReference>m:size</fes:ValueReference><fes:SortOrder>DESC</fes:SortOrder></fes:SortProperty>"
    "<fes:SortProperty><fes:ValueReference>m:label</fes:ValueReference></fes:SortProperty></fes:SortBy></wfs:Query>" + QUERY + "/>"
)


def test_the_text_that_is_kept_for_a_definition():
    with Folder() as folder:
        _, told = folder.ask(creation(DEFINITION), document("<DescribeStoredQueries service='WFS'><StoredQueryId>urn:x:by</StoredQueryId></DescribeStoredQueries>"))
        same(told.body.partition('isPrivate="false">')[2].partition("</wfs:QueryExpressionText>")[0], TEXT)


# ---- a journal that was written by hand


def counted(text: str) -> bytes:
    return struct.pack(">I", len(text.encode())) + text.encode()


def record(body: bytes) -> bytes:
    return b"\x01" + struct.pack(">I", len(body)) + body


def side(name: str, parameters: list, text: str) -> bytes:
    """The side of a journal: an opening, and the creation of a stored query."""
    opening = struct.pack(">BQ", 1, 1) + counted("Mark(label:text,size:integer,place:point);Field(name:text,area:polygon);Way(course:line);")
    created = struct.pack(">BI", 3, 1) + counted(name) + counted("") + struct.pack(">I", len(parameters)) + b"".join(map(counted, parameters)) + counted(text)
    return b"\x01WFSJNL\x01" + struct.pack(">Q", 1) + record(opening) + record(created) + b"\x00"


def checked(parameters: list, text: str):
    """What `check` says of such a journal."""
    with Folder(MARKS) as folder:
        folder.write("journal.a", side("urn:x:by", parameters, text))
        folder.write("journal.b", b"")
        return folder.run("check")


def test_a_journal_holds_the_text():
    run = checked(["l"], TEXT)
    same((run.status, run.text), (DONE, "types 3 features 0 queries 1 openings 1\n"))


@rows(
    ("a parameter that is not declared", "l}", "k}"),
    ("an order that is none", "fes:SortOrder>DESC", "fes:SortOrder>UP"),
    ("the order that goes without saying", "m:label</fes:ValueReference></fes:SortProperty>", "m:label</fes:ValueReference><fes:SortOrder>ASC</fes:SortOrder></fes:SortProperty>"),
    ("a type without its prefix", 'typeNames="m:Mark"><fes:Filter>', 'typeNames="Mark"><fes:Filter>'),
    ("a space between queries", "</wfs:Query><wfs:Query", "</wfs:Query> <wfs:Query"),
    ("a declaration less", 'xmlns:gml="http://www.opengis.net/gml/3.2" ', ""),
    ("an end tag of an empty query", 'typeNames="m:Mark"/>', 'typeNames="m:Mark"></wfs:Query>'),
    ("a text before it", "<wfs:Query", "text<wfs:Query"),
)
def test_a_journal_is_refused_for(old, new):
    same(TEXT.count(old) > 0, True, old)
    run = checked(["l"], TEXT.replace(old, new, 1))
    same((run.status, run.text), (JOURNAL_REFUSED, "wfsd: not of this schema: 1\n"))


def test_a_journal_is_refused_where_a_parameter_is_not_declared():
    run = checked([], TEXT)
    same((run.status, run.text), (JOURNAL_REFUSED, "wfsd: not of this schema: 1\n"))
