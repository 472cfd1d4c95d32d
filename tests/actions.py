"""Transactions and their actions (OGC 09-025r2, section 15.2): the first fault that is named, and what features are afterwards."""

import re

from harness import Folder, rows, same
from refusals import EXPIRED, MISPLACED, MISSING, OPTION, REFUSED, UNFIT, UNKNOWN_LOCK, all_refused, refusal
from samples import SCHEMA, document, features, found, inserted, locked, mark, root, transaction

# Transactions, whole.
TRANSACTIONS = [
    ("<Transaction/>", MISSING, "service"),
    ("<Transaction version='1.1.0'/>", MISSING, "service"),
    ("<Transaction lockId='a' version='2' service='WFS'/>", REFUSED, "version"),
    ("<Transaction srsName='x' releaseAction='x' lockId='a' service='WFS'/>", UNKNOWN_LOCK, "lockId"),
    ("<Transaction srsName='x' releaseAction='all' service='WFS'/>", REFUSED, "releaseAction"),
    ("<Transaction a='1' srsName='EPSG:4326' service='WFS'/>", REFUSED, "srsName"),
    ("<Transaction service='WFS' b='1' a='1'><Foo/></Transaction>", OPTION, "a"),
    ("<Transaction service='WFS' b='1' B='1'/>", OPTION, "B"),
    ("<Transaction service='WFS' releaseAction='NONE'/>", REFUSED, "releaseAction"),
    ("<Transaction service='WFS' lockId='lock-01-1'/>", UNKNOWN_LOCK, "lockId"),
    ("<Transaction service='WFS'><Native/></Transaction>", OPTION, "Native"),
    ("<Transaction service='WFS'><Query/></Transaction>", MISPLACED, "Query"),
    ("<Transaction service='WFS'><m:Insert/></Transaction>", MISPLACED, "Insert"),
    ("<Transaction service='WFS'><Delete typeName='Mark'><f:Filter><f:ResourceId rid='Mark.1'/></f:Filter></Delete><Foo/><Native/></Transaction>", MISPLACED, "Foo"),
]

# Updates.
UPDATES = [
    ("<Update/>", MISSING, "typeName"),
    ("<Update handle='h' inputFormat='x'/>", MISSING, "typeName"),
    ("<Update srsName='x' inputFormat='x' typeName='Tree'/>", REFUSED, "typeName"),
    ("<Update srsName='x' inputFormat='x' typeName='Mark'/>", REFUSED, "inputFormat"),
    ("<Update a='1' srsName='x' typeName='Mark'/>", REFUSED, "srsName"),
    ("<Update a='1' typeName='Mark'><Foo/></Update>", OPTION, "a"),
    ("<Update inputFormat='text/xml' typeName='Mark'/>", REFUSED, "inputFormat"),
    ("<Update typeName='Mark'/>", MISPLACED, "Update"),
    ("<Update typeName='Mark'>text</Update>", MISPLACED, "Update"),
    ("<Update typeName='Mark'><m:Property/></Update>", MISPLACED, "Property"),
    ("<Update typeName='Mark'><f:Filter><f:ResourceId rid='Mark.1'/></f:Filter></Update>", MISPLACED, "Filter"),
    ("<Update typeName='Mark'><Property a='1'/></Update>", OPTION, "a"),
    ("<Update typeName='Mark'><Property/></Update>", MISPLACED, "Property"),
    ("<Update typeName='Mark'><Property><Value/></Property></Update>", MISPLACED, "Value"),
    ("<Update typeName='Mark'><Property><ValueReference action='remove'>nope</ValueReference></Property></Update>", OPTION, "action"),
    ("<Update typeName='Mark'><Property><ValueReference a='1'>nope</ValueReference></Property></Update>", OPTION, "a"),
    ("<Update typeName='Mark'><Property><ValueReference><Foo/></ValueReference></Property></Update>", MISPLACED, "Foo"),
    ("<Update typeName='Mark'><Property><ValueReference>m:nope</ValueReference><Foo/></Property></Update>", REFUSED, "m:nope"),
    ("<Update typeName='Mark'><Property><ValueReference>size</ValueReference><Foo/></Property></Update>", MISPLACED, "Foo"),
    ("<Update typeName='Mark'><Property><ValueReference>size</ValueReference><Value a='1'>x</Value></Property></Update>", OPTION, "a"),
    ("<Update typeName='Mark'><Property><ValueReference>size</ValueReference><Value>x</Value></Property></Update>", UNFIT, "size"),
    ("<Update typeName='Mark'><Property><ValueReference>size</ValueReference><Value/></Property></Update>", UNFIT, "size"),
    ("<Update typeName='Mark'><Property><ValueReference>size</ValueReference><Value>1</Value><Value>1</Value></Property></Update>", MISPLACED, "Value"),
    ("<Update typeName='Mark'><Property><ValueReference>label</ValueReference></Property></Update>", UNFIT, "label"),
    ("<Update typeName='Mark'><Property><ValueReference>label</ValueReference><Value><Foo/></Value></Property></Update>", UNFIT, "label"),
    ("<Update typeName='Mark'><Property><ValueReference>place</ValueReference><Value>1 2</Value></Property></Update>", UNFIT, "place"),
    ("<Update typeName='Mark'><Property><ValueReference>place</ValueReference><Value><g:LineString><g:posList>1 2 3 4</g:posList></g:LineString></Value></Property></Update>", UNFIT, "place"),
    ("<Update typeName='Way'><Property><ValueReference>course</ValueReference><Value/></Property></Update>", UNFIT, "course"),
    ("<Update typeName='Mark'><Property><ValueReference>size</ValueReference></Property><f:Filter><f:ResourceId rid='Mark.1'/></f:Filter><Property/></Update>", MISPLACED, "Property"),
    ("<Update typeName='Mark'><Property><ValueReference>size</ValueReference></Property><f:Filter><f:ResourceId rid='Mark.1'/></f:Filter><f:Filter/></Update>", MISPLACED, "Filter"),
    ("<Update typeName='Mark'><Property><ValueReference>size</ValueReference></Property><f:Filter><f:PropertyIsNull><f:ValueReference>tall</f:ValueReference></f:PropertyIsNull></f:Filter></Update>", REFUSED, "tall"),
    ("<Update typeName='Mark'><Property><ValueReference>size</ValueReference></Property><f:Filter><f:Touches/></f:Filter></Update>", OPTION, "Touches"),
    ("<Update typeName='Mark'><Property><ValueReference>size</ValueReference></Property><f:Filter><f:ResourceId rid='Mark.1'/></f:Filter><f:Filter><f:ResourceId rid='Mark.1'/></f:Filter></Update>", MISPLACED, "Filter"),
    ("<Update typeName='Mark'><Property><ValueReference>size</ValueReference></Property><f:Filter><f:ResourceId rid='Mark.1'/></f:Filter><Property><ValueReference>size</ValueReference></Property></Update>", MISPLACED, "Property"),
    ("<Update typeName='Mark'><Property><f:ValueReference>size</f:ValueReference></Property></Update>", MISPLACED, "ValueReference"),
    ("<Update typeName='Mark'><Property><ValueReference>size</ValueReference><m:Value>5</m:Value></Property></Update>", MISPLACED, "Value"),
]

# Inserts, replacements and deletions.
OTHERS = [
    ("<Insert/>", MISPLACED, "Insert"),
    ("<Insert>text</Insert>", MISPLACED, "Insert"),
    ("<Insert srsName='x' inputFormat='y'/>", REFUSED, "inputFormat"),
    ("<Insert a='1' srsName='EPSG:4326'/>", REFUSED, "srsName"),
    ("<Insert typeName='Mark'/>", OPTION, "typeName"),
    ("<Replace srsName='x' inputFormat='y'/>", REFUSED, "inputFormat"),
    ("<Replace typeName='Mark'/>", OPTION, "typeName"),
    ("<Replace/>", MISPLACED, "Replace"),
    ("<Replace><f:Filter><f:ResourceId rid='Mark.1'/></f:Filter></Replace>", UNFIT, "Filter"),
    ("<Replace><m:Mark/></Replace>", UNFIT, "label"),
    ("<Replace><m:Mark><m:label>A</m:label></m:Mark></Replace>", MISPLACED, "Replace"),
    ("<Replace><m:Mark><m:label>A</m:label></m:Mark><m:Mark/></Replace>", MISPLACED, "Mark"),
    ("<Replace><m:Mark><m:label>A</m:label></m:Mark><f:Filter/></Replace>", MISPLACED, "Filter"),
    ("<Replace><m:Mark><m:label>A</m:label></m:Mark><f:Filter><f:PropertyIsNull><f:ValueReference>course</f:ValueReference></f:PropertyIsNull></f:Filter></Replace>", REFUSED, "course"),
    ("<Replace><m:Mark><m:label>A</m:label></m:Mark><f:Filter><f:ResourceId rid='Mark.1'/></f:Filter><f:Filter/></Replace>", MISPLACED, "Filter"),
    ("<Delete handle='h'/>", MISSING, "typeName"),
    ("<Delete a='1' typeName='mark'/>", REFUSED, "typeName"),
    ("<Delete inputFormat='x' typeName='Mark'/>", OPTION, "inputFormat"),
    ("<Delete typeName='Mark'/>", MISPLACED, "Delete"),
    ("<Delete typeName='Mark'><Filter/></Delete>", MISPLACED, "Filter"),
    ("<Delete typeName='Mark'><f:Filter><f:ResourceId/></f:Filter></Delete>", MISPLACED, "ResourceId"),
    ("<Delete typeName='Mark'><f:Filter><f:ResourceId rid='Mark.1'/></f:Filter><Property/></Delete>", MISPLACED, "Property"),
    ("<Delete typeName='Mark'><Filter><f:ResourceId rid='Mark.1'/></Filter></Delete>", MISPLACED, "Filter"),
]


@rows(("a transaction", document, TRANSACTIONS), ("an update", transaction, UPDATES), ("another action", transaction, OTHERS))
def test_the_first_fault_is_named_of(message, table):
    with Folder(SCHEMA) as folder:
        all_refused(folder, message, table)


# ---- what is changed

WAYS = "<m:Way><m:course><g:LineString><g:posList>0 0 1 1</g:posList></g:LineString></m:course></m:Way>" * 2
FIRST = "<f:Filter><f:ResourceId rid='Mark.1'/></f:Filter>"


def text_of(name: str, feature: str):
    """The text of a property, or the position of its point; None where the feature has none."""
    content = re.search("<m:%s(?:/>|>(?:<gml:Point[^>]*><gml:pos>)?([^<]*))" % name, feature)
    return content and (content[1] or "")


def marks(answer) -> list:
    """The label, the size and the place of each mark that was found."""
    return [tuple(text_of(name, it) for name in ("label", "size", "place")) for it in answer.body.split("<wfs:member>")[1:]]


@rows(
    ("all of a type are updated", "<Update typeName='m:Mark' handle='h'><Property><ValueReference action='replace'>m:size</ValueReference><Value> 5 </Value></Property></Update>", [("A", "5", "1 1"), ("B", "5", None)]),
    ("the last of two values for a property stands", "<Update typeName='Mark'><Property><ValueReference>size</ValueReference></Property><Property><ValueReference>size</ValueReference><Value>6</Value></Property>%s</Update>" % FIRST, [("A", "6", "1 1"), ("B", "2", None)]),
    ("no value is a null", "<Update srsName='EPSG:25832' inputFormat='text/xml; subtype=gml/3.2.1' typeName='Mark'><Property><ValueReference>size</ValueReference></Property></Update>", [("A", None, "1 1"), ("B", None, None)]),
    ("a nil of a value is passed over", "<Update typeName='Mark'><Property><ValueReference>label</ValueReference><Value i:nil='true'>C</Value></Property></Update>", [("C", "1", "1 1"), ("C", "2", None)]),
    ("an empty text is a value", "<Update typeName='Mark'><Property><ValueReference>label</ValueReference><Value/></Property></Update>", [("", "1", "1 1"), ("", "2", None)]),
    ("an empty value of a geometry is a null", "<Update typeName='Mark'><Property><ValueReference>place</ValueReference><Value/></Property></Update>", [("A", "1", None), ("B", "2", None)]),
    ("a point is set", "<Update typeName='Mark'><Property><ValueReference>place</ValueReference><Value><g:Point><g:pos>1 2</g:pos></g:Point></Value></Property></Update>", [("A", "1", "1 2"), ("B", "2", "1 2")]),
    ("a feature is replaced whole", "<Replace handle='h'><m:Mark><m:label>C</m:label></m:Mark>%s</Replace>" % FIRST, [("C", None, None), ("B", "2", None)]),
    ("a feature is inserted", "<Insert srsName='EPSG:25832' inputFormat='application/gml+xml; version=3.2'><m:Mark><m:label>C</m:label></m:Mark></Insert>", [("A", "1", "1 1"), ("B", "2", None), ("C", None, None)]),
    ("a feature is deleted by its identifier", "<Delete typeName='Mark' handle='h'>%s</Delete>" % FIRST, [("B", "2", None)]),
    ("features are deleted by a filter of their type", "<Delete typeName='Mark'><f:Filter><f:PropertyIsNull><f:ValueReference>place</f:ValueReference></f:PropertyIsNull></f:Filter></Delete>", [("A", "1", "1 1")]),
)
def test_what_marks_are_where(action, wanted):
    with Folder(SCHEMA) as folder:
        _, done, after = folder.ask(inserted(mark("A", 1, "1 1"), mark("B", 2)), transaction(action), features("<Query typeNames='Mark'/>"))
        same(root(done), "wfs:TransactionResponse")
        same(marks(after), wanted)


@rows(
    ("by an identifier", "<Delete typeName='Way' handle='h'><f:Filter><f:ResourceId rid='Way.1'/></f:Filter></Delete>", "Way.2"),
    ("by a filter", "<Delete typeName='Way'><f:Filter><f:Not><f:PropertyIsNull><f:ValueReference>course</f:ValueReference></f:PropertyIsNull></f:Not></f:Filter></Delete>", ""),
)
def test_ways_are_deleted(action, wanted):
    with Folder(SCHEMA) as folder:
        _, _, after = folder.ask(inserted(WAYS), transaction(action), features("<Query typeNames='Way'/>"))
        same(found(after), wanted)


# ---- what becomes of a lock

LOCK = document("<LockFeature service='WFS'><Query typeNames='Mark'/></LockFeature>")
RENEW = document("<LockFeature service='WFS' lockId='lock-1-1'/>")
UPDATE = "<Update typeName='Mark'><Property><ValueReference>size</ValueReference></Property>%s</Update>" % FIRST


@rows(
    ("none is named", document("<Transaction service='WFS' releaseAction='SOME'/>"), "Mark.1 Mark.2"),
    ("it is named alone", document("<Transaction service='WFS' lockId='lock-1-1'/>"), None),
    ("all is released", document("<Transaction handle='t' srsName='EPSG:25832' releaseAction='ALL' lockId='lock-1-1' version='2.0.2' service='WFS'>text</Transaction>"), None),
    ("some is released, and nothing is touched", document("<Transaction service='WFS' releaseAction='SOME' lockId='lock-1-1'/>"), "Mark.1 Mark.2"),
    ("some is released, and a feature is touched", transaction(UPDATE, "lockId='lock-1-1' releaseAction='SOME'"), "Mark.2"),
    ("all is released, and a feature is touched", transaction(UPDATE, "lockId='lock-1-1'"), None),
)
def test_what_becomes_of_a_lock_where(message, wanted):
    with Folder(SCHEMA) as folder:
        _, _, done, renewed = folder.ask(inserted(mark("A", 1), mark("B", 2)), LOCK, message, RENEW)
        same(root(done), "wfs:TransactionResponse")
        if wanted is None:
            same(renewed.refusal, refusal(EXPIRED, "lockId"))
        else:
            same(locked(renewed), (wanted, ""))


def test_a_lock_of_another_opening_is_unknown():
    with Folder(SCHEMA) as folder:
        (answer,) = folder.ask(document("<Transaction service='WFS' lockId='lock-2-31'/>"))
        same(answer.refusal, refusal(UNKNOWN_LOCK, "lockId"))
