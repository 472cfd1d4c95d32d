"""Requests as documents (OGC 09-025r2, sections 7 to 14): how each operation is read, with its attributes and its elements, and the first
fault that is named."""

from harness import Folder, same
from refusals import MISPLACED, MISSING, NO_QUERY, NO_VERSION, NOT_FREE, OPTION, REFUSED, UNKNOWN_LOCK, UNKNOWN_OPERATION, all_refused, refusal
from samples import SCHEMA, creation, described, document, found, inserted, lock_of, locked, mark, root, types, values

OPERATIONS = [
    ("<Foo/>", UNKNOWN_OPERATION, "Foo"),
    ("<m:Transaction service='WFS'/>", UNKNOWN_OPERATION, "Transaction"),
    ("<getFeature service='WFS'/>", UNKNOWN_OPERATION, "getFeature"),
    ("<Query service='WFS'/>", UNKNOWN_OPERATION, "Query"),
    ("<GetFeature/>", MISSING, "service"),
    ("<GetFeature o:service='WFS'/>", MISSING, "service"),
    ("<GetFeature service='wfs'/>", REFUSED, "service"),
    ("<GetFeature version='2.0.1' service='WMS'/>", REFUSED, "service"),
    ("<GetFeature count='x' version='2.0.1' service='WFS'/>", REFUSED, "version"),
    ("<GetFeature service='WFS' startIndex='x' count='-1'/>", REFUSED, "count"),
    ("<GetFeature service='WFS' resultType='x' startIndex=''/>", REFUSED, "startIndex"),
    ("<GetFeature service='WFS' outputFormat='x' resultType='HITS'/>", REFUSED, "resultType"),
    ("<GetFeature service='WFS' resolve='all' outputFormat='text/xml'/>", REFUSED, "outputFormat"),
    ("<GetFeature service='WFS' a='1' resolve='all'/>", OPTION, "resolve"),
    ("<GetFeature service='WFS' expiry='1' b='1'><Foo/></GetFeature>", OPTION, "b"),
    ("<GetFeature service='WFS'/>", MISPLACED, "GetFeature"),
    ("<GetFeature service='WFS'>text</GetFeature>", MISPLACED, "GetFeature"),
    ("<GetFeature service='WFS'><Query typeNames='Mark'/><Foo/></GetFeature>", MISPLACED, "Foo"),
    ("<GetFeature service='WFS'><Query typeNames='Tree'/><Foo/></GetFeature>", REFUSED, "typeNames"),
    ("<GetFeatureWithLock service='WFS' resultType='hits'/>", REFUSED, "resultType"),
    ("<GetFeatureWithLock service='WFS' lockAction='x' expiry='0'/>", REFUSED, "expiry"),
    ("<GetFeatureWithLock service='WFS' a='1' lockAction='all'/>", REFUSED, "lockAction"),
    ("<GetFeatureWithLock service='WFS' lockId='lock-1-1'/>", OPTION, "lockId"),
    ("<GetFeatureWithLock service='WFS'/>", MISPLACED, "GetFeatureWithLock"),
    ("<LockFeature service='WFS' expiry='x' lockId='lock-0-1'/>", UNKNOWN_LOCK, "lockId"),
    ("<LockFeature service='WFS' lockId='lock-1-01'/>", UNKNOWN_LOCK, "lockId"),
    ("<LockFeature service='WFS' lockId='lock-1-1' lockAction='x' expiry='4294967296'/>", REFUSED, "expiry"),
    ("<LockFeature service='WFS' lockId='lock-1-1' lockAction='x'/>", REFUSED, "lockAction"),
    ("<LockFeature service='WFS' lockId='lock-1-1' count='1'/>", OPTION, "count"),
    ("<LockFeature service='WFS' lockId='lock-1-1'><Foo/></LockFeature>", REFUSED, "lockId"),
    ("<LockFeature service='WFS' lockId='lock-1-1'><Query typeNames='Mark'/></LockFeature>", REFUSED, "lockId"),
    ("<LockFeature service='WFS'/>", MISPLACED, "LockFeature"),
    ("<GetPropertyValue service='WFS' a='1'/>", MISSING, "valueReference"),
    ("<GetPropertyValue service='WFS' resolve='x'/>", OPTION, "resolve"),
    ("<GetPropertyValue service='WFS' valueReference='nope' a='1'/>", OPTION, "a"),
    ("<GetPropertyValue service='WFS' valueReference='nope'/>", MISPLACED, "GetPropertyValue"),
    ("<GetPropertyValue service='WFS' valueReference='nope'><Query typeNames='Tree'/></GetPropertyValue>", REFUSED, "typeNames"),
    ("<GetPropertyValue service='WFS' valueReference='nope'><Query typeNames='Mark'/><Query typeNames='Mark'/></GetPropertyValue>", MISPLACED, "Query"),
    ("<GetPropertyValue service='WFS' valueReference='m:nope'><Query typeNames='Mark'/></GetPropertyValue>", REFUSED, "m:nope"),
    ("<GetPropertyValue service='WFS' valueReference='course'><Query typeNames='Mark'/></GetPropertyValue>", REFUSED, "course"),
    ("<DescribeFeatureType service='WFS' outputFormat='x'/>", REFUSED, "outputFormat"),
    ("<DescribeFeatureType service='WFS' typeName='Mark'/>", OPTION, "typeName"),
    ("<DescribeFeatureType service='WFS'><TypeName>Tree</TypeName></DescribeFeatureType>", REFUSED, "TypeName"),
    ("<DescribeFeatureType service='WFS'><TypeName a='1'>Tree</TypeName></DescribeFeatureType>", OPTION, "a"),
    ("<DescribeFeatureType service='WFS'><TypeName><Foo/></TypeName></DescribeFeatureType>", MISPLACED, "Foo"),
    ("<DescribeFeatureType service='WFS'><m:TypeName>Mark</m:TypeName></DescribeFeatureType>", MISPLACED, "TypeName"),
    ("<GetCapabilities service='WFS' count='1'/>", OPTION, "count"),
    ("<GetCapabilities service='WFS'><AcceptVersions/></GetCapabilities>", MISPLACED, "AcceptVersions"),
    ("<GetCapabilities service='WFS'><o:AcceptVersions a='1'/></GetCapabilities>", OPTION, "a"),
    ("<GetCapabilities service='WFS'><o:AcceptVersions/><o:AcceptVersions/></GetCapabilities>", MISPLACED, "AcceptVersions"),
    ("<GetCapabilities service='WFS'><o:AcceptVersions><o:Version>1.1.0</o:Version></o:AcceptVersions></GetCapabilities>", NO_VERSION, "acceptVersions"),
    ("<GetCapabilities service='WFS'><o:AcceptVersions><o:Version>1.1.0</o:Version></o:AcceptVersions><o:Foo/></GetCapabilities>", MISPLACED, "Foo"),
    ("<GetCapabilities service='WFS'><o:AcceptVersions><o:Version a='1'>2.0.0</o:Version></o:AcceptVersions></GetCapabilities>", OPTION, "a"),
    ("<ListStoredQueries service='WFS' id='a'/>", OPTION, "id"),
    ("<ListStoredQueries service='WFS'><StoredQueryId/></ListStoredQueries>", MISPLACED, "StoredQueryId"),
    ("<DescribeStoredQueries service='WFS'><TypeName/></DescribeStoredQueries>", MISPLACED, "TypeName"),
    ("<DescribeStoredQueries service='WFS'><StoredQueryId><Foo/></StoredQueryId></DescribeStoredQueries>", MISPLACED, "Foo"),
    ("<CreateStoredQuery service='WFS'/>", MISPLACED, "CreateStoredQuery"),
    ("<CreateStoredQuery service='WFS'><StoredQueryDefinition/></CreateStoredQuery>", MISSING, "id"),
    ("<DropStoredQuery service='WFS' a='1'/>", MISSING, "id"),
    ("<DropStoredQuery service='WFS' a='1' id='urn:ogc:def:query:OGC-WFS::GetFeatureById'/>", OPTION, "storedQuery_id"),
    ("<DropStoredQuery service='WFS' id='a'><StoredQueryId/></DropStoredQuery>", MISPLACED, "StoredQueryId"),
    ("<DropStoredQuery service='WFS' id='q' a='1'/>", OPTION, "a"),
    ("<GetCapabilities service='WFS' version='1.1.0'/>", REFUSED, "version"),
    ("<GetCapabilities service='WFS'><o:AcceptVersions><Version>2.0.0</Version></o:AcceptVersions></GetCapabilities>", MISPLACED, "Version"),
    ("<DescribeStoredQueries service='WFS'><StoredQueryId a='1'>q</StoredQueryId></DescribeStoredQueries>", OPTION, "a"),
    ("<ListStoredQueries service='WFS' Handle='h'/>", OPTION, "Handle"),
    # Numbers are digits alone, up to 4,294,967,295.
    ("<GetFeature service='WFS' count='4294967296'/>", REFUSED, "count"),
    ("<GetFeature service='WFS' count='+1'/>", REFUSED, "count"),
    ("<GetFeature service='WFS' count=' 1'/>", REFUSED, "count"),
    ("<GetFeature service='WFS' startIndex='-1'/>", REFUSED, "startIndex"),
    ("<GetFeature service='WFS' outputFormat='application/json'/>", REFUSED, "outputFormat"),
    ("<GetFeature service='WFS' resolve='local'/>", OPTION, "resolve"),
    ("<GetFeature service='WFS' handle='h' mark='1'/>", OPTION, "mark"),
    ("<LockFeature service='WFS' lockAction='some'/>", REFUSED, "lockAction"),
    ("<LockFeature service='WFS' expiry='0'/>", REFUSED, "expiry"),
    ("<DropStoredQuery service='WFS' id='http://www.opengis.net/def/query/OGC-WFS/0/GetFeatureById'/>", OPTION, "storedQuery_id"),
]


def test_the_first_fault_of_a_request_is_named():
    with Folder(SCHEMA) as folder:
        all_refused(folder, document, OPERATIONS)


# Two marks with a size and one without; three fields; a way.
DATA = inserted(
    mark("A", 1), mark("B", 2), mark("C"), *["<m:Field><m:name>%s</m:name></m:Field>" % name for name in "xyz"], "<m:Way><m:course><g:LineString><g:posList>0 0 1 1</g:posList></g:LineString></m:course></m:Way>"
)
# A stored query of the marks of a size.
SIZED = """<StoredQueryDefinition id='q'><Parameter name='a'/><QueryExpressionText><Query typeNames='Mark'><f:Filter><f:PropertyIsEqualTo>
<f:ValueReference>size</f:ValueReference><f:Literal>${a}</f:Literal></f:PropertyIsEqualTo></f:Filter></Query></QueryExpressionText></StoredQueryDefinition>"""
OF_ONE = "<StoredQuery id='q'><Parameter name='a'>1</Parameter></StoredQuery>"
BUILT_IN = "urn:ogc:def:query:OGC-WFS::GetFeatureById"

# A request, what its answer is looked at for, and what is there.
READ = [
    ("<GetCapabilities service='WFS'/>", root, "wfs:WFS_Capabilities"),
    ("<GetCapabilities service='WFS'><o:Sections a='1'/><o:AcceptVersions><o:Version>1.1.0</o:Version><o:Version>2.0.0</o:Version></o:AcceptVersions><o:AcceptFormats/></GetCapabilities>", root, "wfs:WFS_Capabilities"),
    ("<GetCapabilities service='WFS'><o:AcceptVersions/></GetCapabilities>", root, "wfs:WFS_Capabilities"),
    ("<GetCapabilities service='WFS'><o:AcceptVersions><o:Version>2.0.0</o:Version></o:AcceptVersions></GetCapabilities>", root, "wfs:WFS_Capabilities"),
    ("<DescribeFeatureType service='WFS' version='2.0.0' handle='h'/>", types, "Mark Field Way Lamp"),
    ("<DescribeFeatureType outputFormat='text/xml; subtype=gml/3.2' service='WFS'/>", types, "Mark Field Way Lamp"),
    ("<DescribeFeatureType service='WFS'><TypeName>m:Way</TypeName><TypeName>Mark</TypeName></DescribeFeatureType>", types, "Way Mark"),
    ("<GetFeature service='WFS' version='2.0.2' startIndex='2' count='5'><Query typeNames='Field'/>%s</GetFeature>" % OF_ONE, found, "Field.3 Mark.1"),
    ("<GetFeature service='WFS' startIndex='1' count='2'><Query typeNames='Field'/>%s</GetFeature>" % OF_ONE, found, "Field.2 Field.3"),
    ("<GetFeature service='WFS' count='0'><Query typeNames='Field'/></GetFeature>", found, ""),
    ("<GetFeature service='WFS' count='4294967295'><Query typeNames='Mark'/></GetFeature>", found, "Mark.1 Mark.2 Mark.3"),
    ("<GetFeature service='WFS' resultType='hits'><Query typeNames='Mark'/></GetFeature>", found, ""),
    ("<GetFeature service='WFS' resultType='hits'><Query typeNames='Mark'/></GetFeature>", lambda answer: answer.matched, 3),
    ("<GetFeature resolve='none' resultType='results' outputFormat='text/xml; subtype=gml/3.2' service='WFS'><Query typeNames='Mark'/></GetFeature>", found, "Mark.1 Mark.2 Mark.3"),
    ("<GetPropertyValue service='WFS' valueReference='x:size'><Query typeNames='Mark'/></GetPropertyValue>", values, "1 2"),
    ("<GetPropertyValue service='WFS' valueReference='label' startIndex='1' count='1'><Query typeNames='Mark'/></GetPropertyValue>", values, "B"),
    ("<GetPropertyValue valueReference='size' resolve='none' outputFormat='text/xml; subtype=gml/3.2' service='WFS'><Query typeNames='Mark'/></GetPropertyValue>", values, "1 2"),
    ("<GetPropertyValue service='WFS' valueReference='label'>%s</GetPropertyValue>" % OF_ONE, values, "A"),
    # A property is looked for in the type of a stored query once this is known.
    ("<GetPropertyValue service='WFS' valueReference='m:nope'>%s</GetPropertyValue>" % OF_ONE, lambda answer: answer.refusal, refusal(REFUSED, "m:nope")),
    ("<GetPropertyValue service='WFS' valueReference='m:nope'><StoredQuery id='r'/></GetPropertyValue>", lambda answer: answer.refusal, refusal(NO_QUERY, "storedQuery_id")),
    ("<ListStoredQueries service='WFS'/>", described, BUILT_IN + " q"),
    ("<DescribeStoredQueries service='WFS'/>", described, BUILT_IN + " q"),
    ("<DescribeStoredQueries service='WFS'><StoredQueryId>q</StoredQueryId></DescribeStoredQueries>", described, "q"),
    ("<DescribeStoredQueries service='WFS'><StoredQueryId>r</StoredQueryId><StoredQueryId>q</StoredQueryId></DescribeStoredQueries>", lambda answer: answer.refusal, refusal(NO_QUERY, "storedQuery_id")),
    ("<CreateStoredQuery service='WFS' handle='h'><StoredQueryDefinition id='b'><QueryExpressionText><Query typeNames='Mark'/></QueryExpressionText></StoredQueryDefinition></CreateStoredQuery>", root, "wfs:CreateStoredQueryResponse"),
    ("<DescribeStoredQueries service='WFS'><StoredQueryId>b</StoredQueryId><StoredQueryId>q</StoredQueryId></DescribeStoredQueries>", described, "q b"),
    ("<DropStoredQuery service='WFS' version='2.0.2' handle='h' id='q'/>", root, "wfs:DropStoredQueryResponse"),
    ("<ListStoredQueries service='WFS'/>", described, BUILT_IN + " b"),
]


def test_what_each_operation_asks():
    with Folder(SCHEMA) as folder:
        answers = folder.ask(DATA, creation(SIZED), *[document(row[0]) for row in READ])[2:]
        for (text, look, wanted), answer in zip(READ, answers):
            same(look(answer), wanted, text)


ALL_MARKS = "<Query typeNames='Mark'/>"


def test_what_a_lock_takes():
    """All or none where nothing else is said, of a page; and those that are free for SOME."""
    with Folder(SCHEMA) as folder:
        _, page, none, some, refused, rest, way = folder.ask(
            DATA,
            document("<GetFeatureWithLock service='WFS' count='2'>%s</GetFeatureWithLock>" % ALL_MARKS),
            document("<GetFeatureWithLock resolve='none' outputFormat='text/xml; subtype=gml/3.2' service='WFS'>%s</GetFeatureWithLock>" % ALL_MARKS),
            document("<LockFeature service='WFS' lockAction='SOME'>%s</LockFeature>" % ALL_MARKS),
            document("<LockFeature service='WFS' expiry='60'>%s</LockFeature>" % ALL_MARKS),
            document("<GetFeatureWithLock service='WFS' expiry='7' lockAction='SOME'><Query typeNames='Field'/>%s</GetFeatureWithLock>" % ALL_MARKS),
            document("<LockFeature service='WFS' expiry='60' lockAction='ALL'><Query typeNames='Way'/></LockFeature>"),
        )
        same(found(page), "Mark.1 Mark.2")
        same(none.refusal, refusal(NOT_FREE, "Mark.1"))
        same(locked(some), ("Mark.3", "Mark.1 Mark.2"))
        same(refused.refusal, refusal(NOT_FREE, "Mark.1"))
        same(found(rest), "Field.1 Field.2 Field.3")
        same(locked(way), ("Way.1", ""))
        same([lock_of(it) for it in (page, some, rest, way)], ["lock-1-1", "lock-1-2", "lock-1-3", "lock-1-4"])


def test_a_lock_is_renewed_by_its_identifier():
    with Folder(SCHEMA) as folder:
        answers = folder.ask(
            DATA,
            document("<LockFeature service='WFS'>%s</LockFeature>" % ALL_MARKS),
            document("<LockFeature service='WFS' lockId='lock-1-1' lockAction='SOME'/>"),
            document("<LockFeature service='WFS' lockId='lock-1-1' expiry='60'/>"),
        )[1:]
        same([(lock_of(it), locked(it)) for it in answers], [("lock-1-1", ("Mark.1 Mark.2 Mark.3", ""))] * 3)
