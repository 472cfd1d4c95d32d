"""Each refusal byte by byte (OGC 06-121r3, section 8; OGC 09-025r2, section 7.5). Refusals of a fault of the disks and of refused memory
have their rows in `service_session`."""

from expected import XML, is_answered, refused
from harness import DONE, Folder, UNFRAMED, get, insert, mark, post, request, rows, same
from written import feature, like, query, rid

BAD, NOT_SERVED, ABSENT, CONFLICT = "400 Bad Request", "501 Not Implemented", "404 Not Found", "409 Conflict"
FORBIDDEN, FULL = "403 Forbidden", "503 Service Unavailable"
GET = "service=WFS&request="
PARSING, INVALID = "OperationParsingFailed", "InvalidParameterValue"


def is_refused(message: bytes, size: int, status: str, code: str, locator: str, text: str, *before: bytes, closes: bool = False, again: bool = False) -> None:
    """That a message is refused so, by a body of this size; after other messages, with `again` in a session of their own. Where the
    connection closes after it, nothing more is answered."""
    with Folder() as folder:
        if again:
            folder.ask(*before)
        run = folder.talk(*(() if again else before), message, *((get(GET + "GetCapabilities"),) if closes else ()))
        same(run.status, UNFRAMED if closes else DONE, "status")
        output = run.output[run.output.rindex(b"HTTP/1.1") :]
        body = refused(code, locator, text)
        same(len(body) + len('<?xml version="1.0" encoding="UTF-8"?>'), size, "size")
        is_answered(output, body, XML, status, closes)


@rows(
    ("head", b"GET /wfs HTTP/1.1\r\n:\r\n\r\n", 280, BAD, PARSING, "head", "bad message head"),
    ("size", b"POST /wfs HTTP/1.1\r\nContent-Length: 4194305\r\n\r\n", 275, "413 Payload Too Large", "NoApplicableCode", "size", "message too large"),
    ("length", b"POST /wfs HTTP/1.1\r\n\r\n", 283, "411 Length Required", "NoApplicableCode", "Content-Length", "length required"),
    ("coding", post("", fields="Content-Encoding: gzip\r\n"), 272, NOT_SERVED, "OptionNotSupported", "coding", "coded body"),
)
def test_a_message_without_an_end_is_refused_and_the_connection_closes(*row):
    is_refused(*row, closes=True)


LOCK = "service=WFS&request=LockFeature&expiry=1000&"
ONE_LOCKED = insert(mark("A"), mark("B")), get(LOCK + "resourceId=Mark.2")
STORED = '<wfs:StoredQueryDefinition id="%s">%s<wfs:QueryExpressionText returnFeatureTypes="">%s</wfs:QueryExpressionText></wfs:StoredQueryDefinition>'
LABELLED = '<fes:PropertyIsEqualTo><fes:ValueReference>label</fes:ValueReference><fes:Literal>${x}</fes:Literal></fes:PropertyIsEqualTo>'
X = request("CreateStoredQuery", STORED % ("x", '<wfs:Parameter name="x" type="xs:string"/>', query("Mark", LABELLED)))
CASES = '<wfs:Parameter name="X" type="xs:string"/><wfs:Parameter name="x" type="xs:string"/>'
DELETED = '<wfs:Delete typeName="Mark"><fes:Filter>%s</fes:Filter></wfs:Delete>' % rid("Mark.2")
REPLACED = "<wfs:Replace>%s<fes:Filter>%s</fes:Filter></wfs:Replace>" % (mark("C"), like("label", "*"))
MANY = request("CreateStoredQuery", "".join(STORED % ("q%d" % number, "", query("Mark")) for number in range(1001)))


@rows(
    ("path", b"GET /other HTTP/1.1\r\n\r\n", 270, ABSENT, "NoApplicableCode", "path", "unknown path"),
    ("method", b"PUT /wfs HTTP/1.1\r\nContent-Length: 0\r\n\r\n", 279, NOT_SERVED, "OperationNotSupported", "method", "unknown method"),
    ("document", post("<a>"), 280, BAD, PARSING, "document", "bad document"),
    ("misplaced", request("GetFeature", "<wfs:x/>"), 283, BAD, PARSING, "x", "misplaced or malformed"),
    ("operation", get(GET + "x"), 277, NOT_SERVED, "OperationNotSupported", "x", "unknown operation"),
    ("missing", get(GET + "GetFeature&storedQuery_id=x"), 273, BAD, "MissingParameterValue", "x", "value missing", X),
    ("value", get(GET + "GetPropertyValue&typeNames=Mark&valueReference=x"), 273, BAD, INVALID, "x", "value refused"),
    ("option", request("GetFeature", query("Mark"), 'x="1"'), 271, NOT_SERVED, "OptionNotSupported", "x", "option refused"),
    ("version", get(GET + "GetCapabilities&acceptVersions=1.0.0"), 293, BAD, "VersionNegotiationFailed", "acceptVersions", "no common version"),
    ("fit", insert(feature("x")), 269, BAD, "InvalidValue", "x", "value does not fit"),
    ("lock", request("Transaction", "", 'lockId="x"'), 269, BAD, "InvalidLockId", "lockId", "unknown lock"),
    ("several", request("Transaction", REPLACED), 277, BAD, "InvalidValue", "Filter", "more than one feature", insert(mark("A"), mark("B"))),
    ("locked", request("Transaction", DELETED), 282, BAD, "MissingParameterValue", "lockId", "feature is locked", *ONE_LOCKED),
    ("query", X, 278, CONFLICT, "DuplicateStoredQueryIdValue", "x", "query exists", X),
    ("parameter", request("CreateStoredQuery", STORED % ("y", CASES, query("Mark"))), 287, BAD, "DuplicateStoredQueryParameterName", "x", "parameter twice"),
    ("feature", get(GET + "GetFeature&storedQuery_id=urn:ogc:def:query:OGC-WFS::GetFeatureById&id=Mark.9"), 276, ABSENT, INVALID, "id", "no such feature"),
    ("no query", get(GET + "GetFeature&storedQuery_id=x"), 286, BAD, INVALID, "storedQuery_id", "no such query"),
    ("full", MANY, 262, FULL, "NoApplicableCode", "full", "full"),
    # a locator of one character has 5 fewer than these
    ("another's", request("Transaction", DELETED, 'lockId="lock-1-2"'), 297, FORBIDDEN, "OperationProcessingFailed", "Mark.2", "feature is locked by another", *ONE_LOCKED, get(LOCK + "resourceId=Mark.1")),
    ("not all", get(LOCK + "typeNames=Mark"), 281, CONFLICT, "CannotLockAllFeatures", "Mark.2", "not all are free", *ONE_LOCKED),
)
def test_a_request_is_refused(*row):
    is_refused(*row)


def test_a_lock_of_an_earlier_opening_has_expired():
    late = request("Transaction", "", 'lockId="lock-1-1"')
    is_refused(late, 274, FORBIDDEN, "LockHasExpired", "lockId", "lock has expired", *ONE_LOCKED, again=True)


def test_a_locator_is_escaped():
    is_refused(get(GET + "a%22%3C%26"), 292, NOT_SERVED, "OperationNotSupported", "a&quot;&lt;&amp;", "unknown operation")
