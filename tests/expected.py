"""The bytes of answers, put together from what docs/FORMATS.md says of replies (OGC 09-025r2, OGC 06-121r3)."""

import re

from harness import same

GML, XML = "application/gml+xml; version=3.2", "text/xml"
DECLARATION = '<?xml version="1.0" encoding="UTF-8"?>'
# Declarations of name spaces, each after a space.
WFS = ' xmlns:wfs="http://www.opengis.net/wfs/2.0"'
FES = ' xmlns:fes="http://www.opengis.net/fes/2.0"'
GMLS = ' xmlns:gml="http://www.opengis.net/gml/3.2"'
OWS = ' xmlns:ows="http://www.opengis.net/ows/1.1"'
XLINK = ' xmlns:xlink="http://www.w3.org/1999/xlink"'
XS = ' xmlns:xs="http://www.w3.org/2001/XMLSchema"'
M = ' xmlns:m="http://example.org/marks"'
# Another prefix, whose name space has characters that are escaped.
FL = ' xmlns:fl="urn:x:&quot;a&amp;b"'
MOMENT = "1970-01-01T00:16:40Z"
NOW = re.compile(r' timeStamp="\d{4}-[01]\d-[0-3]\dT[0-2]\d:[0-5]\d:[0-6]\dZ"')


def head(body: str, media: str, status: str = "200 OK", closes: bool = False) -> str:
    """An answer with this body, whole."""
    last = "Connection: close\r\n" if closes else ""
    return "HTTP/1.1 %s\r\nContent-Type: %s\r\nContent-Length: %d\r\n%s\r\n%s" % (status, media, len(body.encode()), last, body)


def is_answered(output: bytes, body: str, media: str = XML, status: str = "200 OK", closes: bool = False) -> None:
    """That an output is this answer alone, whatever the time was."""
    same(NOW.sub(' timeStamp="%s"' % MOMENT, output.decode()), head(DECLARATION + body, media, status, closes))


def collection(matched: int, returned: int, more: str = "", *members: str, kind: str = "Feature", spaces: str = WFS + GMLS + M) -> str:
    """A collection of features, or of values, with further attributes and these members."""
    start = '<wfs:%sCollection%s timeStamp="%s" numberMatched="%d" numberReturned="%d"%s' % (kind, spaces, MOMENT, matched, returned, more)
    if not members:
        return start + "/>"
    return "%s>%s</wfs:%sCollection>" % (start, "".join("<wfs:member>%s</wfs:member>" % it for it in members), kind)


def transacted(inserted: int, updated: int, replaced: int, deleted: int, results: str) -> str:
    """The answer to a Transaction."""
    names = ("Inserted", inserted), ("Updated", updated), ("Replaced", replaced), ("Deleted", deleted)
    totals = "".join("<wfs:total%s>%d</wfs:total%s>" % (name, total, name) for name, total in names)
    summary = "<wfs:TransactionSummary>%s</wfs:TransactionSummary>" % totals
    return '<wfs:TransactionResponse%s%s version="2.0.2">%s%s</wfs:TransactionResponse>' % (WFS, FES, summary, results)


def ids(*listed: str) -> str:
    return "".join('<fes:ResourceId rid="%s"/>' % it for it in listed)


def refused(code: str, locator: str, text: str) -> str:
    """The report of a refusal."""
    exception = '<ows:Exception exceptionCode="%s" locator="%s"><ows:ExceptionText>%s</ows:ExceptionText></ows:Exception>' % (code, locator, text)
    return '<ows:ExceptionReport%s version="2.0.2">%s</ows:ExceptionReport>' % (OWS, exception)
