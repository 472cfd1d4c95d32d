"""Whole answers, as the formats say them (docs/FORMATS.md): their heads, and the bodies of those that the tests look at byte by byte."""

import re

from harness import same

XML, FEATURES = "text/xml", "application/gml+xml; version=3.2"
START = '<?xml version="1.0" encoding="UTF-8"?>'
WFS, FES, GML = (' xmlns:%s="http://www.opengis.net/%s"' % it for it in [("wfs", "wfs/2.0"), ("fes", "fes/2.0"), ("gml", "gml/3.2")])
MARKS_SPACE = ' xmlns:m="http://example.org/marks"'
# The moment that stands in place of each that the real clock gave: 1,000 seconds after the first of all.
MOMENT = "1970-01-01T00:16:40Z"

# The table of refusals: the text of each with its status and its code.
REFUSALS = {
    "bad message head": (400, "OperationParsingFailed"),
    "message too large": (413, "NoApplicableCode"),
    "length required": (411, "NoApplicableCode"),
    "coded body": (501, "OptionNotSupported"),
    "unknown path": (404, "NoApplicableCode"),
    "unknown method": (501, "OperationNotSupported"),
    "bad document": (400, "OperationParsingFailed"),
    "misplaced or malformed": (400, "OperationParsingFailed"),
    "unknown operation": (501, "OperationNotSupported"),
    "value missing": (400, "MissingParameterValue"),
    "value refused": (400, "InvalidParameterValue"),
    "option refused": (501, "OptionNotSupported"),
    "no common version": (400, "VersionNegotiationFailed"),
    "value does not fit": (400, "InvalidValue"),
    "unknown lock": (400, "InvalidLockId"),
    "lock has expired": (403, "LockHasExpired"),
    "more than one feature": (400, "InvalidValue"),
    "feature is locked": (400, "MissingParameterValue"),
    "feature is locked by another": (403, "OperationProcessingFailed"),
    "not all are free": (409, "CannotLockAllFeatures"),
    "query exists": (409, "DuplicateStoredQueryIdValue"),
    "parameter twice": (400, "DuplicateStoredQueryParameterName"),
    "no such feature": (404, "InvalidParameterValue"),
    "no such query": (400, "InvalidParameterValue"),
    "store fault": (500, "NoApplicableCode"),
    "full": (503, "NoApplicableCode"),
    "no memory": (503, "NoApplicableCode"),
}
# The phrases of the statuses (RFC 9110, section 15; that of 413 is the one of RFC 7231).
PHRASES = {
    200: "OK",
    400: "Bad Request",
    403: "Forbidden",
    404: "Not Found",
    409: "Conflict",
    411: "Length Required",
    413: "Payload Too Large",
    500: "Internal Server Error",
    501: "Not Implemented",
    503: "Service Unavailable",
}


def refused(text: str, locator: str) -> tuple:
    """What `Answer.refusal` is of a refusal with this text and locator."""
    return (*REFUSALS[text], locator, text)


def answer(body: str, kind: str = XML, status: int = 200, closes: bool = False) -> str:
    """An answer, as it is written."""
    end = "Connection: close\r\n" if closes else ""
    return "HTTP/1.1 %d %s\r\nContent-Type: %s\r\nContent-Length: %d\r\n%s\r\n%s" % (status, PHRASES[status], kind, len(body.encode()), end, body)


def refusal(text: str, locator: str, closes: bool = False) -> str:
    """The answer that refuses with this text and locator."""
    status, code = REFUSALS[text]
    body = '<ows:ExceptionReport xmlns:ows="http://www.opengis.net/ows/1.1" version="2.0.2"><ows:Exception exceptionCode="%s" locator="%s"><ows:ExceptionText>%s</ows:ExceptionText></ows:Exception></ows:ExceptionReport>'
    return answer(START + body % (code, locator, text), XML, status, closes)


def _ids(ids) -> str:
    return "".join('<fes:ResourceId rid="%s"/>' % it for it in ids)


def _made(name: str, made) -> str:
    """What a transaction made: identifiers, or pairs of a handle and an identifier."""
    pairs = [("", it) if isinstance(it, str) else (' handle="%s"' % it[0], it[1]) for it in made]
    features = "".join("<wfs:Feature%s>%s</wfs:Feature>" % (handle, _ids([it])) for handle, it in pairs)
    return "<wfs:%s>%s</wfs:%s>" % (name, features, name) if made else ""


def transacted(inserted=(), updated=(), replaced=(), deleted: int = 0) -> str:
    """The body after a transaction."""
    counts = len(inserted), len(updated), len(replaced), deleted
    totals = "".join("<wfs:total%s>%d</wfs:total%s>" % (name, count, name) for name, count in zip(("Inserted", "Updated", "Replaced", "Deleted"), counts))
    results = _made("InsertResults", inserted) + _made("UpdateResults", updated) + _made("ReplaceResults", replaced)
    return '%s<wfs:TransactionResponse%s%s version="2.0.2"><wfs:TransactionSummary>%s</wfs:TransactionSummary>%s</wfs:TransactionResponse>' % (START, WFS, FES, totals, results)


def locked(lock: str = "", taken=(), free=()) -> str:
    """The body after a lock: its identifier, what it took, and what it left."""
    name = ' lockId="%s"' % lock if lock else ""
    took = "<wfs:FeaturesLocked>%s</wfs:FeaturesLocked>" % _ids(taken) if taken else ""
    left = "<wfs:FeaturesNotLocked>%s</wfs:FeaturesNotLocked>" % _ids(free) if free else ""
    end = ">%s%s</wfs:LockFeatureResponse>" % (took, left) if took + left else "/>"
    return "%s<wfs:LockFeatureResponse%s%s%s%s" % (START, WFS, FES, name, end)


def collection(matched: int, *members: str, returned: int = None, more: str = "", name: str = "FeatureCollection", moment: str = MOMENT) -> str:
    """A collection of features or values, with further attributes."""
    returned = len(members) if returned is None else returned
    start = '%s<wfs:%s%s%s%s timeStamp="%s" numberMatched="%d" numberReturned="%d"%s' % (START, name, WFS, GML, MARKS_SPACE, moment, matched, returned, more)
    return start + (">%s</wfs:%s>" % ("".join("<wfs:member>%s</wfs:member>" % it for it in members), name) if members else "/>")


def feature(rid: str, **values: str) -> str:
    """A feature with values that are written as they stand."""
    name = "m:" + rid.split(".")[0]
    return '<%s gml:id="%s">%s</%s>' % (name, rid, "".join("<m:%s>%s</m:%s>" % (key, it, key) for key, it in values.items()), name)


# The properties of each type of the marks' schema, as their schema document has them.
PROPERTIES = {
    "Mark": '<xs:element name="label" type="xs:string"/><xs:element name="size" type="xs:long" minOccurs="0"/><xs:element name="place" type="gml:PointPropertyType" minOccurs="0"/>',
    "Field": '<xs:element name="name" type="xs:string" minOccurs="0"/><xs:element name="area" type="gml:SurfacePropertyType" minOccurs="0"/>',
    "Way": '<xs:element name="course" type="gml:CurvePropertyType" minOccurs="0"/>',
}


def types(*names: str) -> str:
    """The schema document of these types."""
    kind = '<xs:element name="%s" type="m:%sType" substitutionGroup="gml:AbstractFeature"/><xs:complexType name="%sType"><xs:complexContent><xs:extension base="gml:AbstractFeatureType"><xs:sequence>%s</xs:sequence></xs:extension></xs:complexContent></xs:complexType>'
    spaces = ' xmlns:xs="http://www.w3.org/2001/XMLSchema"' + GML + MARKS_SPACE
    gml = '<xs:import namespace="http://www.opengis.net/gml/3.2" schemaLocation="http://schemas.opengis.net/gml/3.2.1/gml.xsd"/>'
    kinds = "".join(kind % (name, name, name, PROPERTIES[name]) for name in names)
    return '%s<xs:schema%s targetNamespace="http://example.org/marks" elementFormDefault="qualified">%s%s</xs:schema>' % (START, spaces, gml, kinds)


def at_one_moment(output: bytes) -> str:
    """An output in which each moment of the real clock, which has its form, is `MOMENT`. Each has as many bytes as that."""
    text = output.decode()
    for moment in re.findall(r' timeStamp="([^"]*)"', text):
        same(bool(re.fullmatch(r"\d{4}-\d\d-\d\dT\d\d:\d\d:\d\dZ", moment)), True, "form of " + moment)
    return re.sub(r' timeStamp="[^"]*"', ' timeStamp="%s"' % MOMENT, text)


def says(run, *wanted: str, status: int = 0) -> None:
    """That a run wrote these answers, byte by byte but for the moments, and ended with this status."""
    same(at_one_moment(run.output), "".join(wanted), "output")
    same(run.status, status, "status")
