"""The schema of the tests of what requests are read as, and documents whose elements need no prefix."""

import re

from harness import post, same

SCHEMA = """title = "Marks"
address = "http://localhost:8080/wfs"
namespace = "http://example.org/marks"
prefix = "m"
srs = ["urn:ogc:def:crs:EPSG::25832", "EPSG:25832", "urn:ogc:def:crs,crs:EPSG::25832"]
[[type]]
name = "Mark"
property = [ {name="label", kind="text", required=true, max=40}, {name="size", kind="integer"}, {name="place", kind="point"} ]
[[type]]
name = "Field"
property = [ {name="name", kind="text"}, {name="area", kind="polygon"} ]
[[type]]
name = "Way"
property = [ {name="course", kind="line", required=true} ]
[[type]]
name = "Lamp"
property = [ {name="lit", kind="boolean", required=true}, {name="kind", kind="text", required=true} ]
"""
"""Marks, fields, ways and lamps, in three names of one reference system, of which the last has a comma in it."""

# Without a prefix an element is one of WFS; f is FES, g GML, o OWS, i the instances of XML Schema, and m the schema.
_SPACES = (
    'xmlns="http://www.opengis.net/wfs/2.0" xmlns:f="http://www.opengis.net/fes/2.0" xmlns:g="http://www.opengis.net/gml/3.2" '
    'xmlns:o="http://www.opengis.net/ows/1.1" xmlns:i="http://www.w3.org/2001/XMLSchema-instance" xmlns:m="http://example.org/marks"'
)


def document(text: str) -> bytes:
    """A message that posts a document, whose root is given the declarations of the name spaces."""
    return post(re.sub(r"(?=[ />])", " " + _SPACES, text, count=1))


def features(content: str, attributes: str = "") -> bytes:
    """A GetFeature with its queries."""
    return document("<GetFeature service='WFS' %s>%s</GetFeature>" % (attributes, content))


def transaction(actions: str, attributes: str = "") -> bytes:
    return document("<Transaction service='WFS' %s>%s</Transaction>" % (attributes, actions))


def creation(definitions: str) -> bytes:
    return document("<CreateStoredQuery service='WFS'>%s</CreateStoredQuery>" % definitions)


def inserted(*features: str) -> bytes:
    """A Transaction that inserts features."""
    return transaction("<Insert>%s</Insert>" % "".join(features))


def mark(label: str, size=None, place: str = "") -> str:
    """A Mark, with a size and a place where they are given."""
    size = "" if size is None else "<m:size>%d</m:size>" % size
    place = place and "<m:place><g:Point><g:pos>%s</g:pos></g:Point></m:place>" % place
    return "<m:Mark><m:label>%s</m:label>%s%s</m:Mark>" % (label, size, place)


# ---- what answers give


def root(answer) -> str:
    """The name of the root of an answer that refuses nothing."""
    same(answer.status, 200, repr(answer))
    return re.match(r"<\?xml[^>]*\?><([\w:]+)", answer.body)[1]


def found(answer) -> str:
    """The features of a collection, or of a bare feature, in their order."""
    same(answer.status, 200, repr(answer))
    return " ".join(answer.ids)


def types(answer) -> str:
    """The types of a schema, in their order."""
    same(root(answer), "xs:schema")
    return " ".join(re.findall(r'<xs:element name="(\w+)" type="m:', answer.body))


def values(answer) -> str:
    """The values of a collection of texts or whole numbers, in their order."""
    same(root(answer), "wfs:ValueCollection")
    return " ".join(re.findall(r"<wfs:member><m:\w+>([^<]*)</m:\w+></wfs:member>", answer.body))


def locked(answer) -> tuple:
    """The features that an answer says are locked, and those that it says are not."""
    same(root(answer), "wfs:LockFeatureResponse")
    parts = [re.search("<wfs:%s>(.*?)</wfs:%s>" % (name, name), answer.body) for name in ("FeaturesLocked", "FeaturesNotLocked")]
    return tuple(" ".join(re.findall(r'rid="([^"]*)"', part[1])) if part else "" for part in parts)


def lock_of(answer) -> str:
    """The lock that an answer has."""
    return re.search(r' lockId="([^"]*)"', answer.body)[1]


def described(answer) -> str:
    """The identifiers of the stored queries that are described or listed, in their order."""
    return " ".join(re.findall(r'<wfs:StoredQuery(?:Description)? id="([^"]*)"', answer.body))
