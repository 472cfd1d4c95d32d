"""Settings that many operations share: numbers, the version, formats and names of reference systems, as they may be written."""

from harness import Folder, SPACES, insert, mark, post, request, same
from written import query

EIGHT = insert(*[mark("A")] * 8)
REFUSED = "InvalidParameterValue"

# Numbers of 32 bits, as they may be written.
NUMBERS = [
    ("0", 0),
    ("4294967295", 4294967295),
    ("007", 7),
    ("4294967296", None),
    ("+1", None),
    (" 1", None),
    ("", None),
    # more digits than any number of 32 bits has
    ("000000000001", 1),
    ("-0", None),
    ("1 ", None),
    # a digit of another script
    ("\u0661", None),
]


def judged(name: str, texts: list) -> list:
    """A GetFeature with an attribute of each text: how many of eight marks it returns, or what it refuses."""
    asked = [request("GetFeature", query("Mark"), '%s="%s"' % (name, text)) for text in texts]
    with Folder() as folder:
        found = folder.ask(EIGHT, *asked)[1:]
    return [len(it.ids) if it.status == 200 else it.refusal for it in found]


def refusal(name: str) -> tuple:
    return 400, REFUSED, name, "value refused"


def test_a_count_is_digits_of_32_bits():
    came = judged("count", [text for text, _ in NUMBERS])
    for (text, number), found in zip(NUMBERS, came):
        same(found, refusal("count") if number is None else min(number, 8), repr(text))


def test_a_start_is_digits_of_32_bits():
    came = judged("startIndex", [text for text, _ in NUMBERS])
    for (text, number), found in zip(NUMBERS, came):
        same(found, refusal("startIndex") if number is None else max(8 - number, 0), repr(text))


# The formats that name GML 3.2, and others (OGC 09-025r2, section 7.6.3.7).
FORMATS = [
    ("application/gml+xml; version=3.2", True),
    ("text/xml; subtype=gml/3.2", True),
    ("text/xml; subtype=gml/3.2.1", True),
    ("text/xml", False),
    ("2.0", False),
    ("application/gml+xml;version=3.2", False),
    ("TEXT/XML; SUBTYPE=GML/3.2", False),
]


def test_formats_are_known():
    came = judged("outputFormat", [text for text, _ in FORMATS])
    for (text, is_known), found in zip(FORMATS, came):
        same(found, 8 if is_known else refusal("outputFormat"), text)


VERSIONS = [("2.0.0", True), ("2.0.2", True), ("2.0.1", False), ("2.0", False), ("text/xml", False)]


def test_versions_are_known():
    body = "<wfs:GetFeature %s>%s</wfs:GetFeature>"
    asked = [post(body % (SPACES.replace('version="2.0.2"', 'version="%s"' % text), query("Mark"))) for text, _ in VERSIONS]
    with Folder() as folder:
        for (text, is_known), found in zip(VERSIONS, folder.ask(*asked)):
            same(found.status if is_known else found.refusal, 200 if is_known else refusal("version"), text)


NAMES = [("urn:ogc:def:crs:EPSG::25832", True), ("EPSG:25832", True), ("epsg:25832", False), ("EPSG:25833", False)]


def test_reference_systems_are_found_by_their_names_as_they_are():
    asked = [request("GetFeature", '<wfs:Query typeNames="Mark" srsName="%s"/>' % text) for text, _ in NAMES]
    with Folder() as folder:
        for (text, is_known), found in zip(NAMES, folder.ask(*asked)):
            same(found.status if is_known else found.refusal, 200 if is_known else refusal("srsName"), text)
