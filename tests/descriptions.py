"""How the service describes itself and its types, byte by byte (OGC 09-025r2, sections 8 and 9; OGC 06-121r3)."""

from expected import FL, GML, GMLS, M, OWS, WFS, XLINK, XML, XS, is_answered
from harness import DONE, Folder, MARKS, get, same

OPERATIONS = """GetCapabilities DescribeFeatureType GetPropertyValue GetFeature GetFeatureWithLock LockFeature Transaction
ListStoredQueries DescribeStoredQueries CreateStoredQuery DropStoredQuery""".split()
BY_POST_ALONE = "Transaction", "CreateStoredQuery"
# A type with one property and one with none, another prefix, and characters that are escaped.
FLAGS = """title = 'Flags & "more"'
address = 'http://h/a"&b'
namespace = 'urn:x:"a&b'
prefix = "fl"
srs = %s
[[type]]
name = "Flag"
property = [ {name="up", kind="boolean", required=true} ]
[[type]]
name = "Bare"
property = []
"""
MARKED = "urn:ogc:def:crs:EPSG::25832", "EPSG:25832"


def is_told(schema: str, query: str, body: str, media: str) -> None:
    """That a GET is answered by this body."""
    with Folder(schema) as folder:
        run = folder.talk(get("service=WFS&request=" + query))
        same(run.status, DONE)
        is_answered(run.output, body, media)


def operation(name: str, address: str) -> str:
    by_get = "" if name in BY_POST_ALONE else '<ows:Get xlink:href="%s?"/>' % address
    by_post = '<ows:Post xlink:href="%s"/>' % address
    return '<ows:Operation name="%s"><ows:DCP><ows:HTTP>%s%s</ows:HTTP></ows:DCP></ows:Operation>' % (name, by_get, by_post)


def offered_type(name: str, default: str, *others: str) -> str:
    local = name.partition(":")[2]
    rest = "".join("<wfs:OtherCRS>%s</wfs:OtherCRS>" % other for other in others)
    return "<wfs:FeatureType><wfs:Name>%s</wfs:Name><wfs:Title>%s</wfs:Title><wfs:DefaultCRS>%s</wfs:DefaultCRS>%s</wfs:FeatureType>" % (name, local, default, rest)


def capabilities(space: str, title: str, address: str, *types: str) -> str:
    service = "<ows:Title>%s</ows:Title><ows:ServiceType>WFS</ows:ServiceType><ows:ServiceTypeVersion>2.0.2</ows:ServiceTypeVersion>" % title
    return "".join([
        '<wfs:WFS_Capabilities%s%s%s%s version="2.0.2">' % (WFS, OWS, XLINK, space),
        "<ows:ServiceIdentification>%s</ows:ServiceIdentification>" % service,
        "<ows:OperationsMetadata>%s</ows:OperationsMetadata>" % "".join(operation(name, address) for name in OPERATIONS),
        "<wfs:FeatureTypeList>%s</wfs:FeatureTypeList>" % "".join(types),
        "</wfs:WFS_Capabilities>",
    ])


def test_the_service_says_what_it_offers():
    types = (offered_type("m:" + name, *MARKED) for name in ("Mark", "Field", "Way"))
    is_told(MARKS, "GetCapabilities", capabilities(M, "Marks", "http://localhost:8080/wfs", *types), XML)


def flags(*names: str) -> str:
    types = offered_type("fl:Flag", *names), offered_type("fl:Bare", *names)
    return capabilities(FL, 'Flags &amp; "more"', "http://h/a&quot;&amp;b", *types)


def test_what_it_offers_is_escaped():
    is_told(FLAGS % """['a"&b']""", "GetCapabilities", flags('a"&amp;b'), XML)


def test_each_name_of_the_reference_system_is_offered():
    is_told(FLAGS % """["a", 'b"<c', "d&e"]""", "GetCapabilities", flags("a", 'b"&lt;c', "d&amp;e"), XML)


def described(prefix: str, name: str, *properties: tuple) -> str:
    element = '<xs:element name="%s" type="%s"%s/>'
    held = "".join(element % (local, kind, "" if required else ' minOccurs="0"') for local, kind, required in properties)
    sequence = "<xs:sequence>%s</xs:sequence>" % held if held else "<xs:sequence/>"
    extension = '<xs:complexContent><xs:extension base="gml:AbstractFeatureType">%s</xs:extension></xs:complexContent>' % sequence
    head = '<xs:element name="%s" type="%s:%sType" substitutionGroup="gml:AbstractFeature"/>' % (name, prefix, name)
    return '%s<xs:complexType name="%sType">%s</xs:complexType>' % (head, name, extension)


def schema(space: str, target: str, *types: str) -> str:
    import_gml = '<xs:import namespace="http://www.opengis.net/gml/3.2" schemaLocation="http://schemas.opengis.net/gml/3.2.1/gml.xsd"/>'
    start = '<xs:schema%s%s%s targetNamespace="%s" elementFormDefault="qualified">' % (XS, GMLS, space, target)
    return start + import_gml + "".join(types) + "</xs:schema>"


def test_all_types_are_described_where_none_is_asked_for():
    mark = described("m", "Mark", ("label", "xs:string", True), ("size", "xs:long", False), ("place", "gml:PointPropertyType", False))
    field = described("m", "Field", ("name", "xs:string", False), ("area", "gml:SurfacePropertyType", False))
    way = described("m", "Way", ("course", "gml:CurvePropertyType", False))
    is_told(MARKS, "DescribeFeatureType", schema(M, "http://example.org/marks", mark, field, way), GML)
    is_told(MARKS, "DescribeFeatureType&typeNames=m:Way", schema(M, "http://example.org/marks", way), GML)


def test_types_are_described_once_in_the_order_asked():
    wanted = schema(FL, "urn:x:&quot;a&amp;b", described("fl", "Bare"), described("fl", "Flag", ("up", "xs:boolean", True)))
    is_told(FLAGS % '["a"]', "DescribeFeatureType&typeNames=Bare,Bare,Flag,Bare,Flag", wanted, GML)
