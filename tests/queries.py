"""Queries of documents (OGC 09-025r2, sections 7.9 and 14.2; OGC 09-026r2, section 7.13): a Query with its sort keys, the use of a stored
query, and its definition. What is refused, by the first fault; and what is found."""

from harness import Folder, rows, same
from refusals import MISPLACED, MISSING, NO_QUERY, OPTION, REFUSED, TWICE, all_refused, refusal
from samples import SCHEMA, creation, document, features, inserted, mark

# In a GetFeature.
QUERIES = [
    ("<Mark/>", MISPLACED, "Mark"),
    ("<m:Query typeNames='Mark'/>", MISPLACED, "Query"),
    ("<Query/>", MISSING, "typeNames"),
    ("<Query typeNames=''/>", REFUSED, "typeNames"),
    ("<Query typeNames='Tree'/>", REFUSED, "typeNames"),
    ("<Query typeNames='m:mark'/>", REFUSED, "typeNames"),
    ("<Query typeNames=' Mark'/>", REFUSED, "typeNames"),
    ("<Query typeNames='Mark Mark'/>", OPTION, "typeNames"),
    ("<Query typeNames=' Tree  Bush '/>", OPTION, "typeNames"),
    ("<Query typeNames='Mark' srsName='EPSG:4326'/>", REFUSED, "srsName"),
    ("<Query srsName='EPSG:4326'/>", MISSING, "typeNames"),
    ("<Query srsName='x' typeNames='Tree'/>", REFUSED, "typeNames"),
    ("<Query typeNames='Mark' aliases=''/>", OPTION, "aliases"),
    ("<Query typeNames='Mark' featureVersion='1'/>", OPTION, "featureVersion"),
    ("<Query a='1' featureVersion='1' aliases='a' typeNames='Mark'/>", OPTION, "aliases"),
    ("<Query aliases='a' srsName='x' typeNames='Mark'/>", REFUSED, "srsName"),
    ("<Query typeNames='Mark' z='1' b='2'><Mark/></Query>", OPTION, "b"),
    ("<Query typeNames='Mark'><PropertyName>label</PropertyName></Query>", OPTION, "PropertyName"),
    ("<Query typeNames='Mark'><f:PropertyName/></Query>", MISPLACED, "PropertyName"),
    ("<Query typeNames='Mark'><Filter/></Query>", MISPLACED, "Filter"),
    ("<Query typeNames='Mark'><f:Filter/></Query>", MISPLACED, "Filter"),
    ("<Query typeNames='Mark'><f:Filter><f:ResourceId rid='Mark.1'/></f:Filter><f:Filter><f:ResourceId rid='Mark.1'/></f:Filter></Query>", MISPLACED, "Filter"),
    ("<Query typeNames='Mark'><f:SortBy><f:SortProperty><f:ValueReference>size</f:ValueReference></f:SortProperty></f:SortBy><f:Filter><f:ResourceId rid='Mark.1'/></f:Filter></Query>", MISPLACED, "Filter"),
    ("<Query typeNames='Mark'><f:Filter><f:Touches/></f:Filter><f:Filter/></Query>", OPTION, "Touches"),
    ("<Query typeNames='Mark'><f:Filter><f:PropertyIsNull><f:ValueReference>m:tall</f:ValueReference></f:PropertyIsNull></f:Filter></Query>", REFUSED, "m:tall"),
    ("<Query typeNames='Mark'><f:Filter><f:BBOX><g:Envelope srsName='EPSG:4326'/></f:BBOX></f:Filter></Query>", REFUSED, "srsName"),
    ("<Query typeNames='Mark'><f:Filter><f:BBOX><g:Envelope/></f:BBOX></f:Filter></Query>", MISPLACED, "Filter"),
    ("<Query typeNames='Mark'><f:Filter><f:PropertyIsEqualTo><f:ValueReference>size</f:ValueReference><f:Literal>${l}</f:Literal></f:PropertyIsEqualTo></f:Filter></Query>", REFUSED, "size"),
    ("<Query typeNames='Mark'><f:SortBy a='1'/></Query>", OPTION, "a"),
    ("<Query typeNames='Mark'><SortBy><f:SortProperty><f:ValueReference>size</f:ValueReference></f:SortProperty></SortBy></Query>", MISPLACED, "SortBy"),
]

# In the SortBy of a Query.
KEYS = [
    ("", MISPLACED, "SortBy"),
    ("<f:ValueReference>size</f:ValueReference>", MISPLACED, "ValueReference"),
    ("<SortProperty/>", MISPLACED, "SortProperty"),
    ("<f:SortProperty/>", MISPLACED, "SortProperty"),
    ("<f:SortProperty a='1'/>", OPTION, "a"),
    ("<f:SortProperty><f:SortOrder>ASC</f:SortOrder></f:SortProperty>", MISPLACED, "SortOrder"),
    ("<f:SortProperty><f:ValueReference>tall</f:ValueReference></f:SortProperty>", REFUSED, "tall"),
    ("<f:SortProperty><f:ValueReference>m:place</f:ValueReference></f:SortProperty>", REFUSED, "sortBy"),
    ("<f:SortProperty><f:ValueReference a='1'>tall</f:ValueReference></f:SortProperty>", OPTION, "a"),
    ("<f:SortProperty><f:ValueReference><f:Literal/></f:ValueReference></f:SortProperty>", MISPLACED, "Literal"),
    ("<f:SortProperty><f:ValueReference>size</f:ValueReference><f:ValueReference>label</f:ValueReference></f:SortProperty>", MISPLACED, "ValueReference"),
    ("<f:SortProperty><f:ValueReference>size</f:ValueReference><f:SortOrder>UP</f:SortOrder></f:SortProperty>", REFUSED, "SortOrder"),
    ("<f:SortProperty><f:ValueReference>size</f:ValueReference><f:SortOrder>desc</f:SortOrder></f:SortProperty>", REFUSED, "SortOrder"),
    ("<f:SortProperty><f:ValueReference>size</f:ValueReference><f:SortOrder a='1'>UP</f:SortOrder></f:SortProperty>", OPTION, "a"),
    ("<f:SortProperty><f:ValueReference>size</f:ValueReference><f:SortOrder>ASC</f:SortOrder><f:SortOrder>ASC</f:SortOrder></f:SortProperty>", MISPLACED, "SortOrder"),
    ("<f:SortProperty><f:ValueReference>size</f:ValueReference></f:SortProperty><f:SortProperty/>", MISPLACED, "SortProperty"),
    ("<f:SortProperty><f:ValueReference>size</f:ValueReference></f:SortProperty></f:SortBy><f:SortBy>", MISPLACED, "SortBy"),
    ("<SortProperty><f:ValueReference>size</f:ValueReference></SortProperty>", MISPLACED, "SortProperty"),
    ("<f:SortProperty><f:ValueReference>size</f:ValueReference></f:SortProperty></f:SortBy><f:SortBy><f:SortProperty><f:ValueReference>size</f:ValueReference></f:SortProperty>", MISPLACED, "SortBy"),
    ("<f:SortProperty><ValueReference>size</ValueReference></f:SortProperty>", MISPLACED, "ValueReference"),
    ("<f:SortProperty><f:ValueReference>size</f:ValueReference><SortOrder>DESC</SortOrder></f:SortProperty>", MISPLACED, "SortOrder"),
]

# In a GetFeature too.
USES = [
    ("<StoredQuery/>", MISSING, "id"),
    ("<StoredQuery id='q' a='1'/>", OPTION, "a"),
    ("<StoredQuery id='q'><Query/></StoredQuery>", MISPLACED, "Query"),
    ("<StoredQuery id='q'><f:Parameter name='a'/></StoredQuery>", MISPLACED, "Parameter"),
    ("<StoredQuery id='q'><Parameter>1</Parameter></StoredQuery>", MISSING, "name"),
    ("<StoredQuery id='q'><Parameter name='' b='1'/></StoredQuery>", REFUSED, "name"),
    ("<StoredQuery id='q'><Parameter name='a' type='t'/></StoredQuery>", OPTION, "type"),
    ("<StoredQuery id='q'><Parameter name='a'><b/></Parameter></StoredQuery>", MISPLACED, "b"),
    ("<StoredQuery id='q'><Parameter name='a'/><Parameter name='b'/><Parameter name='a'/></StoredQuery>", MISPLACED, "Parameter"),
    ("<StoredQuery id='q'><Parameter name='a'/><Parameter name='a'><b/></Parameter></StoredQuery>", MISPLACED, "Parameter"),
    ("<StoredQuery id='q'><Parameter name='a'/><Parameter name='a' b='1'/></StoredQuery>", OPTION, "b"),
    ("<StoredQuery a='1'/>", MISSING, "id"),
]

# In a CreateStoredQuery.
DEFINITIONS = [
    ("<Query/>", MISPLACED, "Query"),
    ("<StoredQueryDefinition/>", MISSING, "id"),
    ("<StoredQueryDefinition id='q' a='1'/>", OPTION, "a"),
    ("<StoredQueryDefinition id='q'/>", MISPLACED, "StoredQueryDefinition"),
    ("<StoredQueryDefinition id='q'><Metadata/></StoredQueryDefinition>", MISPLACED, "Metadata"),
    ("<StoredQueryDefinition id='q'><Title/><Title/></StoredQueryDefinition>", MISPLACED, "Title"),
    ("<StoredQueryDefinition id='q'><Title lang='en'/></StoredQueryDefinition>", OPTION, "lang"),
    ("<StoredQueryDefinition id='q'><Title><b/></Title></StoredQueryDefinition>", MISPLACED, "b"),
    ("<StoredQueryDefinition id='q'><Parameter/></StoredQueryDefinition>", MISSING, "name"),
    ("<StoredQueryDefinition id='q'><Parameter name=''/></StoredQueryDefinition>", REFUSED, "name"),
    ("<StoredQueryDefinition id='q'><Parameter name='a' b=''/></StoredQueryDefinition>", OPTION, "b"),
    ("<StoredQueryDefinition id='q'><Parameter name='a'><Title/></Parameter></StoredQueryDefinition>", MISPLACED, "Title"),
    ("<StoredQueryDefinition id='q'><Parameter name='aB'/><Title/><Parameter name='Ab'><b/></Parameter></StoredQueryDefinition>", TWICE, "Ab"),
    ("<StoredQueryDefinition id='q'><QueryExpressionText/></StoredQueryDefinition>", MISPLACED, "QueryExpressionText"),
    ("<StoredQueryDefinition id='q'><QueryExpressionText language='urn:x:sql' a='1'/></StoredQueryDefinition>", OPTION, "language"),
    ("<StoredQueryDefinition id='q'><QueryExpressionText a='1'/></StoredQueryDefinition>", OPTION, "a"),
    ("<StoredQueryDefinition id='q'><QueryExpressionText><StoredQuery id='r'/></QueryExpressionText></StoredQueryDefinition>", MISPLACED, "StoredQuery"),
    ("<StoredQueryDefinition id='q'><QueryExpressionText><Query typeNames='Tree'/></QueryExpressionText></StoredQueryDefinition>", REFUSED, "typeNames"),
    ("<StoredQueryDefinition id='q'><QueryExpressionText><Query typeNames='Mark'/></QueryExpressionText><QueryExpressionText/></StoredQueryDefinition>", MISPLACED, "QueryExpressionText"),
    ("<StoredQueryDefinition id='q'><QueryExpressionText><Query typeNames='Mark'><f:Filter><f:ResourceId rid='${l}'/></f:Filter></Query></QueryExpressionText></StoredQueryDefinition>", MISSING, "l"),
    ("<StoredQueryDefinition id='q'><Parameter name='L'/><QueryExpressionText><Query typeNames='Mark'><f:Filter><f:ResourceId rid='${l}'/></f:Filter></Query></QueryExpressionText></StoredQueryDefinition>", MISSING, "l"),
    ("<StoredQueryDefinition id='q'><QueryExpressionText><Query typeNames='Mark'><f:Filter><f:ResourceId rid='${l}'/></f:Filter></Query></QueryExpressionText><Parameter name='l'/><Parameter name='L'/></StoredQueryDefinition>", TWICE, "L"),
    ("<StoredQueryDefinition id='q'><QueryExpressionText><Query typeNames='Tree'/></QueryExpressionText><Parameter/></StoredQueryDefinition>", REFUSED, "typeNames"),
    ("<StoredQueryDefinition id='q'><QueryExpressionText><Query typeNames='Mark'/></QueryExpressionText><QueryExpressionText><Query typeNames='Mark'/></QueryExpressionText></StoredQueryDefinition>", MISPLACED, "QueryExpressionText"),
]


def sorted_by(keys: str) -> bytes:
    return features("<Query typeNames='Mark'><f:SortBy>%s</f:SortBy></Query>" % keys)


@rows(("Query", features, QUERIES), ("sort keys", sorted_by, KEYS), ("the use of a stored query", features, USES), ("a definition", creation, DEFINITIONS))
def test_the_first_fault_is_named_of(message, table):
    with Folder(SCHEMA) as folder:
        all_refused(folder, message, table)
        # A refusal leaves nothing.
        same(folder.check(), "types 4 features 0 queries 0 openings 1\n")


MARKS = inserted(mark("B", 2), mark("A", 3), mark("C", 1), mark("D"))


def found(answer) -> str:
    """The numbers of the features that were found, in their order."""
    same(answer.status, 200, repr(answer))
    return " ".join(it.split(".")[1] for it in answer.ids)


def key(name: str, order: str = "") -> str:
    order = order and "<f:SortOrder>%s</f:SortOrder>" % order
    return "<f:SortProperty><f:ValueReference>%s</f:ValueReference>%s</f:SortProperty>" % (name, order)


# A null is sorted before all, and after all in the other direction.
FOUND = [
    (features("<Query typeNames='Mark'/>"), "1 2 3 4"),
    (features("<Query handle='h' srsName='EPSG:25832' typeNames='x:Mark' f:aliases='a'>text</Query>"), "1 2 3 4"),
    (sorted_by(key("size")), "4 3 1 2"),
    (sorted_by(key("size", "ASC")), "4 3 1 2"),
    (sorted_by(key("size", "DESC")), "2 1 3 4"),
    (sorted_by(key(":label", "DESC")), "4 3 1 2"),
    (sorted_by(key("m:label")), "2 1 3 4"),
]


def test_what_a_query_finds_in_its_order():
    with Folder(SCHEMA) as folder:
        for number, answer in enumerate(folder.ask(MARKS, *[message for message, _ in FOUND])[1:]):
            same(found(answer), FOUND[number][1], repr(FOUND[number][0]))


# ---- uses and definitions

LABELLED = """<StoredQueryDefinition id='q'><Parameter name='a'/><QueryExpressionText><Query typeNames='Mark'><f:Filter><f:PropertyIsEqualTo>
<f:ValueReference>label</f:ValueReference><f:Literal>${a}</f:Literal></f:PropertyIsEqualTo></f:Filter></Query></QueryExpressionText></StoredQueryDefinition>"""


def test_of_several_values_for_a_parameter_the_first_counts():
    use = "<StoredQuery id='q' handle='h'><Parameter name='%s'>1 2</Parameter><Parameter name='%s'>B</Parameter></StoredQuery>"
    with Folder(SCHEMA) as folder:
        _, _, one, other = folder.ask(inserted(mark("1 2"), mark("B")), creation(LABELLED), features(use % ("a", "A")), features(use % ("A", "a")))
        same(found(one), "1")
        same(found(other), "1")


def test_a_use_of_no_identifier_is_of_an_unknown_query():
    with Folder(SCHEMA) as folder:
        (answer,) = folder.ask(features("<StoredQuery id=''><Parameter name='a'/></StoredQuery>"))
        same(answer.refusal, refusal(NO_QUERY, "storedQuery_id"))


SPACES = 'xmlns:wfs="http://www.opengis.net/wfs/2.0" xmlns:fes="http://www.opengis.net/fes/2.0" xmlns:gml="http://www.opengis.net/gml/3.2" xmlns:m="http://example.org/marks"'
ALL_MARKS = '<wfs:Query %s typeNames="m:Mark"/>' % SPACES
BY_ID = '<wfs:Query %s typeNames="m:Mark"><fes:Filter><fes:ResourceId rid="${l}"/></fes:Filter></wfs:Query>' % SPACES


def described(name: str, more: str, text: str) -> str:
    """A description of a stored query of Marks."""
    language = "urn:ogc:def:queryLanguage:OGC-WFS::WFS_QueryExpression"
    return '<wfs:StoredQueryDescription id="%s">%s<wfs:QueryExpressionText returnFeatureTypes="m:Mark" language="%s" isPrivate="false">%s</wfs:QueryExpressionText></wfs:StoredQueryDescription>' % (name, more, language, text)


# A definition, and what is told of it.
KEPT = [
    (
        "<StoredQueryDefinition id='q'><QueryExpressionText isPrivate='x' returnFeatureTypes='' language='urn:ogc:def:queryLanguage:OGC-WFS::WFS_QueryExpression'><Query typeNames='Mark'/></QueryExpressionText></StoredQueryDefinition>",
        described("q", "", ALL_MARKS),
    ),
    (
        "<StoredQueryDefinition id='r'><QueryExpressionText language='urn:ogc:def:queryLanguage:OGC-WFS::WFSQueryExpression'><Query typeNames='Mark'><f:Filter><f:ResourceId rid='${l}'/></f:Filter></Query><Query typeNames='Mark'/></QueryExpressionText><Abstract a='1'><b/></Abstract><Parameter name='l' type='m:label'/><Abstract/><Title>By label</Title><Parameter name='k'/></StoredQueryDefinition>",
        described("r", '<wfs:Title>By label</wfs:Title><wfs:Parameter name="l" type="xs:string"/><wfs:Parameter name="k" type="xs:string"/>', BY_ID + ALL_MARKS),
    ),
]


def test_what_is_told_of_a_definition():
    with Folder(SCHEMA) as folder:
        answer = folder.ask(creation("".join(given for given, _ in KEPT)), document("<DescribeStoredQueries service='WFS'><StoredQueryId>r</StoredQueryId><StoredQueryId>q</StoredQueryId></DescribeStoredQueries>"))[1]
        told = answer.body.partition("<wfs:StoredQueryDescription ")
        same(told[1] + told[2], "".join(wanted for _, wanted in KEPT) + "</wfs:DescribeStoredQueriesResponse>")
