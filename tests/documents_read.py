"""Documents as XML 1.0 and Namespaces in XML 1.0 have them: which are refused, and what the others are read as."""

from xml.etree import ElementTree

from harness import Folder, get, insert, post, request, rows, same

REFUSED = 400, "OperationParsingFailed", "document", "bad document"


def judged(documents: list) -> list:
    """What is said of each document: None where it is refused as none, or else the name of its root, which is no operation."""
    with Folder() as folder:
        found = folder.ask(*map(post, documents))
    return [None if it.refusal == REFUSED else it.refusal[2] if it.refusal[1] == "OperationNotSupported" else it for it in found]


# Documents, and the name of the root, or None where they break a rule.
DOCUMENTS = [
    # The byte order mark and the declaration.
    ("\ufeff<a/>", "a"),
    ("\ufeff<?xml version='1.0'?><a/>", "a"),
    ("\ufeff\ufeff<a/>", None),
    ('<?xml version="1.0"?><a/>', "a"),
    ("<?xml version = '1.0' encoding = \"utf-8\"?><a/>", "a"),
    ("<?xml\r\nversion='1.0'\tencoding='UTF-8' standalone='yes' ?>\n<a/>", "a"),
    ("<?xml version='1.0' standalone=\"no\"?><a/>", "a"),
    ("<?xml version='1.1'?><a/>", None),
    ("<?xml version='1.0' encoding='latin1'?><a/>", None),
    ("<?xml version='1.0' encoding='utf8'?><a/>", None),
    ("<?xml version='1.0' encoding='Utf-8'?><a/>", "a"),
    ("<?xml version='1.0' standalone='maybe'?><a/>", None),
    ("<?xml version='1.0' standalone='YES'?><a/>", None),
    ("<?xml version='1.0' standalone='no' encoding='UTF-8'?><a/>", None),
    ("<?xml encoding='UTF-8'?><a/>", None),
    ("<?xml version='1.0'encoding='UTF-8'?><a/>", None),
    ("<?xml version='1.&#48;'?><a/>", None),
    ("<?xml version='1.0\"?><a/>", None),
    ("<?xml version='1.0'><a/>", None),
    (" <?xml version='1.0'?><a/>", None),
    # What stands round the root.
    ("", None),
    (" \t\n", None),
    ("<!-- a --> \n<a/>\n<!-- b --><!----> ", "a"),
    ("x<a/>", None),
    ("<a/>x", None),
    ("<a/><b/>", None),
    ("<a/>&#32;", None),
    ("<![CDATA[ ]]><a/>", None),
    ("<!DOCTYPE a><a/>", None),
    ("<a/><!DOCTYPE a>", None),
    ("<a><!DOCTYPE a></a>", None),
    ("<!doctype a><a/>", None),
    ("<!DOCTYP a><a/>", None),
    ("<!ELEMENT a><a/>", None),
    ("<?style a?><a/>", None),
    ("<a><?style a?></a>", None),
    ("<a/><!-- b ", None),
    ("<a/><", None),
    ("<p:a><", None),
    # Comments.
    ("<a>x<!-- <b> & ]]> -->y</a>", "a"),
    ("<a><!--a---></a>", "a"),
    ("<a><!-- a -- b --></a>", None),
    ("<a><!--a----></a>", None),
    ("<a><!-></a>", None),
    ("<a><!---></a>", None),
    # Names and tags.
    ("<_a.b-c9/>", "_a.b-c9"),
    ("<a />", "a"),
    ("<a></a>", "a"),
    ("<a\n></a\t>", "a"),
    ("<a\xa0/>", None),
    ("< a/>", None),
    ("<9a/>", None),
    ("<-a/>", None),
    ("<_ABCDEFGHIJKLMNOPQRSTUVWXYZ.abcdefghijklmnopqrstuvwxyz-0123456789/>", "_ABCDEFGHIJKLMNOPQRSTUVWXYZ.abcdefghijklmnopqrstuvwxyz-0123456789"),
    ("<A Z='1' a='2' z='3' _='4'/>", "A"),
    ("<a@/>", None),
    ("<a[/>", None),
    ("<a^/>", None),
    ("<a`/>", None),
    ("<a{/>", None),
    ("<a,/>", None),
    ("<a;/>", None),
    ("<.a/>", None),
    ("<\xe9/>", None),
    ("<a\xe9/>", None),
    ("<a:/>", None),
    ("<:a/>", None),
    ("<a:b:c xmlns:a='u'/>", None),
    ("<a", None),
    ("<a/", None),
    ("<a/ >", None),
    ("<a>", None),
    ("<a>xy", None),
    ("<a></b>", None),
    ("<a></A>", None),
    ("<a></ a>", None),
    ("<a></a", None),
    ("<a><b></a></b>", None),
    ("<p:a xmlns:p='u' xmlns:q='u'></q:a>", None),
    ("<p:a xmlns:p='u'></p:a >", "a"),
    # Attributes.
    ("<a b='1' c = \"2\"\n\td='3'/>", "a"),
    ("<a b='x\ty\nz\r\nw'/>", "a"),
    ("<a b='&#9;&#10;&#13;&#32;'/>", "a"),
    ("<a b='&lt;&gt;&amp;&quot;&apos;'/>", "a"),
    ("<a b='\"' c=\"'\" d='>]]>'/>", "a"),
    ("<a b=''/>", "a"),
    ("<a b='<'/>", None),
    ("<a b='&'/>", None),
    ("<a b='&none;'/>", None),
    ("<a b=c/>", None),
    ("<a b/>", None),
    ("<a b='1'c='2'/>", None),
    ("<a b='1\"/>", None),
    ("<a b='1' b='2'/>", None),
    ("<a b='1' B='2'/>", "a"),
    ("<a xmlns:p='u' xmlns:q='u' p:b='1' q:b='2'/>", None),
    ("<a xmlns:p='u' xmlns:q='v' p:b='1' q:b='2' b='3'/>", "a"),
    # Text.
    ("<a> x &#xe9;&#233;&#x1F600; </a>", "a"),
    ("<a>&lt;&gt;&amp;&quot;&apos;</a>", "a"),
    ("<a>\r\n\r\r\n\n</a>", "a"),
    ("<a>&#13;&#10;</a>", "a"),
    ("<a>\x85\u2028</a>", "a"),
    ("<a>&#0;</a>", None),
    ("<a>&#xFFFE;</a>", None),
    ("<a>&#xFFFF;</a>", None),
    ("<a>&#31;</a>", None),
    ("<a>&#11;</a>", None),
    ("<a>&#xDFFF;</a>", None),
    ("<a>&#xD7FF;&#xE000;&#xFFFD;&#x10000;</a>", "a"),
    ("<a>&#xD800;</a>", None),
    ("<a>&#x110000;</a>", None),
    ("<a>&#x10FFFF;&#000065;</a>", "a"),
    ("<a>&#99999999999999999999;</a>", None),
    ("<a>&#4294967361;</a>", None),
    ("<a>&#;</a>", None),
    ("<a>&#x;</a>", None),
    ("<a>&#X41;</a>", None),
    ("<a>&#4A;</a>", None),
    ("<a>&#x4g;</a>", None),
    ("<a>&#x4G;</a>", None),
    ("<a>&lt</a>", None),
    ("<a>&LT;</a>", None),
    ("<a>&nbsp;</a>", None),
    ("<a>& </a>", None),
    ("<a>x]]>y</a>", None),
    ("<a>]]&gt;]><![CDATA[]]]]>]]</a>", "a"),
    ("<a>]<!-- -->]></a>", "a"),
    ("<a>x<![CDATA[<b>&amp;]]]>y</a>", "a"),
    ("<a><![CDATA[x]] ></a>", None),
    ("<a><![cdata[x]]></a>", None),
    # Children and text.
    ("<a> <b>1</b>\n\t<c/> </a>", "a"),
    ("<a>&#32;<b/><![CDATA[ ]]></a>", "a"),
    ("<a>x<b/></a>", None),
    ("<a><b/><![CDATA[x]]></a>", None),
    ("<a><b/>&#13;</a>", None),
    ("<a><b>x</b><b>y<c/></b></a>", None),
    # Name spaces.
    ("<a xmlns='u'><b c='1'/></a>", "a"),
    ("<a xmlns='u'><b xmlns=''/><c/></a>", "a"),
    ("<a><b xmlns='u'/><c/></a>", "a"),
    ("<p:a xmlns:p='u'><p:b xmlns:p='v'/><p:c/></p:a>", "a"),
    ("<a><p:b xmlns:p='u'/><p:c/></a>", None),
    ("<a p:b='1' xmlns:p='u'/>", "a"),
    ("<a xml:lang='en'/>", "a"),
    ("<a xmlns:xml='u' xml:lang='en'/>", "a"),
    ("<xml:a/>", "a"),
    ("<p:a xmlns:p='http://www.w3.org/XML/1998/namespace'/>", "a"),
    ("<xmlns:a xmlns:xmlns='u'/>", "a"),
    ("<a xmlns:p='u' p:xmlns='v'/>", "a"),
    ("<a xmlns:p='&#117;&amp;'><p:b/></a>", "a"),
    ("<a xmlns:p=''/>", None),
    ("<a xmlns:xml=''/>", None),
    ("<a xmlns:p='u' xmlns:p='u'/>", None),
    ("<a xmlns='u' xmlns='u'/>", None),
    ("<p:a/>", None),
    ("<a p:b='1'/>", None),
    ("<xmlns:a/>", None),
    # Which fault is named: the first item's, and of one item the first in the order of faults.
    ("<p:a b='<'/>", None),
    ("<p:a b='1' b='2'/>", None),
    ("<p:a xmlns:q='u' xmlns:r='u' q:b='1' r:b='2'/>", None),
    ("<a q:b='' r:b='' s:c='' xmlns:q='u' xmlns:r='u'/>", None),
    ("<p:a xmlns:q=''/>", None),
    ("<p:a q:b='1' q:b='2'/>", None),
    ("<a>]]><p:b/></a>", None),
    ("<a><p:b/>]]></a>", None),
    ("<p:a></b>", None),
    ("<a>x<p:b/></a>", None),
    ("<a><b><!DOCTYPE c></a>", None),
    ("<a></b><!DOCTYPE c>", None),
    # The characters are judged before all else.
    ("<a>\ufffe", None),
    ("<a>\uffff", None),
    ("<a></b>\x01", None),
    ("<a>\x00</a>", None),
    ("<a>\x08</a>", None),
    ("<a>\x0b</a>", None),
    ("<a>\x0c</a>", None),
    ("<a>\x0e</a>", None),
    ("<a>\x1f</a>", None),
    ("<a b='\x1f'/>", None),
    ("<a>\ud7ff\U0010ffff</a>", "a"),
    ("<a>\ufffd\ue000\U00010000\x7f</a>", "a"),
]


def test_documents_are_read_or_refused():
    for (document, name), found in zip(DOCUMENTS, judged([document for document, _ in DOCUMENTS])):
        same(found, name, repr(document))


def test_bytes_that_are_no_text_are_refused():
    same(judged([b"<a>\xff</a>", b"<a>\xed\xa0\x80</a>", b"<a>\xc3\xa9</a>"]), [None, None, "a"])


# ---- limits


def test_levels_are_counted():
    levels = [(32, "x", "a"), (31, "<b/>", "a"), (33, "x", None), (32, "<b/>", None)]
    documents = ["<a>" * count + inside + "</a>" * count for count, inside, _ in levels]
    same(judged(documents), [name for _, _, name in levels])


@rows(("100,000", 99999, "a"), ("one more", 100000, None))
def test_elements_are_counted(children, wanted):
    same(judged(["<a>%s</a>" % ("<b/>" * children)]), [wanted])


def test_attributes_are_counted_beside_declarations():
    tag = lambda count: "<a%s/>" % "".join(" b%d='' xmlns:p%d='u'" % (number, number) for number in range(count))
    same(judged([tag(64), tag(65)]), ["a", None])


def test_the_longest_document_is_read():
    """A body has up to 4,194,304 bytes."""
    same(judged(["<a>%s</a>" % ("x" * (4194304 - 7))]), ["a"])


# ---- what is read

# What stands in an element, and its text.
TEXTS = [
    ("x<!-- <b> & ]]> -->y", "xy"),
    ("<!--a--->", ""),
    (" x &#xe9;&#233;&#x1F600; ", " x \xe9\xe9\U0001f600 "),
    ("&lt;&gt;&amp;&quot;&apos;", "<>&\"'"),
    ("\r\n\r\r\n\n", "\n\n\n\n"),
    ("&#13;&#10;", "\r\n"),
    ("\x85\u2028", "\x85\u2028"),
    ("&#xD7FF;&#xE000;&#xFFFD;&#x10000;", "\ud7ff\ue000\ufffd\U00010000"),
    ("&#x10FFFF;&#000065;", "\U0010ffffA"),
    ("]]&gt;]><![CDATA[]]]]>]]", "]]>]>]]]]"),
    ("]<!-- -->]>", "]]>"),
    ("x<![CDATA[<b>&amp;]]]>y", "x<b>&amp;]y"),
    ("\ud7ff\U0010ffff", "\ud7ff\U0010ffff"),
    ("\ufffd\ue000\U00010000\x7f", "\ufffd\ue000\U00010000\x7f"),
]


def test_texts_are_read():
    """Each is a label, which is given back."""
    features = ["<m:Mark><m:label>%s</m:label></m:Mark>" % text for text, _ in TEXTS]
    with Folder() as folder:
        _, found = folder.ask(insert(*features), get("service=WFS&request=GetPropertyValue&typeNames=Mark&valueReference=label"))
    labels = [it.text or "" for it in ElementTree.fromstring(found.body.encode()).iter("{http://example.org/marks}label")]
    same(len(labels), len(TEXTS))
    for (text, wanted), label in zip(TEXTS, labels):
        same(label, wanted, repr(text))


# A value as it is written, with its quotes, and what it is.
VALUES = [
    ("'x\ty\nz\r\nw'", "x y z w"),
    ("'&#9;&#10;&#13;&#32;'", "\t\n\r "),
    ("'&lt;&gt;&amp;&quot;&apos;'", "<>&\"'"),
    ("'\"'", '"'),
    ('"\'"', "'"),
    ("'>]]>'", ">]]>"),
    ("''", ""),
    ("\n'1'", "1"),
]


def test_values_are_read():
    """Each is a handle, which is given back."""
    inserts = ["<wfs:Insert handle = %s><m:Mark><m:label>A</m:label></m:Mark></wfs:Insert>" % value for value, _ in VALUES]
    with Folder() as folder:
        (found,) = folder.ask(request("Transaction", "".join(inserts)))
    made = list(ElementTree.fromstring(found.body.encode()).iter("{http://www.opengis.net/wfs/2.0}Feature"))
    same(len(made), len(VALUES))
    for (value, wanted), feature in zip(VALUES, made):
        same(feature.get("handle"), wanted, repr(value))


WFS, FES = "http://www.opengis.net/wfs/2.0", "http://www.opengis.net/fes/2.0"
# Documents of two queries at most, and `None` where they are carried out, or else the code and the locator of the refusal.
SPACES_OF_NAMES = [
    ("<GetFeature xmlns='{w}' service='WFS'><Query typeNames='Mark'/></GetFeature>", None),
    ("<GetFeature service='WFS' xmlns='{w}'><Query typeNames='Mark'><Filter xmlns='{f}'><ResourceId rid='Mark.1'/></Filter></Query>"
     "<Query typeNames='Mark'/></GetFeature>", None),
    ("<GetFeature xmlns='{w}' service='WFS'><Query xmlns='' typeNames='Mark'/></GetFeature>", ("OperationParsingFailed", "Query")),
    ("<p:GetFeature xmlns:p='{w}' service='WFS'><p:Query typeNames='Mark'><p:Filter xmlns:p='{f}'><p:ResourceId rid='Mark.1'/></p:Filter></p:Query>"
     "<p:Query typeNames='Mark'/></p:GetFeature>", None),
    ("<p:GetFeature xmlns:p='{w}' service='WFS'><Query typeNames='Mark'/></p:GetFeature>", ("OperationParsingFailed", "Query")),
    ("<p:GetFeature xmlns:p='{w}' xmlns:q='{w}' service='WFS'><q:Query typeNames='Mark'/></p:GetFeature>", None),
    ("<p:GetFeature xmlns:p='http://www.opengis.net/wfs/2&#46;0' service='WFS'><p:Query typeNames='Mark'/></p:GetFeature>", None),
    ("<p:GetFeature xmlns:p='http://www.opengis.net/wfs' service='WFS'/>", ("OperationNotSupported", "GetFeature")),
    ("<xml:GetFeature service='WFS'/>", ("OperationNotSupported", "GetFeature")),
    ("<xmlns:GetFeature xmlns:xmlns='{w}' service='WFS'><xmlns:Query typeNames='Mark'/></xmlns:GetFeature>", None),
    # an attribute is in no name space, or in that of its prefix, where it counts for nothing
    ("<p:GetFeature xmlns:p='{w}' service='WFS' q:x='1' xmlns:q='u'><p:Query typeNames='Mark'/></p:GetFeature>", None),
    ("<p:GetFeature xmlns:p='{w}' service='WFS' p:service='x' p:xmlns='v'><p:Query typeNames='Mark'/></p:GetFeature>", None),
    ("<p:GetFeature xmlns:p='{w}' xmlns:xml='u' service='WFS' xml:service='x'><p:Query typeNames='Mark'/></p:GetFeature>", None),
    ("<p:GetFeature xmlns:p='{w}' p:service='WFS'><p:Query typeNames='Mark'/></p:GetFeature>", ("MissingParameterValue", "service")),
    ("<p:GetFeature xmlns:p='{w}' Service='WFS'><p:Query typeNames='Mark'/></p:GetFeature>", ("MissingParameterValue", "service")),
    # white space beside children counts for nothing
    ("<GetFeature xmlns='{w}' service='WFS'>&#32;<Query typeNames='Mark'/><![CDATA[ ]]>\n\t</GetFeature>", None),
]


def test_names_have_the_name_space_of_their_prefix():
    documents = [document.format(w=WFS, f=FES) for document, _ in SPACES_OF_NAMES]
    with Folder() as folder:
        for document, (_, wanted), found in zip(documents, SPACES_OF_NAMES, folder.ask(*map(post, documents))):
            same(found.status if wanted is None else found.refusal[1:3], wanted or 200, document)


@rows(
    ("of four, where a capital letter is before a small one", 'note="b" mark="a" Note="c" zone="d"', "Note"),
    ("of three", 'note="b" mark="a" zone="d"', "mark"),
    ("the longer one", 'b="1" aa="2"', "aa"),
)
def test_the_first_other_attribute_is_refused(attributes, first):
    """By the bytes of the names."""
    with Folder() as folder:
        (found,) = folder.ask(request("GetFeature", '<wfs:Query typeNames="Mark"/>', attributes))
        same(found.refusal, (501, "OptionNotSupported", first, "option refused"))
