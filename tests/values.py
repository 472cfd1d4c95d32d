"""Values of each kind: which texts are read as one, by an Insert and by an Update, and what is given back (XML Schema Part 2, 3.2.2 and 3.3.20); how
they compare (OGC 09-026r2, 7.7); and the names of properties and types, and the identifiers, which are known as they are written."""

from xml.etree import ElementTree

from harness import Folder, get, insert, request, rows, same
from truths import HEAD
from written import compare, feature, find, line, lit, negated, point, polygon, ref, rid

# A type with a property of each kind, and two texts that have at most 3 and 256 characters.
KINDS = HEAD + """
[[type]]
name = "One"
property = [ {name="words", kind="text"}, {name="short", kind="text", max=3}, {name="long", kind="text", max=256}, {name="whole", kind="integer"},
  {name="truth", kind="boolean"}, {name="spot", kind="point"}, {name="way", kind="line"}, {name="area", kind="polygon"} ]
"""


def unfit(name: str) -> tuple:
    """The refusal of a value that does not fit the property, or of a name that is none."""
    return 400, "InvalidValue", name, "value does not fit"


def unknown(name: str) -> tuple:
    """The refusal of a value of this name, or of a property that is called so."""
    return 400, "InvalidParameterValue", name, "value refused"


def values_of(name: str, kind: str = "One") -> bytes:
    return get("service=WFS&request=GetPropertyValue&typeNames=%s&valueReference=%s" % (kind, name))


def read_in(answer) -> list:
    """The texts of the values of a collection, of geometries their positions."""
    return ["".join(it.itertext()) for it in ElementTree.fromstring(answer.body.encode()).iter("{http://www.opengis.net/wfs/2.0}member")]


# ---- what is read

LOW, HIGH = "-9223372036854775808", "9223372036854775807"
# A property, what stands in it, and the value that is given back, or None where it is refused.
WHOLE = [("whole", text, wanted) for text, wanted in [
    ("0", "0"), ("-0", "0"), ("+0", "0"), ("-00", "0"), ("+1", "1"), ("-17", "-17"), ("007", "7"), ("-007", "-7"), ("000000000000000000000000000012", "12"),
    (HIGH, HIGH), ("+" + HIGH, HIGH), (LOW, LOW), ("9223372036854775808", None), ("+9223372036854775808", None), ("-9223372036854775809", None),
    ("18446744073709551616", None), (" \t\n5\n ", "5"), ("&#13;5", None), ("5\xa0", None), ("", None), (" ", None), ("+", None), ("+-1", None),
    ("- 1", None), ("1 2", None), ("1.0", None), ("1e2", None), ("\u0661", None),
]]
TRUTH = [("truth", text, wanted) for text, wanted in [
    ("true", "true"), ("1", "true"), ("false", "false"), ("0", "false"), ("\ttrue ", "true"), ("\n0\n", "false"), ("True", None), ("FALSE", None),
    ("tru", None), ("truefalse", None), ("01", None), ("+1", None), ("2", None), ("", None), ("true&#13;", None),
]]
# Characters of one to four bytes, which count alike. Texts are taken whole.
TEXTS = [("short", text, text) for text in ("", " a ", "\xe4\u20ac\U0001f5fa", "\xe4\xf6\xfc")]
TEXTS += [("short", text, None) for text in ("abcd", "    ", "\xe4\xf6\xfc\xdf", "\U0001f5fa" * 4)]
TEXTS += [("long", character * 256, character * 256) for character in "a\xe4\u20ac\U0001f5fa"]
TEXTS += [("long", character * 257, None) for character in "a\xe4\u20ac\U0001f5fa"]
TEXTS += [("words", "a" * 4096, "a" * 4096), ("words", "a" * 4097, None)]
# A content of each kind, and what each kind of property makes of those that it takes. No text is read as a geometry.
POINT, LINE, AREA = point("1 2"), line("0 0 9 9"), polygon("0 0 9 0 9 9 0 9 0 0")
CONTENTS = "abc", "0", "false", "1 2", POINT, LINE, AREA
TAKEN = {
    "words": {"abc": "abc", "0": "0", "false": "false", "1 2": "1 2"},
    "whole": {"0": "0"},
    "truth": {"0": "false", "false": "false"},
    "spot": {POINT: "1 2"},
    "way": {LINE: "0 0 9 9"},
    "area": {AREA: "0 0 9 0 9 9 0 9 0 0"},
}
MIXED = [(name, content, taken.get(content)) for name, taken in TAKEN.items() for content in CONTENTS]


def inserted(name: str, content: str) -> bytes:
    return insert(feature("One", **{name: content}))


def updated(name: str, content: str = None, kind: str = "One") -> bytes:
    """An Update of all features of a type; without a content the property becomes null."""
    value = "" if content is None else "<wfs:Value>%s</wfs:Value>" % content
    return request("Transaction", '<wfs:Update typeName="%s"><wfs:Property><wfs:ValueReference>%s</wfs:ValueReference>%s</wfs:Property></wfs:Update>' % (kind, name, value))


EMPTIED = request("Transaction", '<wfs:Delete typeName="One"><fes:Filter>%s</fes:Filter></wfs:Delete>' % negated(rid("nobody")))


def given_back(messages: list, table: list) -> None:
    """That the second of each three messages is answered with the value of its row, and where there is none, the first is refused."""
    with Folder(KINDS) as folder:
        answers = folder.ask(insert(feature("One")), *messages)[1:]
    for at, (name, content, wanted) in enumerate(table):
        changed, found, _ = answers[3 * at : 3 * at + 3]
        what = "%s: %r" % (name, content[:60])
        same(None if changed.status == 200 else changed.refusal, None if wanted is not None else unfit(name), what)
        same(read_in(found), [] if wanted is None else [wanted], what)


TABLES = ("whole numbers", WHOLE), ("truth values", TRUTH), ("texts", TEXTS), ("contents of other kinds", MIXED)


@rows(*TABLES)
def test_an_insert_of(table):
    given_back([it for name, content, _ in table for it in (inserted(name, content), values_of(name), EMPTIED)], table)


@rows(*TABLES)
def test_an_update_of(table):
    given_back([it for name, content, _ in table for it in (updated(name, content), values_of(name), updated(name))], table)


REQUIRED = {"text": "a", "integer": "1", "boolean": "1", "point": POINT, "line": LINE, "polygon": AREA}


def test_each_kind_may_be_required():
    """A type for each kind, whose name it has."""
    one = '[[type]]\nname = "%s"\nproperty = [ {name="held", kind="%s", required=true} ]\n'
    with Folder(HEAD + "".join(one % (kind, kind) for kind in REQUIRED)) as folder:
        for kind, content in REQUIRED.items():
            absent, held, taken_away = folder.ask(insert(feature(kind)), insert(feature(kind, held=content)), updated("held", kind=kind))
            same([absent.refusal, held.ids, taken_away.refusal], [unfit("held"), [kind + ".1"], unfit("held")], kind)


# ---- how values compare

# A property, a value, a literal, and how the first compares with the second: -1, 0 or 1. Texts go by their bytes.
ORDERS = [
    ("words", "Z", "\xe4", -1), ("words", "\xe4", "\xe4", 0), ("words", "a", "ab", -1), ("words", "b", "aB", 1), ("words", "Z", "a", -1),
    ("words", "\ufffd", "\U0001f5fa", -1), ("words", "", "a", -1), ("words", "10", "9", -1), ("whole", LOW, HIGH, -1), ("whole", HIGH, LOW, 1), ("whole", LOW, LOW, 0),
    ("whole", "9", "-10", 1), ("whole", "10", "9", 1),
]
SIGNS = {"EqualTo": (0,), "NotEqualTo": (-1, 1), "LessThan": (-1,), "GreaterThan": (1,), "LessThanOrEqualTo": (-1, 0), "GreaterThanOrEqualTo": (0, 1)}


def test_values_compare():
    """Each is inserted alone, and looked for with each comparison."""
    with Folder(KINDS) as folder:
        for name, value, literal, sign in ORDERS:
            asked = [find("One", compare(operator, ref(name), lit(literal))) for operator in SIGNS]
            found = folder.ask(inserted(name, value), *asked, EMPTIED)[1:-1]
            came = [operator for operator, answer in zip(SIGNS, found) if answer.matched]
            same(came, [operator for operator, signs in SIGNS.items() if sign in signs], "%s %r beside %r" % (name, value, literal))


# ---- names and identifiers

# Two properties whose names differ by the case of a letter, and two types.
CASES = HEAD + """
[[type]]
name = "One"
property = [ {name="size", kind="integer"}, {name="Size", kind="text"} ]
[[type]]
name = "one"
property = [ {name="size", kind="text"} ]
"""


def test_names_that_differ_by_case_are_two():
    with Folder(CASES) as folder:
        asked = insert(feature("One", size="1", Size="x"), feature("one", size="y")), updated("Size", "z"), values_of("size"), values_of("Size"), values_of("size", "one")
        made, _, *found = folder.ask(*asked)
        same(made.ids, ["One.1", "one.1"])
        same(list(map(read_in, found)), [["1"], ["z"], ["y"]])


@rows(
    ("a property that is inserted", insert(feature("One", SIZE="1")), unfit("SIZE")),
    ("a type that is inserted", insert(feature("ONE", size="1")), unfit("ONE")),
    ("a property of another type", insert(feature("one", Size="1")), unfit("Size")),
    ("a property that is updated", updated("SIZE", "1"), unknown("SIZE")),
    ("a type that is updated", updated("size", "1", "ONE"), unknown("typeName")),
    ("a property of a filter", find("One", compare("EqualTo", ref("SIZE"), lit(1))), unknown("SIZE")),
    ("a type of a query", find("ONE"), unknown("typeNames")),
    ("a property that is asked for", values_of("SIZE"), unknown("SIZE")),
    ("a type that is asked for", values_of("size", "ONE"), unknown("typeNames")),
)
def test_another_case_is_no_name_of(message, wanted):
    with Folder(CASES) as folder:
        (answer,) = folder.ask(message)
        same(answer.refusal, wanted)


def test_a_prefix_is_left_out_up_to_the_first_colon():
    names = [("size", True), ("m:size", True), ("x:size", True), (":size", True), ("a:b:size", False), ("m:", False), ("m:Size", True), ("m:SIZE", False)]
    with Folder(CASES) as folder:
        for (name, is_known), answer in zip(names, folder.ask(*(values_of(name) for name, _ in names))):
            same(None if answer.status == 200 else answer.refusal, None if is_known else unknown(name), name)


# What is no identifier of a feature that is there.
NOBODY = (
    "One.0 One.00 One.01 One.\u0661 One.+1 One.-1 One.3 One. One One.1.2 one.1 ONE.1 m:One.1 Ones.1 .1 One.1.0 One.18446744073709551615 "
    "One.18446744073709551616 One.18446744073709551617"
).split(" ") + ["One. 1", "One.1 ", " One.1", ""]


def test_identifiers_are_known_as_they_are_written():
    with Folder(CASES) as folder:
        asked = [find("One", rid(it)) for it in ("One.1", "One.2", *NOBODY)]
        found = [answer.ids for answer in folder.ask(insert(feature("One"), feature("One")), *asked)[1:]]
        for name, came, wanted in zip(("One.1", "One.2", *NOBODY), found, [["One.1"], ["One.2"]] + [[]] * len(NOBODY)):
            same(came, wanted, repr(name))
