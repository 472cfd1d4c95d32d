"""What filters are true of (OGC 09-026r2, sections 7.7 to 7.11): each operator is put to one feature, and so is its negation, which holds
of just what the operator does not hold of."""

from harness import Folder, insert, same
from written import between, both, bbox, compare, either, feature, find, like, line, lit, negated, null, point, polygon, ref, rid, spatial

HEAD = 'title="Marks"\naddress="http://localhost:8080/wfs"\nnamespace="http://example.org/marks"\nprefix="m"\nsrs=["EPSG:25832"]\n'
# Marks have properties of each kind; some of them get no value.
MARKED = HEAD + """
[[type]]
name = "Mark"
property = [ {name="label", kind="text"}, {name="size", kind="integer"}, {name="flag", kind="boolean"}, {name="depth", kind="integer"},
  {name="note", kind="text"}, {name="field", kind="polygon"}, {name="way", kind="line"}, {name="spot", kind="point"} ]
[[type]]
name = "Other"
property = [ {name="label", kind="text"} ]
"""
FAR = 1000000000
FIELD = polygon("0 0 10 0 10 10 0 10 0 0", "2 2 4 2 4 4 2 4 2 2")


def marked(label: str) -> str:
    """A mark with a label and values, but without a depth, a note and a spot. Its way lies along the far edge."""
    return feature("Mark", label=label, size="5", flag="true", field=FIELD, way=line("%d 0 %d %d" % (FAR, FAR, FAR)))


def settled(labels: list, table: list) -> None:
    """That each filter of a table of names, numbers of marks, filters and truths is true of the mark or else false, as the row says, and
    that its negation is the opposite. The marks have these labels."""
    asked = [message for _, _, sketch, _ in table for message in (find("Mark", sketch), find("Mark", negated(sketch)))]
    with Folder(MARKED) as folder:
        found = folder.ask(insert(*map(marked, labels)), *asked)[1:]
    for at, (name, number, _, wanted) in enumerate(table):
        held, failed = found[2 * at : 2 * at + 2]
        came = ["Mark.%d" % number in it.ids if it.status == 200 else it for it in (held, failed)]
        same(came, [wanted, not wanted], name)


SIZE, DEPTH = ref("size"), ref("depth")


def of_numbers(name: str, four: bool, five: bool, side) -> list:
    """What a comparison says of the size 5 beside 4, beside 5, and with a literal first, which is `side` and its truth; a null on
    either side makes it false."""
    literal, wanted = side
    return [
        (name + " 4", 1, compare(name, SIZE, lit(4)), four),
        (name + " 5", 1, compare(name, SIZE, lit(5)), five),
        (name + ", literal first", 1, compare(name, lit(literal), SIZE), wanted),
        (name + ", null first", 1, compare(name, DEPTH, lit(5)), False),
        (name + ", null last", 1, compare(name, lit(5), DEPTH), False),
    ]


def test_relations_of_numbers_and_nulls():
    table = of_numbers("EqualTo", False, True, (6, False))
    table += of_numbers("NotEqualTo", True, False, (6, True))
    table += of_numbers("LessThan", False, False, (4, True))
    table += of_numbers("GreaterThan", True, False, (4, False))
    table += of_numbers("LessThanOrEqualTo", False, True, (4, True))
    table += of_numbers("GreaterThanOrEqualTo", True, True, (4, False))
    settled(["STRASSE"], table)


def test_texts_by_their_bytes_or_without_case():
    rows = [
        ("EqualTo", "straße", False, False),
        ("EqualTo", "straße", True, True),
        ("NotEqualTo", "straße", True, False),
        ("EqualTo", "STRASSE", False, True),
        ("EqualTo", "Strasse", False, False),
        ("EqualTo", "strase", True, False),
        ("LessThan", "Stra", False, True),
        ("LessThan", "Ä", False, True),
    ]
    settled(["STRASSE"], [("%s %s %s" % row[:3], 1, compare(row[0], ref("label"), lit(row[1]), row[2]), row[3]) for row in rows])


# Labels, and texts that equal them without case or not: by full folding, not by that of Turkic languages, and without composing
# characters (Unicode, CaseFolding.txt).
FOLDINGS = [("Σ", "ς", True), ("ﬁ", "FI", True), ("İ", "i\u0307", True), ("I", "ı", False), ("é", "e\u0301", False)]


def test_texts_by_their_full_foldings():
    table = [(text, at, compare("EqualTo", ref("label"), lit(text), True), wanted) for at, (_, text, wanted) in enumerate(FOLDINGS, 1)]
    settled([label for label, _, _ in FOLDINGS], table)


def test_an_empty_text_is_no_null():
    label = ref("label")
    table = [
        ("null", 1, null("label"), False),
        ("equal", 1, compare("EqualTo", label, lit("")), True),
        ("less", 1, compare("LessThan", label, lit("a")), True),
        ("between", 1, between("label", lit(""), lit("")), True),
    ]
    settled([""], table)


def test_other_operators():
    table = [
        ("flag", compare("EqualTo", ref("flag"), lit("true")), True),
        ("null text", compare("NotEqualTo", ref("note"), lit("a"), True), False),
        ("in between", between("size", lit(4), lit(6)), True),
        ("low bound", between("size", lit(5), lit(6)), True),
        ("high bound", between("size", lit(4), lit(5)), True),
        ("below", between("size", lit(6), lit(9)), False),
        ("above", between("size", lit(1), lit(4)), False),
        ("null between", between("depth", lit(4), lit(6)), False),
        ("no low bound", between("size", DEPTH, lit(6)), False),
        ("no high bound", between("size", lit(4), DEPTH), False),
        ("null is null", null("depth"), True),
        ("5 is null", null("size"), False),
        ("text like", like("label", "*"), True),
        ("null like", like("note", "*"), False),
        ("null point is null", null("spot"), True),
        ("its id", rid("Mark.1"), True),
        ("another number", rid("Mark.8"), False),
        ("another type", rid("Other.1"), False),
        ("nobody", rid("nobody"), False),
        ("texts", between("label", lit("S"), lit("T")), True),
        ("with case", between("label", lit("a"), lit("z")), False),
    ]
    settled(["STRASSE"], [(name, 1, sketch, wanted) for name, sketch, wanted in table])


def test_one_identifier_of_several_is_enough():
    with Folder(MARKED) as folder:
        answers = folder.ask(insert(marked("A"), marked("B")), find("Mark", rid("nobody", "Mark.2")), find("Mark", rid("nobody", "Mark.8")))
        same([it.ids for it in answers[1:]], [["Mark.2"], []])


def test_boxes_and_points():
    far, near = "%d 5" % FAR, "%d 5" % (FAR - 1)
    table = [
        ("field's corner", bbox("field", "10 10", "12 12"), True),
        ("in the hole", bbox("field", "3 3", "3 3"), False),
        ("hole's ring", bbox("field", "2 2", "4 4"), True),
        ("any, corner", bbox(None, "10 10", "12 12"), True),
        ("any, hole", bbox(None, "3 3", "3 3"), False),
        ("any, way", bbox(None, far, far), True),
        ("far way", bbox("way", far, far), True),
        ("near miss", bbox("way", near, near), False),
        ("null in a box", bbox("spot", "0 0", "9 9"), False),
        ("field meets", spatial("Intersects", "field", point("5 5")), True),
        ("hole meets", spatial("Intersects", "field", point("3 3")), False),
        ("null meets", spatial("Intersects", "spot", point("5 5")), False),
        ("field apart", spatial("Disjoint", "field", point("5 5")), False),
        ("hole apart", spatial("Disjoint", "field", point("3 3")), True),
        ("null apart", spatial("Disjoint", "spot", point("5 5")), True),
    ]
    settled(["STRASSE"], [(name, 1, sketch, wanted) for name, sketch, wanted in table])


def test_and_and_or():
    """Of two parts: the size is no null, and the depth is one."""
    yes, no = null("depth"), null("size")
    table = [("%s %s %s" % (join.__name__, first == yes, last == yes), 1, join(first, last), wanted) for join, first, last, wanted in [
        (both, yes, yes, True),
        (both, yes, no, False),
        (both, no, yes, False),
        (both, no, no, False),
        (either, yes, yes, True),
        (either, yes, no, True),
        (either, no, yes, True),
        (either, no, no, False),
    ]]
    settled([""], table)


# Patterns, texts, and whether these are like those (OGC 09-026r2, section 7.7.3.7).
LIKES = [
    ("A!*.", "A*b", True),
    ("A!*.", "Ab", False),
    ("A!*.", "A*", False),
    ("A!*.", "A*bc", False),
    ("!!", "!", True),
    ("", "", True),
    (".", "ß", True),
    (".", "ab", False),
    ("*", "", True),
    ("**", "", True),
    ("*.", "", False),
    ("a*b", "ab", True),
    ("a*b", "axxbx", False),
    ("*ab", "aab", True),
    ("*abc*", "xxabxabcx", True),
    ("*a.c", "abcadc", True),
    ("*ab*ba*", "aba", False),
    ("*ab*ba*", "abba", True),
    ("*", "ab", True),
    ("ab", "a", False),
    ("*.", "ß", True),
    ("*..", "a", False),
    ("..*", "a", False),
    ("*...*", "ab", False),
    ("*...*", "abc", True),
    ("*a*", "b", False),
    ("*ab", "abab", True),
    ("*ab", "aba", False),
    ("*aab*", "aaab", True),
    ("*aab*", "aaa", False),
    ("*.a.bcd*", "abxbcd", False),
    ("*.a.bcd*", "xaxabbcd", True),
    ("*a.*.b*", "axxb", True),
    ("*a.*.b*", "axb", False),
    ("*ße*", "Straße", True),
    ("*s.e*", "Straße", False),
    ("*.ße", "aße", True),
    ("*.ße", "ße", False),
    ("*ä*ä", "äbä", True),
    ("*ä*ä", "ä", False),
    ("*\U0010ffff.*", "a\U0010ffffb", True),
    ("*aaaaaaaaaaaaaaaaab*", "aaaaaaaaaaaaaaaaaaaab", True),
    ("*aaaaaaaaaaaaaaaaab*", "aaaaaaaaaaaaaaaab", False),
    ("*.ääääääääääääääääää*", "aäääääääääääääääääbäääääääääääääääääää", True),
    # with its case
    ("ab", "aB", False),
    ("*a*", "xAx", False),
    # of two characters that are written as one
    ("..", "e\u0301", True),
    # over ends of lines
    ("a.*b", "a\n\nb", True),
]


def test_texts_are_like_patterns():
    table = [("%r %r" % row[:2], at, like("label", row[0]), row[2]) for at, row in enumerate(LIKES, 1)]
    settled([text for _, text, _ in LIKES], table)
