"""Schema files: which are right, what the line says that is wrong with the others, and what is kept of a schema."""

from harness import Folder, MARKS, SCHEMA_REFUSED, insert, mark, rows, same

# The example of docs/FORMATS.md, which the rows change.
EXAMPLE = MARKS[MARKS.index("title") :]


def line_of(schema) -> str:
    """What `check` says after `schema refused: `, or `Ok`."""
    with Folder(schema) as folder:
        run = folder.run("check")
        if run.status == 0:
            return "Ok"
        same(run.status, SCHEMA_REFUSED, run.text)
        start, line = run.text.split("wfsd: schema refused: ")
        same((start, line[-1:]), ("", "\n"), run.text)
        return line[:-1]


def changed(old: str, new: str) -> str:
    """The example with one of its texts replaced."""
    same(old in EXAMPLE, True, old)
    return EXAMPLE.replace(old, new, 1)


# What is wrong, the text that is replaced, what stands in its place, and the line.
WRONG = [
    ("an open bracket", '"EPSG:25832"]', '"EPSG:25832"', "NotToml"),
    ("a word without quotes", 'prefix = "m"', "prefix = m", "NotToml"),
    ("a top key twice", 'prefix = "m"', 'prefix = "m"\nprefix = "m"', "NotToml"),
    ("a key of a property twice", 'kind="integer"', 'kind="integer", kind="integer"', "NotToml"),
    ("a number past 64 bits", "max=40", "max=9223372036854775808", "NotToml"),
    ("no title", 'title = "Marks"\n', "", "Key title"),
    ("no address", 'address = "http://localhost:8080/wfs"\n', "", "Key address"),
    ("no namespace", 'namespace = "http://example.org/marks"\n', "", "Key namespace"),
    ("no prefix", 'prefix = "m"\n', "", "Key prefix"),
    ("no srs", 'srs = ["urn:ogc:def:crs:EPSG::25832", "EPSG:25832"]\n', "", "Key srs"),
    ("a title that is a number", 'title = "Marks"', "title = 1", "Key title"),
    ("an empty title", 'title = "Marks"', 'title = ""', "Key title"),
    ("a line feed in the title", 'title = "Marks"', 'title = "a\\nb"', "Key title"),
    ("U+0001 in the title", 'title = "Marks"', 'title = "a\\u0001"', "Key title"),
    ("U+001F in the title", 'title = "Marks"', 'title = "a\\u001F"', "Key title"),
    ("U+FFFE in the title", 'title = "Marks"', 'title = "a\\uFFFE"', "Key title"),
    ("an address that is a list", '"http://localhost:8080/wfs"', "[]", "Key address"),
    ("an empty namespace", '"http://example.org/marks"', '""', "Key namespace"),
    ("the taken prefix wfs", '"m"', '"wfs"', "Key prefix"),
    ("the taken prefix fes", '"m"', '"fes"', "Key prefix"),
    ("the taken prefix gml", '"m"', '"gml"', "Key prefix"),
    ("the taken prefix ows", '"m"', '"ows"', "Key prefix"),
    ("the taken prefix xlink", '"m"', '"xlink"', "Key prefix"),
    ("the taken prefix xs", '"m"', '"xs"', "Key prefix"),
    ("the reserved prefix xml", '"m"', '"xml"', "Key prefix"),
    ("the reserved prefix xmlm", '"m"', '"xmlm"', "Key prefix"),
    ("a colon in the prefix", '"m"', '"a:b"', "Key prefix"),
    ("an empty prefix", '"m"', '""', "Key prefix"),
    ("one srs that is no list", '["urn:ogc:def:crs:EPSG::25832", "EPSG:25832"]', '"EPSG:25832"', "Key srs"),
    ("no name in srs", '["urn:ogc:def:crs:EPSG::25832", "EPSG:25832"]', "[]", "Key srs"),
    ("a number in srs", '"EPSG:25832"]', "25832]", "Key srs"),
    ("an empty name in srs", '"EPSG:25832"]', '""]', "Key srs"),
    ("nine names in srs", '"EPSG:25832"]', '"2", "3", "4", "5", "6", "7", "8", "9"]', "Key srs"),
    ("an unknown top key", 'prefix = "m"', 'prefix = "m"\nzoo = 1', "Key zoo"),
    ("a type without a name", 'name = "Way"\n', "", "Key name"),
    ("a type name that is a number", 'name = "Way"', "name = 1", "Key name"),
    ("an empty type name", '"Way"', '""', "Key name"),
    ("a type name that begins with a digit", '"Way"', '"1Way"', "Key name"),
    ("a dash in a type name", '"Way"', '"Foot-Way"', "Key name"),
    ("a dot in a type name", '"Way"', '"Way."', "Key name"),
    ("a letter beyond ASCII in a type name", '"Way"', '"W\\u00e4y"', "Key name"),
    ("a type named twice", '"Way"', '"Mark"', "Twice Mark"),
    ("a type named as the second", '"Way"', '"Field"', "Twice Field"),
    ("a type without properties", 'property = [ {name="course", kind="line"} ]\n', "", "Key property"),
    ("properties that are one table", '[ {name="course", kind="line"} ]', '{name="course", kind="line"}', "Key property"),
    ("a number among the properties", 'kind="line"} ]', 'kind="line"}, 1 ]', "Key property"),
    ("an unknown key of a type", 'name = "Way"', 'name = "Way"\ncolour = 1', "Key colour"),
    ("a property without a name", 'name="size", ', "", "Key name"),
    ("a space in a property name", '"size"', '"si ze"', "Key name"),
    ("a property named twice", '"size"', '"label"', "Twice label"),
    ("a property named as the second", '"place"', '"size"', "Twice size"),
    ("a property without a kind", ', kind="integer"', "", "Key kind"),
    ("a kind that is a number", '"integer"', "1", "Key kind"),
    ("an unknown kind", '"integer"', '"number"', "Kind size"),
    ("a kind in capitals", '"integer"', '"Integer"', "Kind size"),
    ("required as a text", "required=true", 'required="true"', "Key required"),
    ("required as a number", "required=true", "required=1", "Key required"),
    ("max = 0", "max=40", "max=0", "Key max"),
    ("max = 4097", "max=40", "max=4097", "Key max"),
    ("max = -1", "max=40", "max=-1", "Key max"),
    ("max = 1.0", "max=40", "max=1.0", "Key max"),
    ("max = '40'", "max=40", 'max="40"', "Key max"),
    ("max on an integer", 'kind="integer"', 'kind="integer", max=9', "Key max"),
    ("max on a boolean", 'kind="integer"', 'kind="boolean", max=9', "Key max"),
    ("max on a point", 'kind="point"', 'kind="point", max=9', "Key max"),
    ("max on a line", 'kind="line"', 'kind="line", max=9', "Key max"),
    ("max on a polygon", 'kind="polygon"', 'kind="polygon", max=9', "Key max"),
    ("an unknown key of a property", 'kind="integer"', 'kind="integer", unit="m"', "Key unit"),
]


def test_what_is_wrong_with_a_file_is_named():
    for what, old, new, line in WRONG:
        same(line_of(changed(old, new)), line, what)


# What is right, in the same form.
RIGHT = [
    ("the file itself", '"Marks"', '"Marks"'),
    ("a tab in the title", 'title = "Marks"', 'title = "a\\tb"'),
    ("the ends of what XML allows, in the title", 'title = "Marks"', 'title = " \\r\\u007F\\uD7FF\\uE000\\uFFFD\\U00010000\\U0010FFFF"'),
    ("a prefix that begins with xm", '"m"', '"xm"'),
    ("a prefix in capitals", '"m"', '"XML"'),
    ("a prefix that begins with a taken one", '"m"', '"xsi"'),
    ("eight names in srs", '"EPSG:25832"]', '"2", "3", "4", "5", "6", "7", "8"]'),
    ("a name of all sorts of characters", '"Way"', '"_9Az"'),
    ("type names that differ by case", '"Way"', '"mark"'),
    ("property names that differ by case", '"size"', '"Label"'),
    ("one property name in two types", '"course"', '"label"'),
    ("no properties", '[ {name="course", kind="line"} ]', "[]"),
    ("the least max", "max=40", "max=1"),
    ("the greatest max", "max=40", "max=4096"),
    ("required = false", "required=true", "required=false"),
    ("a boolean", '"integer"', '"boolean"'),
]


def test_what_is_right_in_a_file_is_taken():
    for what, old, new in RIGHT:
        same(line_of(changed(old, new)), "Ok", what)


# A quoted text, what stands in its place, how often, and the line.
LENGTHS = [
    ('"Marks"', "a", 256, "Ok"),
    ('"Marks"', "a", 257, "Key title"),
    ('"Marks"', "\U0001f5fa", 256, "Ok"),
    ('"Marks"', "\U0001f5fa", 257, "Key title"),
    ('"http://localhost:8080/wfs"', "\xe4", 256, "Ok"),
    ('"http://localhost:8080/wfs"', "\xe4", 257, "Key address"),
    ('"http://example.org/marks"', "a", 256, "Ok"),
    ('"http://example.org/marks"', "a", 257, "Key namespace"),
    ('"http://example.org/marks"', "\U0001f5fa", 256, "Ok"),
    ('"http://example.org/marks"', "\U0001f5fa", 257, "Key namespace"),
    ('"EPSG:25832"', "a", 256, "Ok"),
    ('"EPSG:25832"', "a", 257, "Key srs"),
    ('"EPSG:25832"', "\U0001f5fa", 256, "Ok"),
    ('"EPSG:25832"', "\U0001f5fa", 257, "Key srs"),
    ('"m"', "m", 64, "Ok"),
    ('"m"', "m", 65, "Key prefix"),
    ('"Way"', "m", 64, "Ok"),
    ('"Way"', "m", 65, "Key name"),
    ('"course"', "m", 64, "Ok"),
    ('"course"', "m", 65, "Key name"),
]


def test_the_characters_of_a_text_are_counted():
    for old, character, count, line in LENGTHS:
        same(line_of(changed(old, '"%s"' % (character * count))), line, "%d of %s for %s" % (count, character, old))


HEAD = 'title="T"\naddress="A"\nnamespace="N"\nprefix="p"\nsrs=["S"]\n'
# What stands after `HEAD`, and the line. Most are wrong in several ways, of which the first counts.
ENDS = [
    ("", "Key type"),
    ("zoo=1", "Key type"),
    ("type=[]", "Key type"),
    ("type=1", "Key type"),
    ("type=[1]", "Key type"),
    ("zoo=1\ntype=[{}, 1]", "Key type"),
    ('[type]\nname="A"\nproperty=[]', "Key type"),
    ("zoo=1\nZoo=1\ntype=[{}]", "Key Zoo"),
    ("zoo=1\ntype=[{property=[]}]", "Key zoo"),
    ('zoo=1\ntype=[{name="A",property=[]}', "NotToml"),
    ("type=[{name=1,property=1}]", "Key name"),
    ('type=[{name="A",property=[]},{name="A",zoo=1}]', "Twice A"),
    ('type=[{name="A",property=[]},{name="A",property=[{}]}]', "Twice A"),
    ('type=[{name="A",zoo=1}]', "Key property"),
    ('type=[{name="A",property=[{},1]}]', "Key property"),
    ('type=[{name="A",property=[],zoo=1,bar=1}]', "Key bar"),
    ('type=[{name="A",property=[],zoo=1},{}]', "Key zoo"),
    ('type=[{name="A",property=[{name="a",kind="x"}],bar=1}]', "Kind a"),
    ('type=[{name="A",property=[{kind="x"}]}]', "Key name"),
    ('type=[{name="A",property=[{name="a",kind="text"},{name="a",kind="x"}]}]', "Twice a"),
    ('type=[{name="A",property=[{name="a",kind="x",required=1}]}]', "Kind a"),
    ('type=[{name="A",property=[{name="a",kind="text",required=1,max=0}]}]', "Key required"),
    ('type=[{name="A",property=[{name="a",kind="text",max=0,bar=1}]}]', "Key max"),
    ('type=[{name="A",property=[{name="a",kind="point",zoo=1,size=1}]}]', "Key size"),
    ('type=[{name="A",property=[{name="a",kind="line",zoo=1},{name="a"}]}]', "Key zoo"),
]


def test_the_first_fault_of_a_file_is_named():
    for end, line in ENDS:
        same(line_of(HEAD + end), line, end)


# Files that end after an unknown key or after some of the top keys, and the line: the first top key that is missing.
STARTS = [
    ("zoo=1", "Key title"),
    ("title='T'", "Key address"),
    ("title='T'\naddress='A'", "Key namespace"),
    ("title='T'\naddress='A'\nnamespace='N'", "Key prefix"),
    ("title='T'\naddress='A'\nnamespace='N'\nprefix='p'", "Key srs"),
]


def test_the_top_keys_are_judged_in_order():
    for file, line in STARTS:
        same(line_of(file), line, file)


def test_bytes_that_are_no_text_are_no_toml():
    same(line_of(b'title = "\xff"'), "NotToml")


@rows(("as long as it may be", 1048576, "Ok"), ("longer by a byte", 1048577, "TooMany"))
def test_a_file_has_its_greatest_length(length, line):
    same(line_of(EXAMPLE + "#" * (length - len(EXAMPLE))), line)


# Characters, and the lines of types that are named by one of them, and by one after a letter. They are those at the ends of what names
# are made of, and those beside them.
CHARACTERS = [
    ("AZ_az", "Ok", "Ok"),
    ("09", "Key name", "Ok"),
    ("/:@[^`{", "Key name", "Key name"),
]


def test_the_characters_of_names_are_known():
    for characters, first, later in CHARACTERS:
        for one in characters:
            same(line_of(changed('"Way"', '"%s"' % one)), first, one)
            same(line_of(changed('"Way"', '"A%s"' % one)), later, "A" + one)


# What stands after `HEAD`: an opening text, items with names of their own and how many, and a closing text; and the line.
COUNTS = [
    ("type=[", "property=[]", "]", 64, "Ok"),
    ("type=[", "property=[]", "]", 65, "TooMany"),
    ("type=[", "bar=1", "]", 65, "TooMany"),
    ("zoo=1\ntype=[", "property=[]", "]", 65, "Key zoo"),
    ('type=[{name="A",property=[', 'kind="line"', "]}]", 64, "Ok"),
    ('type=[{name="A",property=[', 'kind="line"', "]}]", 65, "TooMany"),
    ('type=[{name="A",property=[', 'kind="x"', "]}]", 65, "TooMany"),
    ("type=[{property=[", 'kind="x"', "]}]", 65, "Key name"),
    ("type=[1,", "property=[]", "]", 65, "Key type"),
    ('type=[{name="A",property=[1,', 'kind="line"', "]}]", 65, "Key property"),
    ('type=[{name="A",bar=1,property=[', 'kind="line"', "]}]", 65, "TooMany"),
]


def test_types_and_properties_are_counted():
    for start, item, end, count, line in COUNTS:
        items = "".join('{name="a%d",%s},' % (number, item) for number in range(count))
        same(line_of(HEAD + start + items + end), line, "%d of %s%s" % (count, start, item))


# ---- what is kept of a schema

SIGNATURE = "Mark(label:text,size:integer,place:point);Field(name:text,area:polygon);Way(course:line);"
SIGNED = [
    ("the example", '"Marks"', '"Marks"', SIGNATURE),
    ("a boolean", '"integer"', '"boolean"', "Mark(label:text,size:boolean,place:point);Field(name:text,area:polygon);Way(course:line);"),
    ("no properties", '[ {name="course", kind="line"} ]', "[]", "Mark(label:text,size:integer,place:point);Field(name:text,area:polygon);Way();"),
    ("another length", "required=true, max=40", "max=4", "Mark(label:text,size:integer,place:point);Field(name:text,area:polygon);Way(course:line);"),
]


@rows(*SIGNED)
def test_the_signature_has_names_and_kinds_alone(old, new, signature):
    """A new journal begins with the opening, whose body has the signature after its length."""
    with Folder(changed(old, new)) as folder:
        folder.ask()
        same(folder.read("journal.a")[21:-1], b"\x01" + (1).to_bytes(8, "big") + len(signature).to_bytes(4, "big") + signature.encode())


@rows(
    ("a boolean is none but true, false, 1 and 0", '"integer"', '"boolean"', insert(mark("A", "<m:size>5</m:size>")), "size"),
    ("an integer that is required", '"integer"', '"integer", required=true', insert(mark("A")), "size"),
    ("a text of 41 characters", "max=40", "max=40", insert(mark("a" * 41)), "label"),
    ("a text of 2 characters", "max=40", "max=1", insert(mark("ab")), "label"),
    ("a text of 4,097 characters", ", max=40", "", insert(mark("a" * 4097)), "label"),
)
def test_a_property_refuses(old, new, message, name):
    with Folder(changed(old, new)) as folder:
        (found,) = folder.ask(message)
        same(found.refusal, (400, "InvalidValue", name, "value does not fit"))


@rows(
    ("a label that is not required", "required=true", "required=false", insert("<m:Mark/>")),
    ("a text of 40 characters", "max=40", "max=40", insert(mark("\U0001f5fa" * 40))),
    ("a text of 1 character", "max=40", "max=1", insert(mark("a"))),
    ("a text of 4,096 characters", ", max=40", "", insert(mark("a" * 4096))),
    ("an integer that is not required", '"integer"', '"integer", required=false', insert(mark("A"))),
)
def test_a_property_takes(old, new, message):
    with Folder(changed(old, new)) as folder:
        (found,) = folder.ask(message)
        same(found.ids, ["Mark.1"], repr(found))
