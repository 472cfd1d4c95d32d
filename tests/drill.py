"""The drill: what it tells, and what it leaves, by the numbers that docs/FORMATS.md says it draws."""

from bodies import feature
from harness import DONE, Folder, insert, mark, rows, same
from worked import find

# Marks, and a type with a property of each kind.
EACH_KIND = """title = 'Marks'
address = 'http://localhost:8080/wfs'
namespace = 'http://example.org/marks'
prefix = 'm'
srs = ['EPSG:25832']
[[type]]
name = 'Mark'
property = [{ name = 'place', kind = 'point' }]
[[type]]
name = 'Each'
property = [{ name = 'a', kind = 'text' }, { name = 'b', kind = 'integer' }, { name = 'c', kind = 'boolean' }, { name = 'd', kind = 'point' }, { name = 'e', kind = 'line' }, { name = 'f', kind = 'polygon' }]
"""


def at(x: int, y: int) -> str:
    return "<m:place><gml:Point><gml:pos>%d %d</gml:pos></gml:Point></m:place>" % (x, y)


def drilled(folder, rounds: str) -> str:
    """The line of a drill."""
    run = folder.run("drill", rounds)
    same(run.status, DONE, "status")
    return run.text


def where(folder, kind: str, x: int, y: int) -> list:
    """The features of a type at a place."""
    return folder.ask(find("typeNames=%s&bbox=%d,%d,%d,%d" % (kind, x, y, x, y)))[0].ids


def test_one_round_inserts_locks_and_counts_a_mark():
    with Folder() as folder:
        same(drilled(folder, "1"), "rounds 1 entries 2 features 1 matched 1 locked 1\n")
        same(where(folder, "Mark", 2_235, 168_735), ["Mark.1"])


def test_three_rounds_take_the_types_in_turn():
    with Folder() as folder:
        same(drilled(folder, "3"), "rounds 3 entries 6 features 3 matched 3 locked 3\n")
        same(where(folder, "Mark", 4_485, 337_485), ["Mark.1"])
        # A polygon is the square from that corner on.
        same(where(folder, "Field", 736_120, 158_290), ["Field.1"])
        same(where(folder, "Field", 736_121, 158_291), [])
        same(len(folder.ask(find("typeNames=Way"))[0].ids), 1)


def test_a_fourth_round_deletes_what_it_inserted():
    with Folder() as folder:
        same(drilled(folder, "+4"), "rounds 4 entries 9 features 3 matched 4 locked 4\n")
        same(folder.check(), "types 3 features 3 queries 0 openings 1\n")
        same(where(folder, "Mark", 9_330, 700_860), [])


def test_each_fourth_round_deletes_and_no_other():
    with Folder(EACH_KIND) as folder:
        # Of the rounds 0 to 7 the fourth and the eighth insert one that they delete, both of the second type.
        line = drilled(folder, "8").split()
        same(line[:6], ["rounds", "8", "entries", "18", "features", "6"])
        same(folder.ask(find("typeNames=Each"))[0].ids, ["Each.1", "Each.3"])
        same(folder.ask(find("typeNames=Mark"))[0].ids, ["Mark.1", "Mark.2", "Mark.3", "Mark.4"])


def test_a_feature_has_a_value_of_each_kind():
    # The second round of a drill whose first number is 3 is at 736,110 and 158,280.
    with Folder(EACH_KIND) as folder:
        same(drilled(folder, "3").split()[:2], ["rounds", "3"])
        (answered,) = folder.ask(find("typeNames=Each"))
        named = ' gml:id="Each.1.%s" srsName="EPSG:25832">'
        point = "<gml:Point" + named % "d" + "<gml:pos>736110 158280</gml:pos></gml:Point>"
        line = "<gml:LineString" + named % "e" + "<gml:posList>736110 158280 736120 158290</gml:posList></gml:LineString>"
        ring = "<gml:exterior><gml:LinearRing><gml:posList>736110 158280 736120 158280 736120 158290 736110 158290 736110 158280</gml:posList></gml:LinearRing></gml:exterior>"
        polygon = "<gml:Polygon" + named % "f" + ring + "</gml:Polygon>"
        wanted = feature("Each.1", a="a", b="1", c="true", d=point, e=line, f=polygon)
        same(answered.body.split("<wfs:member>")[1], wanted + "</wfs:member></wfs:FeatureCollection>")


# The first round of a drill of one is at 2,235 and 168,735. Of it a mark lies in the square, on its far corner, beside it, in the surroundings, on
# their edge, or beyond that: where it is, how many are counted, and how many are locked.
@rows(
    ("within the square", 2_240, 168_740, 2, 2),
    ("on the far corner of the square", 2_245, 168_745, 2, 2),
    ("to the right of the square", 2_246, 168_740, 2, 1),
    ("above the square", 2_240, 168_746, 2, 1),
    ("to the left of the square", 2_234, 168_740, 2, 1),
    ("below the square", 2_240, 168_734, 2, 1),
    ("on the far corner of the surroundings", 52_245, 218_745, 2, 1),
    ("on the near corner of the surroundings", -47_765, 118_735, 2, 1),
    ("beyond the far corner", 52_246, 218_745, 1, 1),
    ("beyond the near corner", -47_765, 118_734, 1, 1),
)
def test_a_round_beside_a_mark(x, y, matched, locked):
    with Folder() as folder:
        folder.ask(insert(mark("A", at(x, y))))
        same(drilled(folder, "1"), "rounds 1 entries 2 features 2 matched %d locked %d\n" % (matched, locked))


def test_the_fourth_round_deletes_in_its_square():
    # The fourth round of a drill of four is at 9,330 and 700,860.
    places = [(9_340, 700_870), (9_341, 700_870), (9_329, 700_860), (9_335, 700_871), (9_335, 700_865)]
    with Folder() as folder:
        folder.ask(insert(*(mark("A", at(*place)) for place in places)))
        # That round counts the five and its own mark, and locks and deletes those in its square: the first, the last and its own.
        same(drilled(folder, "4"), "rounds 4 entries 9 features 6 matched 9 locked 6\n")
        same(folder.ask(find("typeNames=Mark"))[0].ids, ["Mark.2", "Mark.3", "Mark.4", "Mark.6"])


def test_a_drill_is_the_same_at_each_run():
    lines = []
    for _ in range(2):
        with Folder() as folder:
            lines.append(drilled(folder, "500"))
    same(lines[0], lines[1])
    # Each round has an entry for its Insert and one for its lock, and each fourth one for its Delete; each lock takes the feature just inserted at least.
    same(lines[0].split()[:4], ["rounds", "500", "entries", "1125"])
