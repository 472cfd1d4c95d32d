"""The order in which features are found that are sorted by keys (OGC 09-026r2, section 8), and identifiers of another type."""

from harness import Folder, insert, rows, same
from written import feature, find, rid, sorted_by

MARKED = """title="Marks"
address="http://localhost:8080/wfs"
namespace="http://example.org/marks"
prefix="m"
srs=["EPSG:25832"]
[[type]]
name = "Mark"
property = [ {name="label", kind="text"}, {name="size", kind="integer"}, {name="flag", kind="boolean"} ]
[[type]]
name = "Other"
property = [ {name="label", kind="text"} ]
"""
FIVE = insert(
    feature("Mark", label="A", size="2", flag="true"),
    feature("Mark", label="A", size="1", flag="false"),
    feature("Mark", label="B", size="1"),
    feature("Mark", label="B", size="2", flag="true"),
    feature("Other", label="A"),
)


@rows(
    ("no key", [], [1, 2, 3, 4]),
    ("nulls, then false before true", [("flag", "ASC")], [3, 2, 1, 4]),
    ("true before false, then nulls", [("flag", "DESC")], [1, 4, 2, 3]),
    ("each key goes its own way", [("label", "ASC"), ("size", "DESC")], [1, 2, 4, 3]),
    ("and the other way", [("label", "DESC"), ("size", "ASC")], [3, 4, 2, 1]),
)
def test_marks_are_sorted(keys, wanted):
    with Folder(MARKED) as folder:
        _, found = folder.ask(FIVE, find("Mark", order=sorted_by(*keys) if keys else ""))
        same(found.ids, ["Mark.%d" % number for number in wanted])


def test_identifiers_of_another_type_select_nothing():
    listed = rid("Mark.4", "Other.1")
    with Folder(MARKED) as folder:
        _, marks, others = folder.ask(FIVE, find("Mark", listed), find("Other", listed))
        same((marks.ids, others.ids), (["Mark.4"], ["Other.1"]))
