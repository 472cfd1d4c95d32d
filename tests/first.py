"""The README's first requests."""

from harness import DONE, Folder, TWO_MARKS, hits, same


def test_two_marks_are_inserted_and_counted():
    with Folder() as folder:
        inserted, counted = folder.ask(TWO_MARKS, hits())
        same(inserted.ids, ["Mark.1", "Mark.2"])
        same(counted.matched, 2)
        same(folder.check(), "types 3 features 2 queries 0 openings 1\n")


def test_two_marks_are_inserted_over_loopback():
    with Folder() as folder, folder.serve() as server:
        inserted, counted = server.ask(TWO_MARKS, hits())
        same(inserted.ids, ["Mark.1", "Mark.2"])
        same(counted.matched, 2)
