"""Runs on one folder, one after the other: what lies in its two files, what the next run finds, and which files are refused."""

from bodies import locked, refused, says
from harness import DONE, JOURNAL_REFUSED, MARKS, SCHEMA_REFUSED, TOO_LONG, Folder, TWO_MARKS, get, hits, insert, mark, rows, same
from journals import LAST_OF_ALL, base, number, opening, put, put_mark, side
from worked import BY_LABEL, find, lock

def line_of(folder, *words: str) -> tuple:
    """The line and the status of a run."""
    run = folder.run(*words)
    return run.text, run.status


def lengths(folder) -> tuple:
    return len(folder.read("journal.a")), len(folder.read("journal.b"))


# ---- what lies in the files


def test_identifiers_go_on_in_the_next_run():
    # An opening has 107 bytes, two marks 52 and one 31, after a head of 16 and before a last gate.
    with Folder() as folder:
        folder.ask(TWO_MARKS)
        same(lengths(folder), (176, 0))
        same(folder.ask(insert(mark("C")))[0].ids, ["Mark.3"])
        same(lengths(folder), (314, 0))
        same(folder.read("journal.a"), side(opening(1), put(put_mark(1, b"A"), put_mark(2, b"B")), opening(2), put(put_mark(3, b"C"))))


def test_a_checkpoint_has_what_is_held_and_no_more():
    with Folder() as folder:
        folder.ask(TWO_MARKS)
        same(line_of(folder, "compact"), ("side 283 to 109 bytes\n", DONE))
        same(folder.read("journal.b"), side(base(2, 2, 0, 0), put(put_mark(1, b"A"), put_mark(2, b"B")), generation=2))
        same(folder.check(), "types 3 features 2 queries 0 openings 2\n")
        same(folder.ask(hits())[0].matched, 2)
        same(lengths(folder), (283, 216))


def test_check_changes_nothing():
    with Folder() as folder:
        same(folder.check(), "types 3 features 0 queries 0 openings 0\n")
        same(lengths(folder), (0, 0))
        folder.ask(TWO_MARKS)
        before = folder.read("journal.a")
        same(folder.check(), "types 3 features 2 queries 0 openings 1\n")
        same(folder.read("journal.a"), before)


def test_a_side_of_a_million_bytes_has_room():
    # The same mark, put 33,000 times. A side may have 268,435,456 bytes, and a start leaves one of 67,108,864 or less as it is.
    long = side(opening(1), *[put(put_mark(1, b"A"))] * 33_000)
    same(len(long), 1_023_124)
    with Folder() as folder:
        folder.write("journal.a", long)
        says(folder.talk())
        same(lengths(folder), (1_023_231, 0))


def test_what_stands_after_the_last_gate_that_is_closed_does_not_count():
    # A record whose gate was never opened: the next change is written over it.
    whole = side(opening(1), put(put_mark(1, b"A")))
    with Folder() as folder:
        folder.write("journal.a", whole + number(26) + put(put_mark(2, b"B")) + b"\0")
        same(folder.check(), "types 3 features 1 queries 0 openings 1\n")
        same(folder.ask(hits(), insert(mark("C")))[1].ids, ["Mark.2"])
        same(folder.read("journal.a")[: len(whole) + 107], side(opening(1), put(put_mark(1, b"A")), opening(2))[:-1] + b"\1")


# ---- locks and stored queries


def test_locks_end_with_their_run():
    with Folder() as folder:
        same(folder.ask(TWO_MARKS, lock("resourceId=Mark.1"))[1].body, locked("lock-1-1", ["Mark.1"]))
        same(folder.ask(lock("typeNames=Mark"))[0].body, locked("lock-2-1", ["Mark.1", "Mark.2"]))
        # Locks leave nothing in the files.
        same(lengths(folder), (283, 0))


def test_stored_queries_are_there_in_the_next_run():
    drop = get("service=WFS&request=DropStoredQuery&storedQuery_id=urn:x:by")
    with Folder() as folder:
        unknown, created, _ = folder.ask(drop, BY_LABEL, TWO_MARKS)
        same(unknown.refusal, refused("no such query", "storedQuery_id"))
        same(created.status, 200)
        listed, found = folder.ask(get("service=WFS&request=ListStoredQueries"), find("storedQuery_id=urn:x:by&L=B"))
        same([it.split('"')[0] for it in listed.body.split('<wfs:StoredQuery id="')[1:]], ["urn:ogc:def:query:OGC-WFS::GetFeatureById", "urn:x:by"])
        same(found.ids, ["Mark.2"])
        same(folder.check(), "types 3 features 2 queries 1 openings 2\n")
        same(folder.ask(drop)[0].status, 200)
        same(folder.ask(find("storedQuery_id=urn:x:by&L=B"))[0].refusal, refused("no such query", "storedQuery_id"))


# ---- what is refused

OTHER_SCHEMA = """title = "Marks"
address = "http://localhost:8080/wfs"
namespace = "http://example.org/marks"
prefix = "m"
srs = ["EPSG:25832"]
[[type]]
name = "Mark"
property = [ {name="label", kind="text"} ]
"""

FOREIGN = b"\1XFSJNL\1" + number(1, 8) + b"\0"


@rows(
    ("a file that is no journal", FOREIGN, b"", "not a journal: a 1"),
    ("another file that is none", b"", FOREIGN, "not a journal: b 1"),
    ("a journal of a later version", FOREIGN.replace(b"X", b"W")[:7] + b"\2" + number(1, 8) + b"\0", b"", "not a journal: a 7"),
    ("a record that is longer than its file", side(opening(1))[:-2], b"", "not a journal: a 16"),
    ("a record of a kind that there is not", side(opening(1), b"\x09"), b"", "not a journal: a 123"),
    ("an opening that comes too early", side(opening(2)), b"", "not of this schema: 0"),
    ("a change before any opening", side(put(put_mark(1, b"A"))), b"", "not of this schema: 0"),
    ("a text that is too long", side(opening(1), put(put_mark(1, b"A" * 41))), b"", "not of this schema: 1"),
    ("a type that there is not", side(opening(1), put(put_mark(1, b"A")[:2] + b"\x09" + put_mark(1, b"A")[3:])), b"", "not of this schema: 1"),
)
def test_a_journal_is_refused(first, second, line):
    with Folder() as folder:
        for name, content in (("journal.a", first), ("journal.b", second)):
            folder.write(name, content)
        for words in (["talk"], ["check"]):
            same(line_of(folder, *words), ("wfsd: %s\n" % line, JOURNAL_REFUSED), words[0])
        same((folder.read("journal.a"), folder.read("journal.b")), (first, second))


def test_a_journal_of_another_schema_is_refused():
    with Folder() as folder:
        folder.ask(TWO_MARKS)
        folder.write("schema.toml", OTHER_SCHEMA)
        same(line_of(folder, "talk"), ("wfsd: not of this schema: 0\n", JOURNAL_REFUSED))
        folder.write("schema.toml", "=")
        same(line_of(folder, "talk"), ("wfsd: schema refused: NotToml\n", SCHEMA_REFUSED))
        folder.write("schema.toml", MARKS)
        same(folder.ask(hits())[0].matched, 2)


def test_no_number_is_left():
    # All numbers of the first type are given.
    with Folder() as folder:
        folder.write("journal.a", side(base(1, LAST_OF_ALL, 0, 0)))
        same(len(folder.read("journal.a")), 57)
        same(line_of(folder, "drill", "1"), ("wfsd: full\n", TOO_LONG))
        full, other = folder.ask(insert(mark("A")), insert("<m:Field/>"))
        same(full.refusal, refused("full", "full"))
        same(other.ids, ["Field.1"])


def test_no_opening_is_left():
    with Folder() as folder:
        folder.write("journal.a", side(base(LAST_OF_ALL, 0, 0, 0), generation=2))
        for words in (["talk"], ["compact"], ["drill", "1"]):
            same(line_of(folder, *words), ("wfsd: full\n", TOO_LONG), words[0])
        same(folder.check(), "types 3 features 0 queries 0 openings 1000000000000\n")
