"""What a start makes of two files (docs/FORMATS.md, The journal's bytes): which side is current, what ends its records, what is refused and where, and
what is written then. `check` writes nothing into a file, and neither does a start that is refused."""

import os

from harness import DONE, JOURNAL_REFUSED, STORE_FAULT, TOO_LONG, Folder, rows, same
from journals import LONGEST_SIDE, base, head, number, opening, put, put_mark, record, side

FILES = ("journal.a", "journal.b")


class Pair(Folder):
    """A folder with these two files."""

    def __init__(self, first: bytes, second: bytes):
        super().__init__()
        for name, content in zip(FILES, (first, second)):
            self.write(name, content)

    @property
    def files(self) -> tuple:
        return tuple(map(self.read, FILES))


def ends(folder: Folder, text: str, status: int, *words: str) -> None:
    """That a run writes this and ends so."""
    run = folder.run(*words)
    same((run.text, run.status), (text, status), words[0])


def appended(content: bytes, gate: int, body: bytes) -> bytes:
    """A side with one record more, from its ending gate on. What stands after the new closed gate stays."""
    added = record(body) + b"\0"
    return content[:gate] + added + content[gate + len(added) :]


def shut(content: bytes) -> bytes:
    """A side that is not current, after a start: byte 0 is closed where it reads neither 0 nor 1."""
    return b"\0" + content[1:] if len(content) >= 17 and content[0] > 1 else content


NONE, ONE, TWO = side(), side(opening(1)), side(opening(1), opening(2))
# The ending gates of these, which is where their last byte stands.
AT_NONE, AT_ONE, AT_TWO = 16, 123, 230
SHORT = b"\xff" * 16
# A side whose byte 0 a crash has torn, and one that was closed.
STALE, CLOSED = side(opening(1), generation=2, gate=b"\7"), side(opening(1), generation=9, gate=b"\0")


@rows(
    ("two files of no bytes", b"", b""),
    ("a short file", SHORT, b""),
    ("a side that is cut before its first gate", b"", NONE[:16]),
    ("files that begin with a closed gate", b"\0rubbish of an old file", b"\0more of it, and longer"),
    ("two sides that are closed", CLOSED, side(generation=8, gate=b"\0")),
    ("a first side that a crash tore", side(gate=b"\5"), b""),
    ("a second side that a crash tore", b"", side(generation=9, gate=b"\xff")),
    ("two sides that crashes tore", side(gate=b"\2"), side(generation=2, gate=b"\3")),
)
def test_where_no_side_is_current_side_a_is_made(first, second):
    with Pair(first, second) as folder:
        same(folder.check(), "types 3 features 0 queries 0 openings 0\n")
        same(folder.files, (first, second), "after check")
        ends(folder, "", DONE, "talk")
        same(folder.files, (ONE, shut(second)), "after a start")


def test_files_that_are_not_there_are_made():
    with Folder() as folder:
        same(folder.check(), "types 3 features 0 queries 0 openings 0\n")
        for name in FILES:
            os.remove(folder.file(name))
        ends(folder, "", DONE, "talk")
        same(tuple(map(folder.read, FILES)), (ONE, b""))


# Both files, the place of the side that is current, where its ending gate stands, and the number of its last opening.
CURRENT = (
    ("side a without a record", NONE, b"", 0, AT_NONE, 0),
    ("side a", ONE, b"", 0, AT_ONE, 1),
    ("side b", b"", ONE, 1, AT_ONE, 1),
    ("three records", side(opening(1), put(), put()), b"", 0, AT_ONE + 20, 1),
    ("side b beside one that is closed", CLOSED, TWO, 1, AT_TWO, 2),
    ("side b beside a short file", SHORT, TWO, 1, AT_TWO, 2),
    ("generation 0", side(generation=0), b"", 0, AT_NONE, 0),
    ("the greater generation, in side b", TWO, side(opening(1), generation=2), 1, AT_ONE, 1),
    ("the greater generation, in side a", side(opening(1), generation=3), TWO, 0, AT_ONE, 1),
    ("two of one generation: side a with records", TWO, NONE, 0, AT_TWO, 2),
    ("two of one generation: side a without", NONE, TWO, 0, AT_NONE, 0),
    ("a generation greater by its first byte", TWO, side(opening(1), generation=1 << 56), 1, AT_ONE, 1),
    ("the greatest generation", TWO, side(opening(1), generation=(1 << 64) - 1), 1, AT_ONE, 1),
    ("side a beside a torn one of a greater generation", TWO, STALE, 0, AT_TWO, 2),
    ("side b beside a torn one of a greater generation", side(generation=5, gate=b"\2"), ONE, 1, AT_ONE, 1),
    # What stands after the ending gate counts for nothing, whether that gate was closed or torn.
    ("a record after a closed gate", ONE + record(opening(2)) + b"\0", b"", 0, AT_ONE, 1),
    ("a record after a torn gate", ONE[:-1] + record(opening(2), gate=b"\5") + b"\0", b"", 0, AT_ONE, 1),
    ("a torn gate beside a torn side", ONE[:-1] + record(opening(2), gate=b"\5") + b"\0", STALE, 0, AT_ONE, 1),
    ("a torn gate and nothing more", ONE[:-1] + b"\5", b"", 0, AT_ONE, 1),
    ("ones after a closed gate", ONE + b"\1" * 6, b"", 0, AT_ONE, 1),
    ("a torn gate before any record", NONE[:-1] + b"\xff", b"", 0, AT_NONE, 0),
    ("a longer remainder than what is written over it", ONE[:-1] + record(b"x" * 300, gate=b"\7") + b"\0", b"", 0, AT_ONE, 1),
)


@rows(*CURRENT)
def test_a_start_goes_on_with_the_current_side(first, second, current, gate, openings):
    files = [first, second]
    with Pair(first, second) as folder:
        same(folder.check(), "types 3 features 0 queries 0 openings %d\n" % openings)
        same(folder.files, (first, second), "after check")
        ends(folder, "", DONE, "talk")
        wanted = [shut(it) for it in files]
        wanted[current] = appended(files[current], gate, opening(openings + 1))
        same(folder.files, tuple(wanted), "after a start")
        same(folder.check(), "types 3 features 0 queries 0 openings %d\n" % (openings + 1))


FOREIGN = [(head()[:place] + b"X" + head()[place + 1 :] + b"\0", place) for place in range(1, 8)]
TORN = NONE[:-1] + b"\1"
OTHER_MAKE = b"\1WFSJNL of another make"
BAD = side(opening(1), b"\x09")

# Both files, and the side and the place that the line tells.
REFUSED = (
    *(("a first side that is foreign at byte %d" % place, content, b"", "a %d" % place) for content, place in FOREIGN),
    ("a second side that is foreign", ONE, FOREIGN[0][0], "b 1"),
    ("a second side that is foreign in the middle", ONE, FOREIGN[3][0], "b 4"),
    ("a later version behind a torn gate", b"", head(gate=b"\xff")[:7] + b"\0" + number(1, 8) + b"\0", "b 7"),
    ("ones beside a side that could be current", b"\1" * 17, ONE, "a 1"),
    ("a second side of other bytes", ONE, b"\7not a journal's bytes", "b 1"),
    ("two foreign sides: side a is told", b"\7" + OTHER_MAKE[1:], b"\1not a journal's bytes", "a 7"),
    ("a foreign side before any record", OTHER_MAKE, TORN, "a 7"),
    ("a foreign second side before any record of the first", TORN, OTHER_MAKE, "b 7"),
    ("an open gate and nothing more", TORN, b"", "a 16"),
    ("a second record that is cut", ONE[:-1] + b"\1", b"", "a 123"),
    ("a second record of side b that is longer than the file", b"", ONE[:-1] + b"\1" + number(5) + b"tail\0", "b 123"),
    ("a length whose lowest byte stands first", head() + b"\1\x66\0\0\0" + opening(1) + b"\0", b"", "a 16"),
    ("the greatest length", head() + b"\1\xff\xff\xff\xff" + opening(1) + b"\0", b"", "a 16"),
    ("a body of no kind", side(b"\x09"), b"", "a 16"),
    ("a second body of no kind, with an open gate after it", BAD[:-1] + b"\1", b"", "a 123"),
    ("an open gate without a record beside a torn side", TORN, STALE, "a 16"),
    ("a body of no kind beside a torn side", side(b"\x09", end=b"\5"), STALE, "a 16"),
)


@rows(*REFUSED)
def test_what_is_no_journal_is_refused_and_left(first, second, place):
    with Pair(first, second) as folder:
        for words in (["check"], ["talk"], ["compact"]):
            ends(folder, "wfsd: not a journal: %s\n" % place, JOURNAL_REFUSED, *words)
        same(folder.files, (first, second))


def test_a_record_that_ends_at_any_place_is_refused_at_its_gate():
    for end in range(AT_NONE + 1, AT_ONE + 1):
        with Pair(ONE[:end], b"") as folder:
            ends(folder, "wfsd: not a journal: a 16\n", JOURNAL_REFUSED, "check")


# Both files, and the record that the line tells.
NOT_OF_SCHEMA = (
    ("the second record", side(opening(1), opening(3)), b"", 1),
    ("the third record, of side b", b"", side(opening(1), put(), opening(1)), 2),
    ("the first, with a record after it that is cut", side(put(), end=b"\1"), b"", 0),
    ("the first, with a tail and beside a torn side", side(put(), end=b"\5"), STALE, 0),
)


@rows(*NOT_OF_SCHEMA)
def test_a_record_that_does_not_fit_is_refused_before_what_comes_after_it(first, second, which):
    with Pair(first, second) as folder:
        for words in (["check"], ["talk"], ["compact"]):
            ends(folder, "wfsd: not of this schema: %d\n" % which, JOURNAL_REFUSED, *words)
        same(folder.files, (first, second))


@rows(("of the greatest length, whose body is none", 0, "not a journal: a 16", JOURNAL_REFUSED), ("one byte longer", 1, "full", TOO_LONG))
def test_a_side(more, line, status):
    # Zeros make no body; a side that is too long is refused before its bodies are looked at.
    with Pair(head() + b"\1" + number(LONGEST_SIDE + more - 22), b"") as folder:
        os.truncate(folder.file("journal.a"), LONGEST_SIDE + 10)
        ends(folder, "wfsd: %s\n" % line, status, "check")


@rows(("cannot be written", "/dev/full", "talk"), ("cannot be made", "/no/such/folder/file", "check"))
def test_a_file_that(target, command):
    with Folder() as folder:
        os.symlink(target, folder.file("journal.a"))
        ends(folder, "wfsd: store fault\n", STORE_FAULT, command)


def test_a_second_checkpoint_is_made_over_the_first_side():
    # Each start writes an opening before the checkpoint is made. The 283 bytes of side a are cut to the 109 of its new content.
    marks = put(put_mark(1, "A"), put_mark(2, "B"))
    with Pair(side(opening(1), marks), b"") as folder:
        ends(folder, "side 283 to 109 bytes\n", DONE, "compact")
        same(folder.files, (side(opening(1), marks, opening(2)), side(base(2, 2, 0, 0), marks, generation=2)))
        ends(folder, "side 216 to 109 bytes\n", DONE, "compact")
        same(folder.files, (side(base(3, 2, 0, 0), marks, generation=3), side(base(2, 2, 0, 0), marks, opening(3), generation=2)))
