"""Input that is cut short, or made to break the service: each alone on a new folder, over the standard input and over loopback, with the bytes that it is
answered, how the session ends, and what the next run finds."""

import contextlib
import resource
import signal
import socket
import subprocess

from bodies import answer, refusal, says, transacted
from harness import DONE, LONGEST, PROGRAM, UNFRAMED, WRITE_FAULT, Connection, Folder, get, hits, insert, mark, post, request, rows, same
from worked import TWO, TWO_INSERTED, query

BODY = TWO.encode()
CLOSING = answer(transacted(["Mark.1", "Mark.2"]), closes=True)
HEAD, SIZE = refusal("bad message head", "head", closes=True), refusal("message too large", "size", closes=True)
LENGTH, CODING = refusal("length required", "Content-Length", closes=True), refusal("coded body", "coding", closes=True)
DOCUMENT = refusal("bad document", "document")


def sent(first_line: str, *fields: str, body: bytes = b"") -> bytes:
    """A message with just these fields."""
    return "".join("%s\r\n" % it for it in (first_line, *fields, "")).encode() + body


def to_wfs(*fields: str, body: bytes = b"") -> bytes:
    return sent("POST /wfs HTTP/1.1", *fields, body=body)


def nested(depth: int) -> str:
    return "<a>" * depth + "</a>" * depth


def wide(attributes: int) -> str:
    return "<a %s/>" % " ".join('a%d=""' % it for it in range(attributes))


def way(positions: int) -> bytes:
    return insert("<m:Way><m:course><gml:LineString><gml:posList>%s</gml:posList></gml:LineString></m:course></m:Way>" % ("1 2 " * positions))


def any_of(operators: int) -> bytes:
    """A query with a filter of so many operators."""
    null = "<fes:PropertyIsNull><fes:ValueReference>size</fes:ValueReference></fes:PropertyIsNull>"
    return query("<fes:Or>%s</fes:Or>" % (null * (operators - 1)))


# What comes, what is answered, the status that the session ends with, and how many marks the next run finds.
CASES = (
    ("no byte", b"", "", DONE, 0),
    ("line ends alone", b"\r\n\r\n", "", DONE, 0),
    ("a head of 16,384 bytes that has not ended", (b"GET /wfs HTTP/1.1\r\n" + b"Field: value\r\n" * 1200)[:16384], SIZE, UNFRAMED, 0),
    ("another version, and no more", b"GET /wfs HTTP/3", HEAD, UNFRAMED, 0),
    ("two lengths", to_wfs("Content-Length: 5", "Content-Length: 6"), HEAD, UNFRAMED, 0),
    ("a length with a sign", to_wfs("Content-Length: +5"), HEAD, UNFRAMED, 0),
    ("a length and chunks", to_wfs("Content-Length: 5", "Transfer-Encoding: chunked", body=b"0\r\n\r\n"), HEAD, UNFRAMED, 0),
    ("one length twice", to_wfs("Content-Length: 242", "Content-Length: 242", body=BODY), TWO_INSERTED, DONE, 2),
    ("a coding and chunks", to_wfs("Transfer-Encoding: gzip, chunked"), CODING, UNFRAMED, 0),
    ("a coded body", to_wfs("Content-Encoding: gzip", "Content-Length: 242", body=BODY), CODING, UNFRAMED, 0),
    ("no length", to_wfs(), LENGTH, UNFRAMED, 0),
    ("a length too great, of which nothing is asked for", to_wfs("Content-Length: 4194305", "Expect: 100-continue"), SIZE, UNFRAMED, 0),
    ("an old version that waits", sent("POST /wfs HTTP/1.0", "Expect: 100-continue", "Content-Length: 242", body=BODY), CLOSING, DONE, 2),
    ("a chunk line that is none", to_wfs("Transfer-Encoding: chunked", body=b"g\r\n"), HEAD, UNFRAMED, 0),
    ("a chunk without its end", to_wfs("Transfer-Encoding: chunked", body=b"5\r\nhelloxx"), HEAD, UNFRAMED, 0),
    ("a chunk too long", to_wfs("Transfer-Encoding: chunked", body=b"400001\r\n" + b"x" * 0x400001), SIZE, UNFRAMED, 0),
    ("32 levels", post(nested(32)), refusal("unknown operation", "a"), DONE, 0),
    ("33 levels", post(nested(33)), DOCUMENT, DONE, 0),
    ("100,001 elements", post("<a>%s</a>" % ("<b/>" * 100_000)), DOCUMENT, DONE, 0),
    ("64 attributes", post(wide(64)), refusal("unknown operation", "a"), DONE, 0),
    ("65 attributes", post(wide(65)), DOCUMENT, DONE, 0),
    ("a document type", post("<!DOCTYPE a><a/>"), DOCUMENT, DONE, 0),
    ("an entity", post("<a>&x;</a>"), DOCUMENT, DONE, 0),
    ("a byte that is no text", post(b"<a>\xff</a>"), DOCUMENT, DONE, 0),
    ("a tag that is never closed", post("<a"), DOCUMENT, DONE, 0),
    ("a parameter twice", get("service=WFS&SERVICE=WFS&request=GetFeature&typeNames=Mark"), refusal("misplaced or malformed", "service"), DONE, 0),
    ("a count too great", get("service=WFS&request=GetFeature&typeNames=Mark&count=4294967296"), refusal("value refused", "count"), DONE, 0),
    ("a box upside down", get("service=WFS&request=GetFeature&typeNames=Mark&bbox=2,2,1,1"), refusal("value refused", "bbox"), DONE, 0),
    ("1,001 operators", any_of(1001), refusal("option refused", "Filter"), DONE, 0),
    ("10,000 positions", way(10_000), answer(transacted(["Way.1"])), DONE, 0),
    ("10,001 positions", way(10_001), refusal("value does not fit", "course"), DONE, 0),
    ("a feature that does not fit after one that does", insert(mark("A"), "<m:Mark/>"), refusal("value does not fit", "label"), DONE, 0),
)


def marks_of(folder: Folder) -> int:
    """How many marks the next run finds."""
    return folder.ask(hits())[0].matched


@rows(*CASES)
def test_over_the_standard_input(stream, wanted, status, marks):
    with Folder() as folder:
        says(folder.talk(stream), wanted, status=status)
        same(marks_of(folder), marks)


def all_from(connection: Connection) -> bytes:
    """What comes up to the end of a connection. A side that closes with bytes unread resets it."""
    found = b""
    with contextlib.suppress(ConnectionResetError):
        while piece := connection.socket.recv(65536):
            found += piece
    return found


@rows(*CASES)
def test_over_loopback(stream, wanted, status, marks):
    with Folder() as folder:
        with folder.serve(workers=1) as server:
            with server.connect() as connection:
                with contextlib.suppress(OSError):
                    connection.send(stream)
                    connection.socket.shutdown(socket.SHUT_WR)
                same(all_from(connection).decode(), wanted)
            # The worker serves the next one.
            same(server.ask(hits())[0].matched, marks)
        same(marks_of(folder), marks)


def test_an_output_that_fails_within_an_answer_ends_the_session():
    # No file may pass 1,000 bytes: the journal has less, and the two answers have more.
    def limited():
        signal.signal(signal.SIGXFSZ, signal.SIG_IGN)
        resource.setrlimit(resource.RLIMIT_FSIZE, (1000, 1000))

    messages = insert(mark("A")), insert(mark("B")), insert(mark("C"))
    wanted = "".join(answer(transacted([it])) for it in ("Mark.1", "Mark.2")).encode()
    same(len(wanted) // 2 < 1000 < len(wanted), True)
    with Folder() as folder:
        with open(folder.file("output"), "wb") as output:
            ended = subprocess.run([PROGRAM, "talk", folder.path], input=b"".join(messages), stdout=output, timeout=LONGEST, check=False, preexec_fn=limited)
        same((ended.returncode, folder.read("output")), (WRITE_FAULT, wanted[:1000]))
        # The second was carried out, though nobody was told; the third was not read.
        same(marks_of(folder), 2)
