"""Streams that a stranger may send to make the service do what it should not (RFC 9112, section 11.2; XML 1.0, section 2): most hold a change that
would be carried out if the message were taken for another than it is. Each is sent alone to a new folder: over the standard input, over loopback,
and between two changes. Seen are the answers byte by byte, how the session ends, and how many marks the next run finds."""

import contextlib
import resource
import signal
import subprocess

from bodies import answer, at_one_moment, refusal, says, transacted
from connections import send_in_pieces
from harness import CUT, DONE, LONGEST, PROGRAM, SPACES, UNFRAMED, WRITE_FAULT, Folder, hits, insert, mark, post, rows, same
from worked import TWO, TWO_INSERTED

BAD_HEAD, TOO_LARGE = refusal("bad message head", "head", closes=True), refusal("message too large", "size", closes=True)
CODED, NO_LENGTH = refusal("coded body", "coding", closes=True), refusal("length required", "Content-Length", closes=True)
BAD_DOCUMENT = refusal("bad document", "document")
CONTINUE = "HTTP/1.1 100 Continue\r\n\r\n"
ONE_INSERTED = answer(transacted(["Mark.1"]))
MOST = 4_194_304


def posted(fields: str, body, version: str = "1.1") -> bytes:
    """A message with these fields, each with its line end, and these bytes after its head."""
    return ("POST /wfs HTTP/%s\r\n%s\r\n" % (version, fields)).encode() + (body.encode() if isinstance(body, str) else body)


def sized(size: int) -> bytes:
    """An Insert of two marks, whose head has so many bytes."""
    head = posted("Content-Length: %d\r\nA: \r\n" % len(TWO), "")
    return head[:-4] + b"a" * (size - len(head)) + head[-4:] + TWO.encode()


def unended(size: int) -> bytes:
    """So many bytes of a head, whose fields are in order."""
    start = b"GET /wfs?service=WFS HTTP/1.1\r\nA: "
    return start + b"a" * (size - len(start))


def chunk(body: str) -> str:
    return "%x\r\n%s\r\n" % (len(body), body)


def lengths(*stated: str) -> str:
    return "".join("Content-Length: %s\r\n" % it for it in stated)


CHUNKED, EXPECTED = "Transfer-Encoding: chunked\r\n", "Expect: 100-continue\r\n"
CHUNKS = chunk(TWO[:100]) + chunk(TWO[100:]) + "0\r\n\r\n"

# The name of each stream, the stream, the answers, the status of the session, and how many marks there are afterwards.
MESSAGES = (
    ("no byte", b"", [], DONE, 0),
    ("a line end alone", b"\r\n", [], DONE, 0),
    ("a head of 16,384 bytes", sized(16_384), [TWO_INSERTED], DONE, 2),
    ("a head of one byte more", sized(16_385), [TOO_LARGE], UNFRAMED, 0),
    ("16,384 bytes of a head that has not ended", unended(16_384), [TOO_LARGE], UNFRAMED, 0),
    ("another version", b"GET /wfs HTTP/3", [BAD_HEAD], UNFRAMED, 0),
    ("two lengths", posted(lengths("242", "243"), TWO), [BAD_HEAD], UNFRAMED, 0),
    ("the same length twice", posted(lengths("242", "242"), TWO), [TWO_INSERTED], DONE, 2),
    ("a length with a sign", posted(lengths("+242"), TWO), [BAD_HEAD], UNFRAMED, 0),
    ("a length and chunks", posted(CHUNKED + lengths("242"), TWO), [BAD_HEAD], UNFRAMED, 0),
    ("chunks and the length of them", posted(lengths(str(len(CHUNKS))) + CHUNKED, CHUNKS), [BAD_HEAD], UNFRAMED, 0),
    ("no length", posted("Host: h\r\n", TWO), [NO_LENGTH], UNFRAMED, 0),
    ("no length, and the sender waits", posted(EXPECTED, TWO), [NO_LENGTH], UNFRAMED, 0),
    ("a coding before chunks", posted("Transfer-Encoding: gzip, chunked\r\n", CHUNKS), [CODED], UNFRAMED, 0),
    ("a coding of the body", posted("Content-Encoding: gzip\r\n" + lengths("242"), TWO), [CODED], UNFRAMED, 0),
    ("a coding, and the sender waits", posted(EXPECTED + "Content-Encoding: gzip\r\n" + lengths("242"), TWO), [CODED], UNFRAMED, 0),
    ("a length above the limit", posted(lengths(str(MOST + 1)), TWO), [TOO_LARGE], UNFRAMED, 0),
    ("a length above it, and the sender waits", posted(lengths(str(MOST + 1)) + EXPECTED, ""), [TOO_LARGE], UNFRAMED, 0),
    ("a sender of HTTP/1.0 that waits", posted(lengths("242") + EXPECTED, TWO, "1.0"), [answer(transacted(["Mark.1", "Mark.2"]), closes=True)], DONE, 2),
    ("chunks", posted(CHUNKED, CHUNKS), [TWO_INSERTED], DONE, 2),
    ("a chunk without a length", posted(CHUNKED, "g\r\n"), [BAD_HEAD], UNFRAMED, 0),
    ("a chunk that is longer than its length", posted(CHUNKED, "f2\r\n" + TWO + "xx"), [BAD_HEAD], UNFRAMED, 0),
    ("a chunk that is none after the whole body", posted(CHUNKED, chunk(TWO) + "-0\r\n\r\n"), [BAD_HEAD], UNFRAMED, 0),
    ("the same, and the sender waits", posted(CHUNKED + EXPECTED, chunk(TWO) + "-0\r\n\r\n"), [CONTINUE, BAD_HEAD], UNFRAMED, 0),
    ("a chunk above the limit", posted(CHUNKED, "400001\r\n" + TWO.ljust(MOST + 1)), [TOO_LARGE], UNFRAMED, 0),
    ("a chunk above it, and the sender waits", posted(CHUNKED + EXPECTED, "400001\r\n" + TWO.ljust(MOST + 1)), [CONTINUE, TOO_LARGE], UNFRAMED, 0),
    ("a chunk at the limit", posted(CHUNKED, "400000\r\n" + TWO.ljust(MOST) + "\r\n0\r\n\r\n"), [TWO_INSERTED], DONE, 2),
)

# Here the input ends within a message.
CUT_SHORT = (
    ("a length of one byte more", posted(lengths("243"), TWO), [], CUT, 0),
    ("the greatest length", posted(lengths(str(MOST)), TWO), [], CUT, 0),
    ("a length of one byte more, and the sender waits", posted(lengths("243") + EXPECTED, TWO), [CONTINUE], CUT, 0),
    ("chunks without a last one", posted(CHUNKED, chunk(TWO)), [], CUT, 0),
    ("chunks without the line after the last one", posted(CHUNKED, chunk(TWO) + "0\r\n"), [], CUT, 0),
)


def document(extent: str = "", label: str = "A", before: str = "", more: str = "", end: str = "</wfs:Transaction>") -> bytes:
    """An Insert of a mark. What stands in its extent is passed over."""
    feature = mark(label, "<gml:boundedBy%s>%s</gml:boundedBy>" % (more, extent))
    return post("%s<wfs:Transaction %s><wfs:Insert>%s</wfs:Insert>%s" % (before, SPACES, feature, end))


def deep(levels: int) -> str:
    """Elements in each other. Their first is at the fifth level of the document."""
    return "<b>" * (levels - 4) + "</b>" * (levels - 4)


def attributes(count: int) -> str:
    return "".join(' a%d=""' % number for number in range(count))


# An entity that is ten times another, and so on.
ENTITIES = "<!DOCTYPE a [<!ENTITY x0 'x'>%s]>" % "".join("<!ENTITY x%d '%s'>" % (n + 1, "&x%d;" % n * 10) for n in range(9))

DOCUMENTS = (
    ("32 levels", document(deep(32)), [ONE_INSERTED], DONE, 1),
    ("33 levels", document(deep(33)), [BAD_DOCUMENT], DONE, 0),
    ("100,000 elements", document("<b/>" * 99_995), [ONE_INSERTED], DONE, 1),
    ("100,001 elements", document("<b/>" * 99_996), [BAD_DOCUMENT], DONE, 0),
    ("64 attributes", document(more=attributes(64)), [ONE_INSERTED], DONE, 1),
    ("65 attributes", document(more=attributes(65)), [BAD_DOCUMENT], DONE, 0),
    ("a document type", document(before="<!DOCTYPE Transaction>"), [BAD_DOCUMENT], DONE, 0),
    ("an entity of a file", document(before="<!DOCTYPE a [<!ENTITY x SYSTEM 'schema.toml'>]>", label="&x;"), [BAD_DOCUMENT], DONE, 0),
    ("entities of entities", document(before=ENTITIES, label="&x9;"), [BAD_DOCUMENT], DONE, 0),
    ("an unknown entity", document(label="&x;"), [BAD_DOCUMENT], DONE, 0),
    ("a byte that is no text", document(label="~").replace(b"~", b"\xff"), [BAD_DOCUMENT], DONE, 0),
    ("a tag that is not closed", document(end=""), [BAD_DOCUMENT], DONE, 0),
    ("a second root", document(end="</wfs:Transaction><a/>"), [BAD_DOCUMENT], DONE, 0),
)


def next_hits(folder) -> int:
    """How many marks the next run finds."""
    return folder.ask(hits())[0].matched


@rows(*MESSAGES, *CUT_SHORT, *DOCUMENTS)
def test_alone(stream, wanted, status, marks):
    with Folder() as folder:
        says(folder.talk(stream), *wanted, status=status)
        same(next_hits(folder), marks, "hits")


def received(connection, stream: bytes) -> bytes:
    """All that comes on a connection on which a stream is sent, up to its end. A side that closes with bytes unread resets it."""
    send_in_pieces(connection, stream, 1 << 30, True)
    output = b""
    with contextlib.suppress(ConnectionResetError):
        while piece := connection.socket.recv(65536):
            output += piece
    return output


@rows(*MESSAGES, *CUT_SHORT, *DOCUMENTS)
def test_alone_over_loopback(stream, wanted, status, marks):
    """It ends this connection at most: the one worker serves the next."""
    with Folder() as folder:
        with folder.serve(workers=1) as server:
            with server.connect() as connection:
                same(at_one_moment(received(connection, stream)), "".join(wanted), "output")
            same(server.ask(hits())[0].matched, marks, "hits on the next connection")
        same(next_hits(folder), marks, "hits")


@rows(*MESSAGES, *DOCUMENTS)
def test_between_two_changes(stream, wanted, status, marks):
    """The change before it is kept. The one after it is carried out, or not looked at, as the session goes on or ends."""
    goes_on = not wanted or "Connection: close" not in wanted[-1]
    with Folder() as folder:
        run = folder.talk(insert(mark("before")), stream, insert(mark("after")))
        same(run.status, status, "status")
        same(len(run.answers), 1 + len(wanted) + goes_on, "answers")
        same(next_hits(folder), 1 + marks + goes_on, "hits")


def test_a_second_answer_that_cannot_be_written():
    """The output has room for the first answer and some bytes. Both changes are kept."""
    first, second = answer(transacted(["Mark.1"])), answer(transacted(["Mark.2"]))
    room = len(first) + 100

    def before():
        resource.setrlimit(resource.RLIMIT_FSIZE, (room, room))
        signal.signal(signal.SIGXFSZ, signal.SIG_IGN)

    with Folder() as folder:
        folder.write("messages", insert(mark("A")) + insert(mark("B")))
        with open(folder.file("messages"), "rb") as messages, open(folder.file("output"), "wb") as output:
            ended = subprocess.run([PROGRAM, "talk", folder.path], stdin=messages, stdout=output, timeout=LONGEST, check=False, preexec_fn=before, restore_signals=False)
        same(ended.returncode, WRITE_FAULT, "status")
        same(folder.read("output").decode(), (first + second)[:room], "output")
        same(next_hits(folder), 2, "hits")
