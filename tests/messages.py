"""What a stream of bytes is as messages (RFC 9112, and the limits of docs/FORMATS.md): the answers over the standard input, and how the session ends.

What is seen of a stream is written in words: `continue` for the line `100 Continue`, for each answer the locator of its refusal, with `!` where it has
`Connection: close`, and `cut` where the session ends with the status for an input that ends within a message. Messages ask for an unknown path where
nothing else is said, so that an answered message is `path`."""

import calendar
import re
import time

from bodies import refused
from harness import CUT, DONE, UNFRAMED, Answer, Folder, Run, get, hits, insert, mark, rows, same

# The refusals that end a session, and those that do not, by their locators.
ENDING = {"head": "bad message head", "size": "message too large", "Content-Length": "length required", "coding": "coded body"}
OTHERS = {"path": "unknown path", "method": "unknown method"}


def word_of(answer: Answer) -> str:
    """An answer in a word."""
    if answer.line == "HTTP/1.1 100 Continue":
        same(answer.fields, {}, "fields of the line")
        return "continue"
    closes = answer.fields.get("Connection")
    name = answer.refusal[2]
    same(answer.refusal, refused({**ENDING, **OTHERS}[name], name))
    if closes not in (None, "close") or name in ENDING and not closes:
        raise AssertionError("Connection: %r in %r" % (closes, answer))
    return name + ("!" if closes else "")


def seen_of(run: Run) -> str:
    """What is seen of a session, in words."""
    words = [word_of(answer) for answer in run.answers]
    is_refused = bool(words) and words[-1].rstrip("!") in ENDING
    if run.status == CUT:
        words.append("cut")
    else:
        same(run.status, UNFRAMED if is_refused else DONE, "status after %r" % words)
    return " ".join(words)


def chunked(body: str, fields: str = "", method: str = "POST") -> str:
    """A message whose body comes in chunks as they stand here."""
    return "%s /a HTTP/1.1\r\n%sTransfer-Encoding: chunked\r\n\r\n%s" % (method, fields, body)


def stated(length: str, body: str = "", fields: str = "") -> str:
    """A message with this length in its head."""
    return "POST /a HTTP/1.1\r\n%sContent-Length: %s\r\n\r\n%s" % (fields, length, body)


def asked(line: str, fields: str = "") -> str:
    """A message without a body: its first line without the version."""
    return "%s HTTP/1.1\r\n%s\r\n" % (line, fields)


def waiting(expect: str, body: str = "x", length: int = 1) -> str:
    """A message whose sender waits to be asked for the body."""
    return stated(str(length), body, "Expect: %s\r\n" % expect)


NEXT = asked("GET /b")

STREAMS = {
    "nothing but line ends": [("", ""), ("\r\n", ""), ("\r", ""), ("\n\r\n\n", "")],
    "what begins no message": [(it, "head!") for it in ("\r\r", "\rG", "G(T / HTTP/1.1\r\n\r\n", "G(T /x", "GET  / HTTP/1.1\r\n\r\n", "GET /\r\n\r\n")],
    "versions": [
        ("GET / HTTP/1.0\r\n\r\n" + NEXT, "path!"), ("GET / HTTP/1.0\r\nConnection: keep-alive\r\n\r\n", "path!"),
        ("GET / HTTP/3\r\n\r\n", "head!"), ("GET / HTTP/1.2\r\n\r\n", "head!"), ("GET / HTTP/1.1\nHost: h\n\n", "path"),
    ],
    "messages one after the other": [
        (asked("GET /"), "path"), ("\r\n\r\n" + asked("GET /a", "Host: h\r\n"), "path"), (asked("GET /a") + NEXT + "\r\n", "path path"),
        (asked("GET /a") + "GET /b", "path cut"), (asked("GET /\u00e9"), "path"),
    ],
    "methods": [
        (asked("PUT /wfs"), "method"), (asked("PUT /a"), "path"), (asked("post /wfs"), "method"), (asked("POST /a"), "Content-Length!"),
    ],
    "fields that are none": [
        (asked("GET /", it), "head!") for it in ("Host : h\r\n", "A: b\r\n c\r\n", " A: b\r\n", ": b\r\n", "A\r\n")
    ] + [(asked("GET /", "A:\r\n"), "path")],
    "heads that are cut": [(it, "cut") for it in ("GET", "GET ", "GET /x", "GET /x HT", "GET /x HTTP/1.1\r\nA: b\r\n")],
    "a byte that no target can hold, which is judged once the target has ended": [
        ("GET /\x01", "cut"), ("GET /\x01 ", "head!"), ("GET /\x01\n", "head!"), ("GET /\x01\r", "head!"), ("\r\nGET /\x01", "cut"),
    ],
    "lengths": [
        (stated("5", "hello") + NEXT, "path path"), (stated("5", "hell"), "cut"), (stated("5"), "cut"), (stated("0") + NEXT, "path path"),
        (stated("05", "hello") + NEXT, "path path"), ("POST /a HTTP/1.1\r\ncontent-LENGTH:5 \r\n\r\nhelloGET / HTTP/1.0\n\n", "path path!"),
        ("GET /a HTTP/1.1\r\nContent-Length: 3\r\n\r\nabc" + NEXT, "path path"), (stated("4194304"), "cut"),
    ] + [(stated(it, "hello"), "head!") for it in ("+5", "5, 5", "", "a", "0x5")],
    "lengths above the limit": [(stated("4194305"), "size!"), (stated("99999999999999999999999"), "size!")],
    "several lengths": [
        (stated("5", "hello", "Content-Length: 5\r\n") + NEXT, "path path"), (stated("05", "hello", "Content-Length: 5\r\n"), "head!"),
        (stated("6", "hello!", "Content-Length: 5\r\n"), "head!"), (stated("6", "hello", "Content-Length: 5\r\nContent-Length: 5\r\n"), "head!"),
    ],
    "both a length and a coding": [
        (stated("5", "hello", "Transfer-Encoding: %s\r\n" % it), "head!") for it in ("chunked", "gzip")
    ],
    "codings": [
        (stated("4194305", "", "Content-Encoding: gzip\r\n"), "coding!"), (stated("x", "", "Content-Encoding: gzip\r\n"), "head!"),
        (stated("5", "hello", "Content-Encoding: Identity\r\n") + NEXT, "path path"), (asked("POST /a", "Content-Encoding: gzip\r\n"), "coding!"),
        (asked("GET /a", "Content-Encoding: gzip\r\n"), "coding!"), (chunked("0\r\n\r\n", "Content-Encoding: gzip\r\n"), "coding!"),
        (chunked("0\r\n\r\n", "Transfer-Encoding: chunked\r\n"), "coding!"),
    ] + [(asked("POST /a", "Transfer-Encoding: %s\r\n" % it), "coding!") for it in ("gzip", "gzip, chunked", "identity")],
    "chunks": [
        ("POST /a HTTP/1.1\r\nTransfer-Encoding: CHUNKED\r\n\r\n5\r\nhello\r\n0\r\n\r\n" + NEXT, "path path"),
        (chunked("3;a=b\r\nhel\r\n2  \r\nlo\r\n0;x\r\nA: b\r\nC\r\n\r\n") + NEXT, "path path"), (chunked("0\r\nA\n\n") + NEXT, "path path"),
        (chunked("0000000000000005\r\nhello\r\n0\r\n\r\n") + NEXT, "path path"), (chunked("1\r\nx\r\n0\r\n\r\n", method="GET") + NEXT, "path path"),
        ("POST /a HTTP/1.0\r\nTransfer-Encoding: chunked\r\n\r\n1\r\nx\r\n0\r\n\r\n" + NEXT, "path!"),
    ],
    "chunks that are none": [
        (chunked(it), "head!")
        for it in ("5\nhello\r\n0\r\n\r\n", "5\r\nhelloX", "5\r\nhello\rX", "5\r\nhello\n0\r\n\r\n", "\r\n", "g\r\n", "00000000000000005\r\n")
    ],
    "chunks that are cut": [
        (chunked(it), "cut")
        for it in ("", "5", "5\r\nhel", "5\r\nhello", "5\r\nhello\r", "0\r\n", "0\r\nA: b\r\n", "0\r\nA\n", "400001\r\n", "0\r\n\r\r\n")
    ],
    "senders that wait to be asked": [
        (waiting("100-CONTINUE", "hello", 5) + NEXT, "continue path path"), (waiting("100-continue", "", 0), "path"), (waiting("200-ok"), "path"),
        (stated("1", "x", "Expect: 100-continue\r\nExpect: 100-continue\r\n"), "continue path"),
        (stated("1", "x", "Expect: 200-ok\r\nExpect: 100-Continue\r\n"), "continue path"),
        (stated("1", "x", "Expect: 100-continue\r\nHost: h\r\nExpect: 200-ok\r\n"), "continue path"),
        (stated("1", "x", "Expect: 200-ok\r\nExpect: 100-continued\r\n"), "path"), (waiting("100-continue, 200-ok"), "path"),
        (waiting("100-continue, 100-continue"), "path"), ("POST /a HTTP/1.0\r\nExpect: 100-continue\r\nContent-Length: 1\r\n\r\nx", "path!"),
        ("GET /a HTTP/1.1\r\nExpect: 100-continue\r\nContent-Length: 1\r\n\r\nx", "continue path"), (waiting("100-continue", "hell", 5), "continue cut"),
        (chunked("x", "Expect: 100-continue\r\n"), "continue head!"), (waiting("100-continue", "", 4194305), "size!"),
    ],
    "connections that close": [
        (asked("GET /", "Connection: %s\r\n" % it) + NEXT, "path!")
        for it in ("close", "keep-alive ,\tClose", "close , te", "te,close", "keep-alive, Close", "a\r\nConnection: close")
    ],
    "connections that stay": [(asked("GET /", "Connection: %s\r\n" % it) + NEXT, "path path") for it in ("te, keep-alive", "closed", "a close")],
}

FIELD, CONTENT, HELLO = "A: b\r\n", "x" * 4194304, "5\r\nhello\r\n" * 838860

SIZES = {
    "a head of 16,384 bytes and no more": [
        (asked("GET /", "A: %s\r\n" % ("a" * 16361)), "path"), (asked("GET /", "A: %s\r\n" % ("a" * 16362)), "size!"),
        ("GET / HTTP/1.1\r\nA: %s\r\n" % ("a" * 16362), "cut"), (asked("GET /" + "a" * 16366), "path"), (asked("GET /" + "a" * 16367), "size!"),
        (asked("M" * 16369 + " /"), "path"), ("GET /" + "\x01" * 16379, "size!"), ("G(T /" + "a" * 16379, "head!"), ("\r\n" * 8192, "size!"),
    ],
    "64 fields and no more": [
        (asked("GET /", FIELD * 64), "path"), (asked("GET /", FIELD * 65), "head!"), ("GET / HTTP/1.1\r\n" + FIELD * 65, "cut"),
        (asked("POST /", FIELD * 64), "Content-Length!"), (asked("POST /", FIELD * 65), "head!"),
        (asked("POST /", "Content-Encoding: gzip\r\n" + FIELD * 64), "head!"),
    ],
    "a body of 4,194,304 bytes and no more": [(stated("4194304", CONTENT) + NEXT, "path path"), (stated("4194304", CONTENT[1:]), "cut")],
    "as many bytes in chunks and no more": [
        (chunked("400000\r\n%s\r\n0\r\n\r\n" % CONTENT) + NEXT, "path path"), (chunked("400000\r\n%s\r\n1\r\nx" % CONTENT), "size!"),
        (chunked("400001\r\n%s" % CONTENT), "cut"), (chunked("400001\r\n%sx" % CONTENT), "size!"),
    ],
    "chunks of 8,388,608 bytes as sent and no more": [
        (chunked(HELLO + "0;aa\r\n\r\n") + NEXT, "path path"), (chunked(HELLO + "0;aaa\r\n\r\n"), "size!"), (chunked(HELLO + "0;aaa\r\n\r"), "cut"),
    ],
}


@rows(*((name, table) for name, table in {**STREAMS, **SIZES}.items()))
def test_a_stream_is_answered(table):
    with Folder() as folder:
        for stream, seen in table:
            same(seen_of(folder.talk(stream.encode())), seen, repr(stream[:200]))


def test_the_bytes_of_chunks_are_the_body():
    body = insert(mark("hello")).partition(b"\r\n\r\n")[2]
    pieces = b"".join(b"%x\r\n%s\r\n" % (len(body[at : at + 7]), body[at : at + 7]) for at in range(0, len(body), 7))
    message = b"POST /wfs HTTP/1.1\r\nTransfer-Encoding: chunked\r\n\r\n" + pieces + b"0\r\n\r\n"
    with Folder() as folder:
        inserted, found = folder.ask(message, get("service=WFS&request=GetFeature&typeNames=Mark"))
        same(inserted.ids, ["Mark.1"])
        same(re.findall("<m:label>(.*?)</m:label>", found.body), ["hello"])


def test_the_moment_of_an_answer_is_that_of_the_clock():
    before = int(time.time())
    with Folder() as folder:
        moment = re.search(r'timeStamp="([^"]*)"', folder.ask(hits())[0].body)[1]
    told = calendar.timegm(time.strptime(moment, "%Y-%m-%dT%H:%M:%SZ"))
    same(before <= told <= time.time(), True, moment)
