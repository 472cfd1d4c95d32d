"""The streams of `messages` on connections over loopback: in whatever pieces they come, they are answered alike, and the connection goes on or is
closed."""

import contextlib
import select
import socket

from harness import DONE, LONGEST, Connection, Folder, TWO_MARKS, rows, same
from messages import NEXT, SIZES, STREAMS, asked, chunked, stated, waiting, word_of

PIECES = (("of 1 byte", 1), ("of 997 bytes", 997), ("that are whole", 1 << 30))


def send_in_pieces(connection: Connection, stream: bytes, size: int, is_end: bool) -> None:
    """Sends a stream in pieces, up to where the other side closes the connection; and that no more comes, where this is the end."""
    with contextlib.suppress(OSError):
        for at in range(0, len(stream), size):
            connection.send(stream[at : at + size])
        if is_end:
            connection.socket.shutdown(socket.SHUT_WR)


def is_ended(connection: Connection) -> bool:
    """Whether the other side ends the connection, with nothing more before. A side that closes with bytes unread resets it."""
    try:
        return connection.is_closed()
    except ConnectionResetError:
        return connection.rest == b""


def is_open(connection: Connection) -> bool:
    """Whether the other side has neither sent more nor closed by now."""
    return connection.rest == b"" and not select.select([connection.socket], [], [], 0)[0]


def is_answered(server, stream: bytes, size: int, seen: str, what: str) -> None:
    """That a connection with this stream is answered as it is over the standard input, and closed by the side that should. A bad head that is not
    whole may be answered only once no more comes."""
    wanted = [word for word in seen.split() if word != "cut"]
    with server.connect() as connection:
        connection.socket.settimeout(20)
        send_in_pieces(connection, stream, size, seen == "head!" and b"\n\r\n" not in stream)
        same([word_of(connection.receive()) for _ in wanted], wanted, what)
        if not seen.endswith("!"):
            same(is_open(connection), True, "open, " + what)
            connection.socket.shutdown(socket.SHUT_WR)
        same(is_ended(connection), True, "ended, " + what)


@rows(*PIECES)
def test_streams_are_answered_alike_in_pieces(size):
    with Folder() as folder, folder.serve(workers=1) as server:
        for table in STREAMS.values():
            for stream, seen in table:
                is_answered(server, stream.encode(), size, seen, repr(stream[:200]))


@rows(*PIECES)
def test_limits_are_met_alike_in_pieces(size):
    with Folder() as folder, folder.serve(workers=1) as server:
        for name, table in SIZES.items():
            for stream, seen in table:
                if size > 1 or len(stream) < 100_000:
                    is_answered(server, stream.encode(), size, seen, "%s: %d bytes, %s" % (name, len(stream), seen))


# A message, how many bytes its head has, and what is seen once the head is whole.
WHOLES = (
    ("a query", asked("GET /", "Host: h\r\n"), 27, "path"),
    ("a stated length", waiting("100-continue", "hello", 5), 61, "continue cut"),
    ("chunks", chunked("5;a\r\nhello\r\n12\r\n0123456789abcdefgh\r\n0\r\nA: b\r\n\r\n", "Expect: 100-Continue\r\n"), 70, "continue cut"),
)


@rows(*WHOLES)
def test_a_message_that_ends_at_any_place_is_not_answered(message, head, seen):
    same(message.index("\r\n\r\n") + 4, head)
    with Folder() as folder, folder.serve(workers=1) as server:
        for end in range(1, len(message)):
            is_answered(server, message[:end].encode(), len(message), seen if end >= head else "cut", "%d bytes" % end)


def test_a_sender_that_waits_is_asked_before_its_body():
    with Folder() as folder, folder.serve() as server, server.connect() as connection:
        connection.send(waiting("100-continue", "").encode())
        same(word_of(connection.receive()), "continue")
        same(is_open(connection), True)
        same(word_of(connection.ask(b"x")), "path")


def test_a_refused_connection_leaves_its_worker_to_others():
    with Folder() as folder, folder.serve(workers=1) as server:
        with server.connect() as connection:
            same(word_of(connection.ask(stated("x").encode())), "head!")
        same(server.ask(TWO_MARKS)[0].status, 200)


def test_a_server_ends_with_the_last_of_its_connections():
    with Folder() as folder, folder.serve("--connections", "2", workers=1) as server:
        server.ask(NEXT.encode())
        same(server.process.poll(), None, "after the first")
        server.ask(NEXT.encode())
        same(server.process.wait(LONGEST), DONE)
