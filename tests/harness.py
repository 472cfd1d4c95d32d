"""What the tests share: folders with a schema, the program on them, messages, answers, and tables of rows.

A test is a function of a module of this folder whose name begins with `test_`, and the name says what it shows. `rows` makes one test of
each row of a table. A test fails where it raises; `skip` passes over it, with the reason."""

import contextlib
import os
import re
import shutil
import signal
import socket
import subprocess
import tempfile
import time

ROOT = os.path.dirname(os.path.dirname(os.path.abspath(__file__)))
# The program: `./test` sets it, once, to the one that `./wfsd` would run.
PROGRAM = os.environ.get("WFSD_PROGRAM", os.path.join(ROOT, "wfsd"))
# No run of the program takes longer, in seconds.
LONGEST = 60

with open(os.path.join(ROOT, "demo", "schema.toml"), encoding="utf-8") as _file:
    MARKS = _file.read()
"""The schema of most tests: marks, fields and ways."""

# The statuses that the program ends with (docs/FORMATS.md).
DONE, BAD_WORDS, SCHEMA_REFUSED, READ_FAULT, STORE_FAULT, JOURNAL_REFUSED = 0, 2, 3, 4, 5, 6
WRITE_FAULT, OUT_OF_MEMORY, CANNOT_LISTEN, CUT, TOO_LONG, UNFRAMED = 7, 8, 9, 10, 11, 12


class Skipped(Exception):
    """This test cannot be run here."""


def skip(reason: str) -> None:
    raise Skipped(reason)


def rows(*table):
    """Makes one test of each row: its first value is the row's name, and the others are what the function is called with."""

    def made(function):
        function.rows = table
        return function

    return made


def same(came, wanted, what: str = "") -> None:
    """That two values are equal."""
    if came != wanted:
        raise AssertionError("%swanted %r\n    came   %r" % (what and what + ": ", wanted, came))


# ---- messages


def post(body, target: str = "/wfs", fields: str = "") -> bytes:
    """A message that posts a body. `fields` are further lines of its head, each with its line end."""
    body = body.encode() if isinstance(body, str) else body
    return ("POST %s HTTP/1.1\r\nHost: h\r\n%sContent-Length: %d\r\n\r\n" % (target, fields, len(body))).encode() + body


def get(query: str, fields: str = "") -> bytes:
    """A message that asks by a query."""
    return ("GET /wfs?%s HTTP/1.1\r\nHost: h\r\n%s\r\n" % (query, fields)).encode()


SPACES = 'service="WFS" version="2.0.2" xmlns:wfs="http://www.opengis.net/wfs/2.0" xmlns:fes="http://www.opengis.net/fes/2.0" xmlns:gml="http://www.opengis.net/gml/3.2" xmlns:m="http://example.org/marks"'


def request(operation: str, content: str = "", attributes: str = "") -> bytes:
    """A message with a document: an operation of WFS with all name spaces, its further attributes and its content."""
    return post("<wfs:%s %s %s>%s</wfs:%s>" % (operation, SPACES, attributes, content, operation))


def insert(*features: str) -> bytes:
    """A Transaction that inserts these features."""
    return request("Transaction", "<wfs:Insert>%s</wfs:Insert>" % "".join(features))


def mark(label: str, more: str = "") -> str:
    """A feature of the type Mark, with further properties."""
    return "<m:Mark><m:label>%s</m:label>%s</m:Mark>" % (label, more)


TWO_MARKS = insert(mark("A"), mark("B"))


def hits(query: str = "typeNames=Mark") -> bytes:
    """A GetFeature that counts."""
    return get("service=WFS&request=GetFeature&resultType=hits&" + query)


# ---- answers


class Answer:
    """One answer: its status, the fields of its head, and its body."""

    def __init__(self, head: bytes, body: bytes):
        lines = head.decode("latin-1").split("\r\n")
        self.line, self.body = lines[0], body.decode()
        self.status = int(self.line.split()[1])
        self.fields = dict(line.split(": ", 1) for line in lines[1:])

    @property
    def matched(self) -> int:
        """`numberMatched` of a collection."""
        return int(re.search(r'numberMatched="(\d+)"', self.body)[1])

    @property
    def refusal(self) -> tuple:
        """The status, the code, the locator and the text of a refusal."""
        code = re.search(r'exceptionCode="([^"]*)"', self.body)
        locator = re.search(r'locator="([^"]*)"', self.body)
        text = re.search(r"<ows:ExceptionText>(.*?)</ows:ExceptionText>", self.body, re.S)
        return self.status, code and code[1], locator and locator[1], text and text[1]

    @property
    def ids(self) -> list:
        """The resource identifiers, in the order in which they stand."""
        return re.findall(r'(?:gml:id|rid)="([A-Za-z_]\w*\.\d+)"', self.body)

    def __repr__(self) -> str:
        return "<%s %s %r>" % (self.line, self.fields, self.body[:2000])


def answers(output: bytes) -> list:
    """The answers of an output. Each has a Content-Length, and nothing stands between them or after the last one; a `100 Continue`
    has a head alone."""
    found = []
    while output:
        head, end, output = output.partition(b"\r\n\r\n")
        if not end:
            raise AssertionError("no whole head: %r" % head)
        length = re.search(rb"\r\nContent-Length: (\d+)", head)
        length = int(length[1]) if length else 0
        if len(output) < length:
            raise AssertionError("a body of %d bytes, not of %d: %r" % (len(output), length, head))
        found.append(Answer(head, output[:length]))
        output = output[length:]
    return found


# ---- the program


class Run:
    """What a run of the program wrote, and the status that it ended with."""

    def __init__(self, output: bytes, errors: bytes, status: int):
        self.output, self.errors, self.status = output, errors, status

    @property
    def answers(self) -> list:
        return answers(self.output)

    @property
    def text(self) -> str:
        return self.output.decode()


def program(*words: str, given: bytes = b"", cwd: str = None, before=None) -> Run:
    """Runs the program with these words and this input."""
    ended = subprocess.run([PROGRAM, *words], input=given, stdout=subprocess.PIPE, stderr=subprocess.PIPE, timeout=LONGEST, check=False, cwd=cwd, preexec_fn=before)
    return Run(ended.stdout, ended.stderr, ended.returncode)


class Folder:
    """A new folder with a schema, removed at the end of a `with`."""

    def __init__(self, schema: str = MARKS):
        self.path = tempfile.mkdtemp(prefix="wfsd-test-")
        self.write("schema.toml", schema)

    def __enter__(self):
        return self

    def __exit__(self, *_):
        shutil.rmtree(self.path, ignore_errors=True)

    def file(self, name: str) -> str:
        return os.path.join(self.path, name)

    def write(self, name: str, content) -> None:
        with open(self.file(name), "wb") as file:
            file.write(content.encode() if isinstance(content, str) else content)

    def read(self, name: str) -> bytes:
        with open(self.file(name), "rb") as file:
            return file.read()

    def run(self, command: str, *words: str, given: bytes = b"") -> Run:
        """A command on this folder; further words stand before it."""
        return program(command, *words, self.path, given=given)

    def talk(self, *messages: bytes) -> Run:
        """One session with these messages."""
        return self.run("talk", given=b"".join(messages))

    def ask(self, *messages: bytes) -> list:
        """The answers of one session that ends well, one for each message."""
        run = self.talk(*messages)
        same(run.status, DONE, "status")
        found = run.answers
        same(len(found), len(messages), "answers")
        return found

    def check(self) -> str:
        """The line of `check`, which ends well."""
        run = self.run("check")
        same(run.status, DONE, "status of check")
        return run.text

    @contextlib.contextmanager
    def serve(self, *words: str, workers: int = 4):
        """The program serving this folder, at a port that the system chooses; killed at the end of a `with`."""
        process = subprocess.Popen([PROGRAM, "serve", "--listen", "127.0.0.1:0", "--workers", str(workers), *words, self.path], stdout=subprocess.PIPE, stderr=subprocess.PIPE)
        try:
            line = process.stdout.readline()
            same(line, b"serving\n", "first line")
            yield Server(process)
        finally:
            with contextlib.suppress(ProcessLookupError):
                process.send_signal(signal.SIGKILL)
            process.wait()
            process.stdout.close()
            process.stderr.close()


def port_of(process: int) -> int:
    """The port at which a process listens."""
    own = set()
    for name in os.listdir("/proc/%d/fd" % process):
        with contextlib.suppress(OSError):
            own.add(os.readlink("/proc/%d/fd/%s" % (process, name)))
    with open("/proc/%d/net/tcp" % process, encoding="ascii") as table:
        for line in table.readlines()[1:]:
            words = line.split()
            if words[3] == "0A" and "socket:[%s]" % words[9] in own:
                return int(words[1].split(":")[1], 16)
    raise AssertionError("the process does not listen")


class Server:
    """The program as it serves."""

    def __init__(self, process):
        self.process, self.port = process, port_of(process.pid)

    def connect(self):
        return Connection(self.port)

    def ask(self, *messages: bytes) -> list:
        """The answers of a connection of its own."""
        with self.connect() as connection:
            return [connection.ask(message) for message in messages]


class Connection:
    """A connection over loopback."""

    def __init__(self, port: int):
        self.socket = socket.create_connection(("127.0.0.1", port), timeout=LONGEST)
        self.socket.setsockopt(socket.IPPROTO_TCP, socket.TCP_NODELAY, 1)
        self.rest = b""

    def __enter__(self):
        return self

    def __exit__(self, *_):
        self.socket.close()

    def send(self, data: bytes) -> None:
        self.socket.sendall(data)

    def receive(self) -> Answer:
        """The next answer; raises EOFError where the connection ends before it."""
        while b"\r\n\r\n" not in self.rest:
            self._more()
        head, _, rest = self.rest.partition(b"\r\n\r\n")
        length = re.search(rb"\r\nContent-Length: (\d+)", head)
        length = int(length[1]) if length else 0
        self.rest = rest
        while len(self.rest) < length:
            self._more()
        body, self.rest = self.rest[:length], self.rest[length:]
        return Answer(head, body)

    def _more(self) -> None:
        piece = self.socket.recv(65536)
        if not piece:
            raise EOFError("the connection ended")
        self.rest += piece

    def ask(self, message: bytes) -> Answer:
        self.send(message)
        return self.receive()

    def is_closed(self) -> bool:
        """Whether the other side ends the connection, with nothing more before."""
        return self.rest == b"" and self.socket.recv(1) == b""


def wait_until(done, seconds: float = 10) -> bool:
    """Whether something becomes true within some seconds."""
    end = time.monotonic() + seconds
    while time.monotonic() < end:
        if done():
            return True
        time.sleep(0.01)
    return False
