"""The words of the command line, as docs/FORMATS.md says them: which are read, as what, and which are refused; and the lines and statuses of what the
words, the schema and the files are refused by, in this order."""

import contextlib
import os
import resource
import signal
import socket
import subprocess

from harness import BAD_WORDS, CANNOT_LISTEN, DONE, JOURNAL_REFUSED, LONGEST, MARKS, PROGRAM, READ_FAULT, SCHEMA_REFUSED, WRITE_FAULT, Folder, hits, insert, mark, program, rows, same

SERVE = ["serve", "--listen", "127.0.0.1:0"]
# Seventeen bytes that are no journal's from byte 1 on, and what each command says of them. None comes to listen or to draw.
FOREIGN = b"\x01XFSJNL\x01" + (1).to_bytes(8, "big") + b"\0"
NO_JOURNAL = "wfsd: not a journal: a 1\n", JOURNAL_REFUSED

READ = [
    ["serve", "--workers=2", "DIR", "--listen", "127.0.0.1:0"],
    ["talk", "DIR"],
    ["check", "DIR"],
    ["compact", "DIR"],
    ["drill", "7", "DIR"],
    ["drill", "+007", "DIR"],
    ["drill", "1", "DIR"],
    ["drill", "100000", "DIR"],
    ["serve", "--listen", "a", "--workers", "2", "DIR"],
    ["serve", "DIR", "--listen=a", "--workers=2"],
    ["serve", "--connections", "5", "DIR", "--workers", "2", "--listen", "a"],
    ["serve", "--listen", "a", "--workers", "+16", "--connections=+1000000", "DIR"],
    ["serve", "--listen=a", "--workers=2", "--connections=1", "DIR"],
    ["serve", "--listen=-a=b", "--workers", "01", "DIR"],
    ["serve", "--listen", "é:1", "--workers", "2", "DIR"],
]

REFUSED = [
    [],
    ["talk"],
    ["talk", "a", "b"],
    ["talk", "--", "a"],
    ["talk", ""],
    ["talk", "-"],
    ["talk", "-a"],
    ["talk", "--listen=a", "d"],
    ["", "d"],
    ["Talk", "d"],
    ["check"],
    ["compact", "a", "b"],
    ["help"],
    ["--help"],
    ["talk", "--help"],
    ["serve"],
    ["serve", "d"],
    ["serve", "--listen", "x", "--workers", "17", "d"],
    ["serve", "--listen", "x", "--workers", "0", "d"],
    ["serve", "--workers", "2", "d"],
    ["serve", "--listen", "a", "d"],
    ["serve", "--listen", "a", "--workers", "2"],
    ["serve", "--listen", "a", "--workers", "2", "d", "e"],
    ["serve", "--listen", "a", "--listen", "a", "--workers", "2", "d"],
    ["serve", "--listen", "a", "--workers=2", "--workers=2", "d"],
    ["serve", "--listen", "a", "--workers", "2", "d", "--connections"],
    ["serve", "--listen", "a", "--workers", "2", "--connections", "0", "d"],
    ["serve", "--listen", "a", "--workers", "2", "--connections", "1000001", "d"],
    ["serve", "--listen", "a", "--workers", "2", "--connections=", "d"],
    ["serve", "--listen", "--workers", "2", "d"],
    ["serve", "--listen", "-a", "--workers", "2", "d"],
    ["serve", "--listen=", "--workers", "2", "d"],
    ["serve", "--listen", "", "--workers", "2", "d"],
    ["serve", "--listen", "a", "--workers=", "d"],
    ["serve", "--listen", "a", "--workers", "+", "d"],
    ["serve", "--listen", "a", "--workers", "2x", "d"],
    ["serve", "--listen", "a", "--workers=-2", "d"],
    ["serve", "--listen", "a", "--workers", "4294967298", "d"],
    ["serve", "--listen", "a", "--worker", "2", "d"],
    ["serve", "--LISTEN", "a", "--workers", "2", "d"],
    ["serve", "-l", "a", "--workers", "2", "d"],
    ["serve", "--listen", "a", "--workers", "2", "--", "d"],
    ["serve", "--listen", "a", "--workers", "2", "-", "d"],
    ["serve", "--listen", "a", "--workers", "2", "--help", "d"],
    ["serve", "--listen", "a", "--workers", "2", "--x=1", "d"],
    ["serve", "--listen", "a", "--workers", "2", ""],
    ["drill", "0", "d"],
    ["drill", "100001", "d"],
    ["drill", "-1", "d"],
    ["drill", "d"],
    ["drill", "d", "7"],
    ["drill", "7"],
    ["drill", "7", "d", "e"],
    ["drill", "7", "-d"],
    ["drill", "99999999999999999999999", "d"],
]


@contextlib.contextmanager
def foreign():
    """A folder whose first file is no journal, which no run changes."""
    with Folder() as folder:
        folder.write("journal.a", FOREIGN)
        yield folder
        same(folder.read("journal.a"), FOREIGN, "the file")


def test_words_are_read_as_the_usage_says():
    # What was read shows where the folder that the words name is looked at.
    with foreign() as folder:
        for words in READ:
            run = program(*(folder.path if it == "DIR" else it for it in words))
            same((run.text, run.status), NO_JOURNAL, " ".join(words))


def test_other_words_are_refused():
    with foreign() as folder:
        for words in REFUSED:
            run = program(*(folder.path if it == "d" else it for it in words))
            same((run.text, run.status), ("wfsd: bad words\n", BAD_WORDS), " ".join(words))


@rows(("a dot", "."), ("a space within", "a b"), ("a letter that is not ASCII", "ü"), ("a command's name", "talk"))
def test_a_folder_may_have_any_name(name):
    with Folder() as folder:
        os.makedirs(folder.file(name), exist_ok=True)
        folder.write(os.path.join(name, "schema.toml"), MARKS)
        run = program("check", name, cwd=folder.path)
        same((run.text, run.status), ("types 3 features 0 queries 0 openings 0\n", DONE))


# ---- what the options of `serve` say


def test_as_many_connections_are_served_as_there_are_workers():
    with Folder() as folder, folder.serve(workers=2) as server:
        with server.connect() as one, server.connect() as other, server.connect() as third:
            same([one.ask(hits()).matched, other.ask(hits()).matched], [0, 0])
            third.send(hits())
            third.socket.settimeout(0.3)
            try:
                raise AssertionError("a third was served: %r" % third.receive())
            except socket.timeout:
                pass
            one.socket.close()
            third.socket.settimeout(LONGEST)
            same(third.receive().matched, 0)


@rows(("one", 1, 1), ("two of two workers", 2, 2))
def test_a_run_ends_after_its_connections(connections, workers):
    with Folder() as folder:
        with folder.serve("--connections=%d" % connections, workers=workers) as server:
            for _ in range(connections * workers):
                same(len(server.ask(insert(mark("A")))[0].ids), 1)
            same(server.process.wait(LONGEST), DONE)
        same(folder.check(), "types 3 features %d queries 0 openings 1\n" % (connections * workers))


@rows(("no address", "a"), ("a port that another process has", ""))
def test_nothing_can_listen_there(address):
    with socket.create_server(("127.0.0.1", 0)) as other, Folder() as folder:
        run = folder.run("serve", "--listen", address or "127.0.0.1:%d" % other.getsockname()[1], "--workers", "1")
        same((run.text, run.status), ("wfsd: cannot listen\n", CANNOT_LISTEN))
        same(folder.check(), "types 3 features 0 queries 0 openings 1\n")


# ---- the order of what is refused, and lines that cannot be written

COMMANDS = [["talk"], ["check"], ["compact"], ["drill", "3"], [*SERVE, "--workers", "1"]]
WITHOUT_SRS = MARKS.replace('srs = ["urn:ogc:def:crs:EPSG::25832", "EPSG:25832"]\n', "")


@rows(("no TOML", "="), ("a key that is missing", WITHOUT_SRS))
def test_a_schema_is_refused_before_any_journal(schema):
    line = "wfsd: schema refused: %s\n" % ("NotToml" if schema == "=" else "Key srs")
    with foreign() as folder:
        folder.write("schema.toml", schema)
        for words in COMMANDS:
            run = folder.run(*words)
            same((run.text, run.status), (line, SCHEMA_REFUSED), " ".join(words))


def test_a_schema_that_cannot_be_read():
    with Folder() as folder:
        os.remove(folder.file("schema.toml"))
        for words in COMMANDS:
            run = folder.run(*words)
            same((run.text, run.status), ("wfsd: cannot read\n", READ_FAULT), " ".join(words))


@rows(("1,048,576 bytes", 1_048_576, "", DONE), ("one byte more", 1_048_577, "wfsd: schema refused: TooMany\n", SCHEMA_REFUSED))
def test_a_schema_has_at_most(length, line, status):
    with Folder(MARKS + "\n" * (length - len(MARKS.encode()))) as folder:
        run = folder.run("talk")
        same((run.text, run.status), (line, status))


def into(words: list, output, limit: int = None) -> int:
    """The status of a run whose output goes there, and whose files have at most so many bytes."""

    def before():
        if limit is not None:
            resource.setrlimit(resource.RLIMIT_FSIZE, (limit, limit))
            signal.signal(signal.SIGXFSZ, signal.SIG_IGN)

    return subprocess.run([PROGRAM, *words], stdin=subprocess.DEVNULL, stdout=output, timeout=LONGEST, check=False, preexec_fn=before, restore_signals=False).returncode


@rows(("of check", ["check"], WRITE_FAULT), ("of compact", ["compact"], WRITE_FAULT), ("of drill", ["drill", "1"], WRITE_FAULT), ("of serve", [*SERVE, "--workers", "1"], WRITE_FAULT), ("of words that are refused", ["talk", "-"], BAD_WORDS))
def test_a_line_that_cannot_be_written(words, status):
    with Folder() as folder, open("/dev/full", "wb") as full:
        same(into([*words, folder.path], full), status)


@rows(("of check", ["check"], WRITE_FAULT, "typ"), ("of words that are refused", ["talk", "-"], BAD_WORDS, "wfs"))
def test_a_line_of_which_three_bytes_can_be_written(words, status, front):
    with Folder() as folder:
        with open(folder.file("out"), "wb") as out:
            same(into([*words, folder.path], out, 3), status)
        same(folder.read("out").decode(), front)
