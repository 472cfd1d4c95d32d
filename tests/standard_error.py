"""What standard error tells the operator, beside the lines of the standard output."""

import re
import select
import socket
import subprocess

from harness import BAD_WORDS, CANNOT_LISTEN, PROGRAM, Folder, program, same


def test_refused_words_are_followed_by_the_right_ones():
    run = program("walk", "demo")
    same((run.output, run.status), (b"wfsd: bad words\n", BAD_WORDS))
    lines = run.errors.decode().splitlines()
    same(lines[0], "usage: wfsd COMMAND FOLDER")
    for command in ("serve", "talk", "check", "compact", "drill"):
        same(any(line.startswith("  %s " % command) for line in lines), True, command)
    same(re.fullmatch(r"Proved with rattle-kit-\w+ logic [0-9a-f]+\.", lines[-1]) is not None, True, lines[-1])


def test_a_server_tells_where_it_listens():
    with Folder() as folder, folder.serve() as server:
        same(select.select([server.process.stderr], [], [], 10)[0] != [], True, "a line came")
        line = server.process.stderr.readline().decode()
        same(re.fullmatch(r"wfsd: listening at 127\.0\.0\.1:%d, \d+\.\d{3} s after the start\n" % server.port, line) is not None, True, line)


def test_a_server_tells_why_it_does_not_listen():
    with Folder() as folder, socket.create_server(("127.0.0.1", 0)) as other:
        address = "127.0.0.1:%d" % other.getsockname()[1]
        run = subprocess.run([PROGRAM, "serve", "--listen", address, "--workers", "1", folder.path], capture_output=True, timeout=60, check=False)
        same((run.stdout, run.returncode), (b"wfsd: cannot listen\n", CANNOT_LISTEN))
        same(run.stderr.decode().startswith("wfsd: cannot listen at %s: " % address), True, run.stderr.decode())


def test_what_is_asked_for_rightly_says_nothing_there():
    with Folder() as folder:
        same(folder.run("check").errors, b"")
