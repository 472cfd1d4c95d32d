"""The pages for those who use the service: the session of docs/USING.md, request by request, and the first commands of README.md."""

import functools
import os
import re
import shutil
import subprocess

from bodies import REFUSALS
from harness import ROOT, Folder, post, rows, same, skip

# Only these begin a document that is sent.
SENT = re.compile(r"<wfs:(Transaction|GetFeature|GetFeatureWithLock|LockFeature|CreateStoredQuery) ")
# What else is shown by itself: the commands, how to send a request, and what each root declares.
ASIDE = ("wfsd ", "curl ", 'service="WFS" ')


def page(*names: str) -> str:
    with open(os.path.join(ROOT, *names), encoding="utf-8") as file:
        return file.read()


def one_line(block: str) -> str:
    """A text as it was before it was broken: between tags there is nothing, and within one a space."""
    return re.sub(r">\n\s*<", "><", block).replace("\n", " ")


class Shown:
    """A request that the page shows: its first words, its message, and the status and the text of its answer, or no text where none is shown."""

    def __init__(self, name: str, message: bytes):
        self.name, self.message, self.status, self.text = name, message, 200, None


def requests_in(block: str, declared: str) -> list:
    """The requests of a block: a document, or queries, one a line."""
    if SENT.match(block):
        return [Shown(" ".join(re.findall(r"<wfs:(\w+)", block)[:2]), post(block.replace("..", declared, 1)))]
    if block.startswith("GET "):
        return [Shown(line.partition("request=")[2], (line + " HTTP/1.1\r\nHost: h\r\n\r\n").encode()) for line in block.splitlines()]
    return []


def parted() -> tuple:
    """All requests of the page, in their order, and what is neither a request nor an answer. An answer is that of each request of the block
    before it."""
    found, others, latest, status = [], [], [], 200
    blocks = page("docs", "USING.md").split("\n\n")
    declared = one_line(next(re.sub("^    ", "", it, flags=re.M) for it in blocks if it.startswith('    service="WFS" ')))
    for block in blocks:
        if not block.startswith("    "):
            status = int((re.search(r"with\sthe\sstatus\s(\d+)", block) or [0, 200])[1])
            continue
        block = re.sub("^    ", "", block, flags=re.M)
        sent = requests_in(block, declared)
        if sent:
            found, latest = found + sent, sent
        elif block.startswith("<") and latest:
            for request in latest:
                request.status, request.text = status, one_line(block)
            latest = []
        else:
            others.append(block)
    return found, others


REQUESTS, OTHERS = parted()


@functools.lru_cache(maxsize=None)
def came() -> list:
    """The answers of one session with all requests of the page."""
    with Folder() as folder:
        return folder.ask(*(request.message for request in REQUESTS))


def is_shown(text: str, body: str) -> bool:
    """Whether a body is the text that is shown, with anything for `..` and for a moment, after the declaration that each document begins with."""
    pattern = re.sub(r'timeStamp="[^"]*"', 'timeStamp=".."', text)
    return re.fullmatch(r"<\?xml [^>]*\?>" + ".*".join(map(re.escape, pattern.split(".."))), body) is not None


@rows(*(("%d, %s" % (at + 1, request.name), at) for at, request in enumerate(REQUESTS)))
def test_an_example_is_answered_as_it_is_shown(at):
    request, answer = REQUESTS[at], came()[at]
    same(answer.status, request.status, "status")
    if request.text is not None and not is_shown(request.text, answer.body):
        raise AssertionError("shown %s\n    came  %s" % (request.text, answer.body))


def test_what_is_shown_is_a_request_or_an_answer():
    same([block for block in OTHERS if not block.startswith(ASIDE)], [])


def test_each_text_of_a_refusal_is_explained():
    table = re.search(r"^\| Text \|.*\n\|-.*\n((?:\|.*\n)+)", page("docs", "USING.md"), re.M)[1]
    texts = [text for line in table.splitlines() for text in line.split("|")[1].strip().split(", ")]
    same(sorted(texts), sorted(REFUSALS))


def test_the_first_commands_do_what_the_text_says():
    """Its commands, at the address of a server of our own."""
    if not shutil.which("curl"):
        skip("there is no curl here")
    commands = re.findall(r"^    \$ (curl .*)", page("README.md"), re.M)
    same(len(commands), 2)
    with Folder() as folder, folder.serve(workers=8) as server:
        answers = []
        for command in commands:
            command = command.replace("localhost:8080", "127.0.0.1:%d" % server.port) + " --silent --noproxy '*' --write-out '%{http_code}'"
            answers.append(subprocess.run(command, shell=True, cwd=ROOT, stdout=subprocess.PIPE, check=True, encoding="utf-8").stdout)
    same([it[-3:] for it in answers], ["200", "200"])
    same(re.findall(r"<wfs:totalInserted>(\d+)<", answers[0]), ["4"])
    same(re.findall(r'<m:\w+ gml:id="([^"]*)"', answers[1]), ["Mark.1"])
