"""What an operator meets (docs/OPERATIONS.md): kills, a second process, a disk that is full, clients that keep silent."""

import contextlib
import os
import random
import re
import signal
import subprocess
import threading
import time

from bodies import refused
from harness import MARKS, STORE_FAULT, TWO_MARKS, Folder, hits, insert, mark, same, skip
from worked import find

# How often the program is killed, by how many connections it is written to meanwhile, and for how many seconds at the longest.
KILLS, WRITERS, LONGEST_LIFE = 20, 4, 0.25


class Writer(threading.Thread):
    """A client that inserts one mark after the other until the connection ends: what was answered, and the label that was not."""

    def __init__(self, server, name: str):
        super().__init__()
        self.server, self.name_of = server, name
        self.answered, self.asked, self.failed = {}, None, None

    def run(self) -> None:
        try:
            with self.server.connect() as connection:
                for number in range(1_000_000):
                    self.asked = "%s-%d" % (self.name_of, number)
                    (rid,) = connection.ask(insert(mark(self.asked))).ids
                    self.answered[rid], self.asked = self.asked, None
        except (EOFError, OSError):
            pass
        except Exception as failure:
            self.failed = failure


def all_marks(server) -> dict:
    """The labels of all marks by their identifiers, in order."""
    body = server.ask(find("typeNames=Mark"))[0].body
    return dict(re.findall(r'gml:id="(Mark\.\d+)"><m:label>([^<]*)<', body))


def killed(folder, number: int) -> tuple:
    """What is there when the program starts, and the writers of a run that is killed."""
    with folder.serve(workers=WRITERS) as server:
        there = all_marks(server)
        writers = [Writer(server, "%d-%d" % (number, it)) for it in range(WRITERS)]
        for writer in writers:
            writer.start()
        time.sleep(random.uniform(0.02, LONGEST_LIFE))
        server.process.send_signal(signal.SIGKILL)
        for writer in writers:
            writer.join()
    return there, writers


def test_a_kill_loses_nothing_that_was_answered():
    # Each Insert that was answered is there, under its identifier. Of those that were not, each connection waited for one, which may be there.
    kept, unanswered, total = {}, set(), 0
    with Folder() as folder:
        for number in range(KILLS + 1):
            there, writers = killed(folder, number)
            more = {rid: label for rid, label in there.items() if rid not in kept}
            same({rid: there.get(rid) for rid in kept}, kept, "what was answered before kill %d" % number)
            same(set(more.values()) <= unanswered and len(set(more.values())) == len(more), True, "no more than was asked for")
            same(list(there), ["Mark.%d" % (it + 1) for it in range(len(there))], "identifiers")
            kept = dict(there)
            for writer in writers:
                if writer.failed:
                    raise writer.failed
                same(set(kept) & set(writer.answered), set(), "an identifier is given once")
                kept.update(writer.answered)
                total += len(writer.answered)
            unanswered = {writer.asked for writer in writers if writer.asked}
        same(total > KILLS, True, "enough was written")
        same(folder.check().split()[-1], str(KILLS + 1))


def test_a_second_process_is_kept_out():
    with Folder() as folder:
        with folder.serve() as server:
            server.ask(TWO_MARKS)
            for words in (["talk"], ["check"], ["compact"], ["drill", "1"], ["serve", "--listen", "127.0.0.1:0", "--workers", "1"]):
                run = folder.run(*words)
                same((run.text, run.status), ("wfsd: store fault\n", STORE_FAULT), words[0])
            same(server.ask(hits())[0].matched, 2)
        same(folder.check(), "types 3 features 2 queries 0 openings 1\n")


# ---- a disk that is full


def fill(server) -> int:
    """Inserts fields, with names that are long, until one is refused. How many were inserted."""
    for number in range(1000):
        (answered,) = server.ask(insert("<m:Field><m:name>%s</m:name></m:Field>" % ("x" * 4000)))
        if answered.status != 200:
            same(answered.refusal, refused("store fault", "store"))
            return number
        same(answered.ids, ["Field.%d" % (number + 1)])
    raise AssertionError("the disk was never full")


@contextlib.contextmanager
def small_disk():
    """A folder on a file system of 64 KiB of its own."""
    with Folder() as folder:
        mounted = subprocess.run(["mount", "-t", "tmpfs", "-o", "size=64k", "none", folder.path], stderr=subprocess.PIPE, check=False) if os.geteuid() == 0 else None
        if mounted is None or mounted.returncode != 0:
            skip("a small file system cannot be mounted here")
        try:
            folder.write("schema.toml", MARKS)
            yield folder
        finally:
            subprocess.run(["umount", "-l", folder.path], check=True)


def test_a_full_disk_refuses_changes_and_answers_queries_until_there_is_room():
    with small_disk() as folder:
        folder.write("other", b"x" * 32_000)
        with folder.serve() as server:
            count = fill(server)
            same(count > 0, True, "some were inserted")
            same(server.ask(hits("typeNames=Field"))[0].matched, count)
            os.remove(folder.file("other"))
            same(server.ask(insert("<m:Field/>"))[0].ids, ["Field.%d" % (count + 1)])
            server.process.send_signal(signal.SIGKILL)
            server.process.wait()
        same(folder.ask(hits("typeNames=Field"))[0].matched, count + 1)


def test_a_disk_that_is_full_at_first():
    with small_disk() as folder:
        folder.write("other", b"x" * 60_000)
        run = folder.talk(hits())
        same((run.text, run.status), ("wfsd: store fault\n", STORE_FAULT))
        os.remove(folder.file("other"))
        same(folder.ask(hits())[0].matched, 0)


# ---- clients that keep silent


def test_silent_clients_hold_up_nobody_else():
    message = insert(mark("A"))
    parts = [b"", message[:20], message[:-1]]
    with Folder() as folder, folder.serve(workers=4) as server:
        with contextlib.ExitStack() as open_ones:
            silent = [open_ones.enter_context(server.connect()) for _ in parts]
            for connection, part in zip(silent, parts):
                connection.send(part)
            for number in range(20):
                inserted, counted = server.ask(message, hits())
                same((inserted.ids, counted.matched), (["Mark.%d" % (number + 1)], number + 1))
            # Each is answered once it has said the rest.
            for number, (connection, part) in enumerate(zip(silent, parts)):
                connection.send(message[len(part) :])
                same(connection.receive().ids, ["Mark.%d" % (21 + number)])


def test_a_client_that_goes_away_within_a_message_leaves_nothing():
    with Folder() as folder, folder.serve(workers=1) as server:
        for part in (insert(mark("A"))[:-1], b"GET /wfs?service=WFS HTTP/1.1\r\n"):
            with server.connect() as connection:
                connection.send(part)
        same(server.ask(hits())[0].matched, 0)
