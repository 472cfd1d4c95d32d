"""Sixteen connections that lock, change and read at once. What they were answered is judged against one history: an order of all that was done, in which
each answer is the one that a single client would have got, and which has what was over before something else began before it."""

import random
import threading
import time

from bodies import refused
from harness import Folder, insert, mark, rows, same
from worked import find, ids, lock, setting, transaction

CLIENTS, ROUNDS = 16, 25


class Done:
    """One request that was answered: what it was, when it began and ended, and what came."""

    def __init__(self, kind: str, begin: float, end: float, **told):
        self.kind, self.begin, self.end = kind, begin, end
        self.__dict__.update(told)


class Client(threading.Thread):
    """A client that locks the first mark, changes it, and reads it, as chance wants. Each change also inserts a mark, whose number tells at which place in
    the history it was made."""

    def __init__(self, server, name: int, start: threading.Barrier):
        super().__init__()
        self.server, self.chance, self.barrier = server, random.Random(name), start
        self.values = iter(range(name * 1000 + 1, name * 1000 + 1000))
        self.done, self.failed = [], None

    def run(self) -> None:
        try:
            with self.server.connect() as self.connection:
                self.barrier.wait()
                for _ in range(ROUNDS):
                    self.chance.choice([self.change_under_lock, self.change_under_lock, self.change, self.read])()
        except Exception as failure:
            self.failed = failure

    def ask(self, message: bytes) -> tuple:
        begin = time.monotonic()
        came = self.connection.ask(message)
        return came, begin, time.monotonic()

    def change_under_lock(self) -> None:
        came, begin, end = self.ask(lock("resourceId=Mark.1&expiry=300"))
        if came.status != 200:
            same(came.refusal, refused("not all are free", "Mark.1"))
            self.done.append(Done("refused", begin, end))
            return
        number = int(came.body.split('lockId="lock-1-')[1].split('"')[0])
        self.done.append(Done("granted", begin, end, lock=number))
        time.sleep(self.chance.random() / 100)
        self.change(number)

    def change(self, number: int = None) -> None:
        value = next(self.values)
        actions = setting("size", str(value), ids("Mark.1")), "<wfs:Insert>%s</wfs:Insert>" % mark("v%d" % value)
        came, begin, end = self.ask(transaction(*actions, lock_id="lock-1-%d" % number if number else ""))
        if number is None and came.status != 200:
            same(came.refusal, refused("feature is locked", "lockId"))
            self.done.append(Done("refused", begin, end))
            return
        same(came.status, 200, repr(came))
        place = int(came.ids[0].split(".")[1])
        self.done.append(Done("changed", begin, end, lock=number, value=value, place=place))

    def read(self) -> None:
        came, begin, end = self.ask(find("typeNames=Mark&count=1"))
        self.done.append(Done("read", begin, end, place=came.matched, value=int(came.body.split("<m:size>")[1].split("<")[0])))


def history(done: list) -> list:
    """The one order in which grants and changes can have come: the changes by their places, and each grant right before the change under it. No two
    have one place or one lock, and none is left out."""
    changes = sorted((it for it in done if it.kind == "changed"), key=lambda it: it.place)
    same([it.place for it in changes], list(range(2, len(changes) + 2)), "places")
    grants = {it.lock: it for it in done if it.kind == "granted"}
    same(len(grants), sum(it.kind == "granted" for it in done), "each lock is given once")
    same([it.lock for it in changes if it.lock], list(range(1, len(grants) + 1)), "locks, in the order of the changes under them")
    return [one for it in changes for one in ([grants[it.lock], it] if it.lock else [it])]


def done_by(clients: list) -> list:
    return [it for client in clients for it in client.done]


def judge(clients: list) -> list:
    """That what the clients were answered is what one history answers. Returns its grants and changes."""
    order = history(done_by(clients))
    latest = 0
    for it in order:
        latest = max(latest, it.begin)
        same(it.end >= latest, True, "what was over first stands first")
    held = [(order[i].begin, order[i + 1].end) for i, it in enumerate(order) if it.kind == "granted"]
    changes = [it for it in order if it.kind == "changed"]
    values = {1: 0, **{it.place: it.value for it in changes}}
    for client in clients:
        told = 1
        for it in client.done:
            if it.kind == "refused":
                same(any(begin < it.end and it.begin < end for begin, end in held), True, "a lock that refuses is held")
            if it.kind == "read":
                same(it.value, values[it.place], "count and value are of one state")
                over = [other.place for other in changes if other.end < it.begin]
                same(it.place >= max([told, *over]), True, "what was told before is there")
                same(all(other.begin < it.end for other in changes if other.place <= it.place), True, "nothing is there too early")
            if it.kind in ("read", "changed"):
                told = it.place
    return order


def run_clients(server) -> list:
    start = threading.Barrier(CLIENTS)
    clients = [Client(server, name, start) for name in range(CLIENTS)]
    for client in clients:
        client.start()
    for client in clients:
        client.join()
        if client.failed:
            raise client.failed
    return clients


def is_enough(order: list, clients: list) -> bool:
    """Whether the clients were in each other's way: some changes, some locks, and one that was refused."""
    changes = sum(it.kind == "changed" for it in order)
    locks = sum(it.kind == "granted" for it in order)
    return changes > 10 and locks > 5 and any(it.kind == "refused" for it in done_by(clients))


def one_run() -> bool:
    """Has the clients work on a new folder, judges what they were told, and returns whether they were in each other's way."""
    with Folder() as folder:
        with folder.serve(workers=CLIENTS) as server:
            server.ask(insert(mark("first", "<m:size>0</m:size>")))
            clients = run_clients(server)
            order = judge(clients)
            changes = [it for it in order if it.kind == "changed"]
            locks = sum(it.kind == "granted" for it in order)
            again, found = server.ask(lock("resourceId=Mark.1"), find("typeNames=Mark"))
            same('lockId="lock-1-%d"' % (locks + 1) in again.body, True, "all locks were released")
        # The last change stands, and of what was refused there is no trace: also in the next run.
        for answered in (found, folder.ask(find("typeNames=Mark"))[0]):
            marks = answered.body.split("<wfs:member>")[1:]
            same(answered.ids, ["Mark.%d" % (it + 1) for it in range(len(changes) + 1)])
            if changes:
                same("<m:size>%d</m:size>" % changes[-1].value in marks[0], True, "the last value")
            same([it.split("<m:label>")[1].split("<")[0] for it in marks[1:]], ["v%d" % it.value for it in changes])
    return is_enough(order, clients)


def test_sixteen_connections_have_one_history():
    # (on a busy machine they may come one after the other: then they try again)
    same(any(one_run() for _ in range(10)), True, "the clients were in each other's way")


def told(**changed) -> list:
    """What two clients were told who each locked and changed the mark, and who read it at last; one of these is changed."""
    steps = {
        "first": Done("granted", 0, 1, lock=1),
        "second": Done("changed", 2, 3, lock=1, value=7, place=2),
        "refused": Done("refused", 1, 2),
        "third": Done("granted", 4, 5, lock=2),
        "fourth": Done("changed", 6, 7, lock=2, value=8, place=3),
        "read": Done("read", 8, 9, place=3, value=8),
    }
    for name, values in changed.items():
        steps[name].__dict__.update(values)
    clients = [threading.Thread(), threading.Thread()]
    clients[0].done = [steps["first"], steps["second"], steps["read"]]
    clients[1].done = [steps["refused"], steps["third"], steps["fourth"]]
    return clients


@rows(
    ("of two grants of one lock", dict(third={"lock": 1})),
    ("of a number that is given twice", dict(fourth={"place": 2})),
    ("of a grant while another lock is held", dict(third={"begin": 1.2, "end": 1.5})),
    ("of a refusal when no lock is held", dict(refused={"begin": 3.2, "end": 3.5})),
    ("of a read of an older state than the client was told of", dict(read={"place": 2, "value": 7})),
    ("of a count and a value of two states", dict(read={"value": 7})),
    ("of a read before what it tells of began", dict(read={"begin": 4, "end": 5})),
)
def test_the_judge_tells(changed):
    judge(told())
    try:
        judge(told(**changed))
    except AssertionError:
        return
    raise AssertionError("one history has these answers")
