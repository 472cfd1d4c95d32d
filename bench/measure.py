"""What the benchmarks share: messages, and the least time of a command over some runs."""

import contextlib
import functools
import os
import shutil
import subprocess
import sys
import tempfile
import time

ROOT = os.path.dirname(os.path.dirname(os.path.abspath(__file__)))
sys.path.insert(0, os.path.join(ROOT, "tools"))

import program

RUNS = 7
DEMO = os.path.join(ROOT, "demo")
# The status of a session that was answered up to its end.
ANSWERED = 0


def spent(command: list) -> tuple:
    """The processor time in seconds and the greatest memory in KiB of one run of a command that ends with status 0."""
    process = subprocess.Popen(command, stdout=subprocess.DEVNULL)
    _, status, used = os.wait4(process.pid, 0)
    process.returncode = os.waitstatus_to_exitcode(status)
    if process.returncode != 0:
        sys.exit("%s ended with status %d" % (" ".join(command), process.returncode))
    return used.ru_utime + used.ru_stime, used.ru_maxrss


def message(body: bytes) -> bytes:
    head = "POST /wfs HTTP/1.1\r\nHost: h\r\nContent-Length: %d\r\n\r\n" % len(body)
    return head.encode() + body


@functools.lru_cache(maxsize=None)
def built() -> str:
    """The path of the program that `./wfsd` would run, which is unpacked or built first, so that no run measures that."""
    return program.path()


def time_once(command: list, source, status: int) -> float:
    """The time, in seconds, of one run of a command that reads this file and ends with this status."""
    source.seek(0)
    start = time.perf_counter()
    ended = subprocess.run(command, stdin=source, stdout=subprocess.DEVNULL, check=False).returncode
    taken = time.perf_counter() - start
    if ended != status:
        sys.exit("%s ended with status %d and not %d" % (command[0], ended, status))
    return taken


def least_times(command: list, inputs: list, status: int, runs: int = RUNS) -> list:
    """The least time, in seconds, of some runs for each of these inputs, which take turns, so that a machine that grows slower
    does not weigh on one of them alone."""
    with contextlib.ExitStack() as files:
        sources = [files.enter_context(tempfile.TemporaryFile()) for _ in inputs]
        for source, data in zip(sources, inputs):
            source.write(data)
        best = [float("inf")] * len(inputs)
        for _ in range(runs):
            best = [min(least, time_once(command, source, status)) for least, source in zip(best, sources)]
    return best


def least_time(command: list, data: bytes, status: int, runs: int = RUNS) -> float:
    """The least time, in seconds, of some runs of a command that reads these bytes and ends with this status."""
    return least_times(command, [data], status, runs)[0]


def copied() -> str:
    """A copy of the crates, without what was built."""
    copy = tempfile.mkdtemp(prefix="crates-")
    shutil.copytree(os.path.join(ROOT, "crates"), os.path.join(copy, "crates"), ignore=shutil.ignore_patterns("out"))
    for name in ("crates.txt", "HANDLES"):
        shutil.copy(os.path.join(ROOT, name), copy)
    return copy


@contextlib.contextmanager
def driver(name: str, crates: list):
    """The program of `NAME.rt.txt` over these crates, which is proved and built first, with the answers in `NAME.proofs` (`.antt.txt`) where it has some. It stands below
    the top of the repository, so that its crates are found, and goes again, since the gate wants no crate but those of crates.txt."""
    folder = os.path.join(ROOT, "out", name + "_bench")
    proofs = os.path.join(ROOT, "bench", name + ".proofs")
    deps = ", ".join('"%s"' % (crate if crate.startswith("@") else "//crates/" + crate) for crate in crates)
    try:
        os.makedirs(os.path.join(folder, "src"))
        shutil.copy(os.path.join(ROOT, "bench", name + ".rt.txt"), os.path.join(folder, "src", "main.rt"))
        for here, _, names in os.walk(proofs):
            into = os.path.join(folder, "proofs", os.path.relpath(here, proofs))
            os.makedirs(into, exist_ok=True)
            for answer in names:
                shutil.copy(os.path.join(here, answer), os.path.join(into, answer[:-len(".txt")]))
        with open(os.path.join(folder, "BUILD.bazel"), "w", encoding="utf-8") as rules:
            rules.write('load("//bazel/rattle:crate.bzl", "rattle_crate")\n\nrattle_crate(\n    name = "%s_bench",\n    deps = [%s],\n)\n' % (name, deps))
        if subprocess.run(["rt", "run"], cwd=folder, stdout=sys.stderr, check=False).returncode != 0:
            sys.exit("%s.rt.txt is not built" % name)
        yield os.path.join(folder, "out", name + "_bench")
    finally:
        shutil.rmtree(folder, ignore_errors=True)


# The folders of the sessions, one for each run, since a run leaves a journal.
FOLDERS = tempfile.TemporaryDirectory()
FRESH = 'mkdir "$1/$$" && cp "$2/schema.toml" "$1/$$" && exec "$0" talk "$1/$$"'


def session(folder: str = DEMO) -> list:
    """The command that holds a session in a fresh folder, by the schema of this one or of the demonstration."""
    return ["sh", "-c", FRESH, built(), FOLDERS.name, folder]


def wfsd_time(body: bytes, status: int) -> float:
    return least_time(session(), message(body), status)


def xmllint_time(body: bytes):
    """The time of `xmllint --noout` on the same bytes, or None where it is not installed."""
    if shutil.which("xmllint") is None:
        return None
    return least_time(["xmllint", "--noout", "--huge", "-"], body, 0)


def can_count() -> bool:
    """Whether instructions can be counted here."""
    return shutil.which("valgrind") is not None


def instructions(body: bytes) -> int:
    """How many instructions the program takes for this body and its start."""
    with tempfile.TemporaryDirectory() as folder:
        counts = os.path.join(folder, "%p")
        command = ["valgrind", "--tool=callgrind", "--trace-children=yes", "--callgrind-out-file=" + counts] + session()
        subprocess.run(command, input=message(body), stdout=subprocess.DEVNULL, stderr=subprocess.DEVNULL, check=True)
        for name in os.listdir(folder):
            # (the shell that makes the folder, and what it calls, are counted beside it)
            with open(os.path.join(folder, name), encoding="ascii") as file:
                lines = file.readlines()
            if any(line.split()[:2] == ["cmd:", built()] for line in lines):
                return next(int(line.split()[1]) for line in lines if line.startswith("totals:"))
    raise AssertionError("the program was not counted")


# For each record two writes and two syncs: its length, its body and a closed gate behind the gate, and then the gate.
PLAIN_WRITER = r"""
#include <fcntl.h>
#include <stdio.h>
#include <stdlib.h>
#include <string.h>
#include <time.h>
#include <unistd.h>

int main(int count, char **words) {
    int file = open(words[1], O_RDWR);
    long gate = atol(words[2]), size = atol(words[3]), times = atol(words[4]);
    static char record[65536], open_gate = 1;
    (void)count;
    memset(record, 'a', sizeof record);
    record[size - 1] = 0;
    struct timespec from, to;
    clock_gettime(CLOCK_MONOTONIC, &from);
    for (long n = 0; n < times; n++, gate += size) {
        if (pwrite(file, record, size, gate + 1) != size || fdatasync(file) != 0) return 1;
        if (pwrite(file, &open_gate, 1, gate) != 1 || fdatasync(file) != 0) return 1;
    }
    clock_gettime(CLOCK_MONOTONIC, &to);
    printf("%ld\n", (to.tv_sec - from.tv_sec) * 1000000 + (to.tv_nsec - from.tv_nsec) / 1000);
    return 0;
}
"""


@contextlib.contextmanager
def plain_writer(folder: str):
    """A function of the size of a record, in bytes, and of how many there are. It tells how many microseconds a plain program in C takes for each
    of them to write and sync it behind a side in this folder: a copy of the file that is named, or a new one."""
    source, writer, side = (os.path.join(folder, name) for name in ("plain_writer.c", "plain_writer", "plain_side"))
    with open(source, "w", encoding="ascii") as text:
        text.write(PLAIN_WRITER)
    subprocess.run(["cc", "-O2", "-o", writer, source], check=True)

    def write(size: int, times: int, like: str = os.devnull) -> float:
        shutil.copyfile(like, side)
        with open(side, "ab") as file:
            if file.tell() == 0:
                file.write(b"\0")
            gate = file.tell() - 1
            os.fsync(file.fileno())
        words = [str(number) for number in (gate, size, times)]
        return int(subprocess.run([writer, side, *words], stdout=subprocess.PIPE, check=True).stdout) / times

    yield write


def verdict(what: str, ratio: float, most: float) -> bool:
    good = ratio <= most
    print("%-60s %6.2f (at most %g)%s" % (what, ratio, most, "" if good else "  TOO MUCH"))
    return good


def end(results: list) -> None:
    sys.exit(0 if all(results) else 1)
