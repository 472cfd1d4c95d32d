"""The program that the repository carries. Each test has a small tree of its own, with the commands of this repository, the system's `echo` for the program, and a kit
that proves nothing. A second program is the system's `false`."""

import contextlib
import hashlib
import lzma
import os
import re
import shutil
import subprocess
import sys
import tempfile

from harness import ROOT, rows, same, skip

ECHO, FALSE = shutil.which("echo"), shutil.which("false")
COMMANDS = ("wfsd", "build", "dist/make", "dist/check", "dist/sources", "tools/program.py", "tools/building.py")
FILES = {
    "HANDLES": "Handles allowed: none.\n",
    "crates.txt": "# the program\nlow may_wait=1: memchr\nrows: low\nwfsd: low\n",
    "crates/low/src/lib.rt": "pub fn one() {}\n",
    "crates/low/specs/Low.antt": "one : Nat\n",
    "crates/low/proofs/one/Answers.antt": "one = 1\n",
    "crates/low/must-fail/one.edit": "file: src/lib.rt\n",
    "crates/low/README.md": "One.\n",
    "crates/rows/src/lib.rt": "mod tests;\n",
    "crates/wfsd/src/main.rt": "fn main() {}\n",
    "crates/wfsd/README.md": "The program.\n",
    "tests/rows.py": "\n",
}
# What the kit leaves of each command that the repository calls. `made` is the program that it builds.
KIT = """#!/bin/sh
PATH=/usr/bin:/bin
echo "$*" >> %(top)s/calls
case "$1" in
version) echo "a kit" ;;
lib) mkdir -p out/rlib ;;
run) mkdir -p out && cp %(top)s/made out/wfsd ;;
ci) mkdir crates/wfsd/out && cp %(top)s/made crates/wfsd/out/wfsd && printf 'rt: low proved\\nrt: wfsd proved\\n' ;;
esac
"""


class Tree:
    """A small repository, whose dist/ holds its program."""

    def __init__(self, top: str):
        self.top = top
        for path in COMMANDS:
            self.write(path, read(os.path.join(ROOT, path)))
        for path, text in FILES.items():
            self.write(path, text.encode())
        self.write("made", read(ECHO))
        self.write("kit/rt", (KIT % {"top": top}).encode())
        for path in ("made", "kit/rt"):
            os.chmod(self.file(path), 0o755)
        same(self.run("dist/make", ECHO).returncode, 0, "status of dist/make")

    def file(self, path: str) -> str:
        return os.path.join(self.top, path)

    def read(self, path: str) -> bytes:
        return read(self.file(path))

    def write(self, path: str, content: bytes) -> None:
        os.makedirs(os.path.dirname(self.file(path)), exist_ok=True)
        with open(self.file(path), "wb") as file:
            file.write(content)

    def change(self, path: str, old: str, new: str) -> None:
        text = self.read(path).decode()
        same(text.count(old), 1, "%r in %s" % (old, path))
        self.write(path, text.replace(old, new).encode())

    def run(self, command: str, *words: str, kit: bool = True):
        """Runs a command of the tree, on a machine with the kit or without it."""
        # (`-S` spares what this machine adds to Python)
        command = [sys.executable, "-S", self.file(command), *words]
        return subprocess.run(command, env={"PATH": self.file("kit" if kit else "no-kit")}, stdout=subprocess.PIPE, stderr=subprocess.PIPE, check=False, encoding="utf-8")

    def manifest(self) -> dict:
        return dict(line.split(": ", 1) for line in self.read("dist/MANIFEST").decode().splitlines())

    def gate_leaves(self, program: str) -> None:
        """Puts a program where `rt ci` leaves it."""
        self.write("crates/wfsd/out/wfsd", read(program))
        os.chmod(self.file("crates/wfsd/out/wfsd"), 0o755)

    def check_after_gate(self):
        return self.run("dist/check", self.sum())

    def sum(self) -> str:
        return hashlib.sha256(self.run("dist/sources").stdout.encode()).hexdigest()

    def calls(self) -> list:
        """The first words of the calls of the kit since the last question."""
        with contextlib.suppress(FileNotFoundError):
            calls = self.read("calls").decode().splitlines()
            os.remove(self.file("calls"))
            return sorted(line.split()[0] for line in calls)
        return []


def read(path: str) -> bytes:
    with open(path, "rb") as file:
        return file.read()


@contextlib.contextmanager
def tree():
    with tempfile.TemporaryDirectory(prefix="wfsd-dist-") as top:
        yield Tree(top)


def says(run, status: int, text: str) -> None:
    """That a run ended with this status, and said this."""
    if run.returncode != status or text not in run.stdout + run.stderr:
        raise AssertionError("wanted status %d and %r\ncame %d, %r and %r" % (status, text, run.returncode, run.stdout, run.stderr))


def runs(run) -> None:
    """That `a b`, given to the program, came back from echo."""
    same((run.stdout, run.stderr, run.returncode), ("a b\n", "", 0))


# ---- the program that is run


def test_the_program_of_dist_runs_without_the_kit():
    with tree() as here:
        for _ in range(2):
            runs(here.run("wfsd", "a", "b", kit=False))
        same(here.run("wfsd", "--path", kit=False).stdout, here.file("out/dist/wfsd") + "\n")


def test_a_changed_file_that_was_unpacked_is_unpacked_again():
    with tree() as here:
        runs(here.run("wfsd", "a", "b", kit=False))
        here.write("out/dist/wfsd", read(FALSE))
        runs(here.run("wfsd", "a", "b", kit=False))


def test_another_program_in_dist_is_not_run():
    with tree() as here:
        here.write("dist/wfsd.xz", lzma.compress(read(FALSE)))
        says(here.run("wfsd", "a", "b", kit=False), 1, "not the program that dist/MANIFEST names")


def test_what_the_machine_lacks_is_told():
    with tree() as here:
        here.change("dist/MANIFEST", here.manifest()["library"], "glibc 999.1")
        says(here.run("wfsd", "a", "b", kit=False), 1, "needs glibc 999.1")


def test_the_library_is_the_one_that_readelf_tells():
    if shutil.which("readelf") is None:
        skip("readelf (binutils) is not here")
    told = subprocess.run(["readelf", "-V", ECHO], stdout=subprocess.PIPE, check=True, encoding="utf-8").stdout
    newest = max(tuple(map(int, it.split("."))) for it in re.findall(r"GLIBC_([0-9.]+)", told))
    with tree() as here:
        same(here.manifest()["library"], "glibc %d.%d" % newest[:2])


def test_where_neither_is_of_these_sources_the_program_is_built_once():
    with tree() as here:
        here.change("crates/low/src/lib.rt", "one", "two")
        here.calls()
        says(here.run("wfsd", "a", "b"), 0, "a b\n")
        same(here.calls(), ["lib", "run"])
        runs(here.run("wfsd", "a", "b"))
        same(here.run("wfsd", "--path").stdout, here.file("crates/wfsd/out/wfsd") + "\n")
        same(here.calls(), [])


def test_a_program_that_another_build_left_is_not_run():
    with tree() as here:
        here.change("crates/low/src/lib.rt", "one", "two")
        says(here.run("wfsd", "a", "b"), 0, "a b\n")
        here.gate_leaves(FALSE)
        says(here.run("wfsd", "a", "b", kit=False), 1, "have to be proved and built")


def test_sources_that_change_back_have_their_program_again():
    with tree() as here:
        here.change("crates/low/src/lib.rt", "one", "two")
        says(here.run("wfsd", "a", "b"), 0, "a b\n")
        here.change("crates/low/src/lib.rt", "two", "one")
        same(here.run("wfsd", "--path", kit=False).stdout, here.file("out/dist/wfsd") + "\n")


# ---- the sum of the sources

SOURCES = (
    ("code", "crates/low/src/lib.rt", "one", "two"),
    ("a definition", "crates/low/specs/Low.antt", "one", "two"),
    ("a proof", "crates/low/proofs/one/Answers.antt", "one = 1", "one = 2"),
    ("code of the program", "crates/wfsd/src/main.rt", "main", "none"),
    ("a library that is named", "crates.txt", "memchr", "itoa"),
    ("a crate below", "crates.txt", "wfsd: low", "wfsd: low rows"),
)


@rows(*SOURCES)
def test_no_program_runs_for_other_sources(path, old, new):
    with tree() as here:
        here.change(path, old, new)
        says(here.run("wfsd", "a", "b", kit=False), 1, "have to be proved and built")
        says(here.run("dist/check"), 1, "dist/MANIFEST: sources is ")


@rows(("more", "crates/low/src/more.rt"), ("more proofs", "crates/wfsd/proofs/main/Answers.antt"))
def test_a_new_source_counts(path):
    with tree() as here:
        here.write(path, b"")
        says(here.run("dist/check"), 1, "dist/MANIFEST: sources is ")


def test_a_source_that_goes_counts():
    with tree() as here:
        os.remove(here.file("crates/low/specs/Low.antt"))
        says(here.run("dist/check"), 1, "dist/MANIFEST: sources is ")


@rows(
    ("a test", "tests/rows.py", "\n", "1\n"),
    ("a crate of rows", "crates/rows/src/lib.rt", "tests", "rows"),
    ("its line", "crates.txt", "rows: low", "rows: low memchr"),
    ("a heading", "crates.txt", "# the program", "# a program"),
    ("how often a crate waits", "crates.txt", "may_wait=1", "may_wait=2"),
    ("a must-fail edit", "crates/low/must-fail/one.edit", "lib", "main"),
    ("a README", "crates/low/README.md", "One", "Two"),
)
def test_the_program_is_not_made_of(path, old, new):
    with tree() as here:
        here.change(path, old, new)
        says(here.run("dist/check"), 0, "dist/ holds the program of these sources")
        runs(here.run("wfsd", "a", "b", kit=False))


def test_the_sum_is_that_of_sha256sum():
    if shutil.which("sha256sum") is None:
        skip("sha256sum is not here")
    script = """
        echo 'low: memchr'
        sha256sum crates/low/proofs/one/Answers.antt crates/low/specs/Low.antt crates/low/src/lib.rt
        echo 'wfsd: low'
        sha256sum crates/wfsd/src/main.rt"""
    with tree() as here:
        told = subprocess.run("(%s) | sha256sum" % script, shell=True, cwd=here.top, stdout=subprocess.PIPE, check=True, encoding="utf-8").stdout
        same(here.manifest()["sources"], told.split()[0])
        told = subprocess.run(["sha256sum", ECHO], stdout=subprocess.PIPE, check=True, encoding="utf-8").stdout
        same(here.manifest()["program"], told.split()[0])


# ---- the comparison of the gate


def test_the_gate_passes_the_program_that_it_proved():
    with tree() as here:
        here.gate_leaves(ECHO)
        says(here.check_after_gate(), 0, "which was built here too")
        same(here.run("wfsd", "--path").stdout, here.file("crates/wfsd/out/wfsd") + "\n")


def test_the_gate_fails_where_the_program_differs_and_make_mends_it():
    with tree() as here:
        here.gate_leaves(FALSE)
        says(here.check_after_gate(), 1, "is not that of dist/wfsd.xz")
        says(here.run("dist/check"), 1, "`dist/make` mends this")
        same(here.run("dist/make").returncode, 0)
        says(here.check_after_gate(), 0, "which was built here too")


def test_the_gate_fails_for_one_byte():
    with tree() as here:
        changed = bytearray(read(ECHO))
        changed[len(changed) // 2] ^= 1
        here.gate_leaves(ECHO)
        here.write("dist/wfsd.xz", lzma.compress(bytes(changed)))
        says(here.check_after_gate(), 1, "is not that of dist/wfsd.xz")
        os.remove(here.file("crates/wfsd/out/wfsd"))
        says(here.run("dist/check"), 1, "dist/MANIFEST: program is ")


@rows(*[(name, name) for name in ("program", "sources", "kit", "processor", "library")])
def test_the_gate_fails_for_a_changed_line_of_the_manifest(name):
    with tree() as here:
        here.gate_leaves(ECHO)
        here.change("dist/MANIFEST", "%s: " % name, "%s: x" % name)
        says(here.check_after_gate(), 1, "dist/MANIFEST: %s is " % name)


@rows(("the program", "dist/wfsd.xz", "cannot be unpacked"), ("the manifest", "dist/MANIFEST", "and not left out"))
def test_the_gate_fails_for_want_of(path, text):
    with tree() as here:
        here.gate_leaves(ECHO)
        os.remove(here.file(path))
        says(here.check_after_gate(), 1, text)


def test_the_gate_fails_where_sources_changed_while_it_ran():
    with tree() as here:
        here.gate_leaves(ECHO)
        before = here.sum()
        here.change("crates/low/src/lib.rt", "one", "two")
        says(here.run("dist/check", before), 1, "the sources changed")


def test_make_takes_no_program_of_other_sources():
    with tree() as here:
        here.gate_leaves(ECHO)
        says(here.run("dist/make"), 1, "no program of these sources was built here")
        says(here.check_after_gate(), 0, "which was built here too")
        here.change("crates/low/src/lib.rt", "one", "two")
        says(here.run("dist/make"), 1, "no program of these sources was built here")


# ---- ./build


@rows(("same", ECHO, 0, "these are the bytes of dist/"), ("other", FALSE, 1, "these are not the bytes of dist/"))
def test_build_proves_anew_and_compares(made, status, text):
    with tree() as here:
        here.write("made", read(made))
        here.gate_leaves(FALSE)
        here.calls()
        says(here.run("build"), status, text)
        same(here.calls(), ["ci", "version"])
        same(here.read("crates/wfsd/out/wfsd"), read(made))
