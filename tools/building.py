"""Proves and builds the program: over what earlier runs left in crates/*/out, or from nothing in a clean place.

Over what was left, each crate is proved once those that it stands on are, side by side on all processors. The crate with most to wait for it goes first, and gets three
of them. A run of rt keeps all others out of the crates that it reads, so each works in a room of its own, which has the files of these crates by links."""

import concurrent.futures
import os
import re
import shutil
import subprocess
import sys
import time

from program import BUILT, PARTS, ROOT, crates, tell

# The processes that run now.
RUNNING = set()


def stands_on() -> dict:
    """The program's crates, each with those of the repository that it names."""
    found = crates()
    return {name: [it for it in libraries if it in found] for name, libraries in found.items()}


def sizes_above(below: dict) -> dict:
    """For each crate the size of its sources and of those that have to wait for it, one after the other, along the longest such chain."""
    sizes = {}
    for name in below:
        files = [os.path.join(here, it) for here, _, found in os.walk(os.path.join(ROOT, "crates", name)) for it in found]
        sizes[name] = sum(os.path.getsize(it) for it in files if it.endswith((".rt", ".antt")))
    longest = {}

    def above(name: str) -> int:
        if name not in longest:
            longest[name] = sizes[name] + max((above(it) for it, named in below.items() if name in named), default=0)
        return longest[name]

    return {name: above(name) for name in below}


def all_below(below: dict) -> dict:
    """For each crate those that it stands on, those that these stand on, and so on."""
    found = {}

    def under(name: str) -> set:
        if name not in found:
            found[name] = set(below[name]).union(*map(under, below[name]))
        return found[name]

    return {name: under(name) for name in below}


def linked(source: str, copy: str) -> None:
    """A file that no run changes in place, by a link where the file system has any."""
    try:
        os.link(source, copy)
    except OSError:
        shutil.copy2(source, copy)


def list_crates(folder: str, names: set) -> None:
    """Writes a crates.txt that has the lines of these crates alone."""
    with open(os.path.join(ROOT, "crates.txt"), encoding="utf-8") as lines, open(os.path.join(folder, "crates.txt"), "w", encoding="utf-8") as listed:
        listed.writelines(it for it in lines if re.match(r"\w*", it)[0] in names)


def furnish(room: str, name: str, below: set) -> None:
    """Puts into a room a crate, with all that was kept of it, and the crates below it, with their libraries."""
    shutil.rmtree(room, ignore_errors=True)
    os.makedirs(room)
    list_crates(room, {name, *below})
    for it in [name, *below]:
        kept = set(os.listdir(os.path.join(ROOT, "crates", name, "out"))) - {"room"} if it == name else {"rlib"}
        ignored = lambda folder, files, kept=kept: set(files) - kept if os.path.basename(folder) == "out" else set()
        shutil.copytree(os.path.join(ROOT, "crates", it), os.path.join(room, "crates", it), copy_function=linked, ignore=ignored)


def run(command: list, folder: str) -> tuple:
    """The status of a command, and what it said."""
    with subprocess.Popen(command, cwd=folder, stdin=subprocess.DEVNULL, stdout=subprocess.PIPE, stderr=subprocess.STDOUT) as process:
        RUNNING.add(process)
        said = process.communicate()[0]
        RUNNING.discard(process)
    return process.returncode, said


def prove(name: str, below: set, jobs: int) -> tuple:
    """Proves and builds one crate, of which those below are built, in a room of its own."""
    out = os.path.join(ROOT, "crates", name, "out")
    room = os.path.join(out, "room")
    furnish(room, name, below)
    crate = os.path.join(room, "crates", name)
    status, said = run(["rt", "lib", "--jobs", str(jobs)], crate)
    for made in os.listdir(os.path.join(crate, "out")) if status == 0 else []:
        shutil.rmtree(os.path.join(out, made), ignore_errors=True)
        os.rename(os.path.join(crate, "out", made), os.path.join(out, made))
    shutil.rmtree(room)
    return status, said


def make(name: str, below: set, jobs: int) -> tuple:
    """Proves and builds a crate. The program, which is the last one, is built in its own folder, and looks once at the demonstration."""
    if name != "wfsd":
        return prove(name, below, jobs)
    return run(["rt", "run", "--jobs", str(jobs), "--", "check", os.path.join(ROOT, "demo")], os.path.join(ROOT, "crates", name))


def stop(name: str, said: bytes) -> None:
    """Ends, and all that still runs, for a crate that is not proved."""
    for process in list(RUNNING):
        process.terminate()
    sys.stderr.buffer.write(said)
    tell("%s is not proved" % name)
    sys.exit(1)


def need_kit() -> None:
    if shutil.which("rt") is None:
        sys.exit("wfsd: these sources have to be proved and built, and the Rattle kit (its command rt) is not on this machine: README.md, Prove it yourself")


def build() -> None:
    """Proves and builds what has changed since the last run, with a line of progress for each crate."""
    need_kit()
    start, below = time.monotonic(), stands_on()
    left, running, done = dict(below), {}, set()
    free, first, below_all = len(os.sched_getaffinity(0)), sizes_above(below), all_below(below)
    tell("proving and building %d crates; a later run starts at once" % len(below))
    with concurrent.futures.ThreadPoolExecutor(free) as pool:
        while left or running:
            ready = sorted((it for it, named in left.items() if done.issuperset(named)), key=first.get, reverse=True)
            for name in ready:
                if free == 0:
                    break
                leads = all(first[name] >= first[it] for it, _ in running.values())
                jobs = min(free, 3 if leads else 1)
                del left[name]
                free -= jobs
                running[pool.submit(make, name, below_all[name], jobs)] = name, jobs
            for ended in concurrent.futures.wait(running, return_when=concurrent.futures.FIRST_COMPLETED).done:
                (name, jobs), (status, said) = running.pop(ended), ended.result()
                if status != 0:
                    stop(name, said)
                free += jobs
                done.add(name)
                tell("%2d of %d, %4.0f s: %s" % (len(done), len(below), time.monotonic() - start, name))


def clean_place(place: str) -> None:
    """Makes of an empty folder the top of a repository with the program's crates alone, and nothing that was built or kept of them."""
    # (rt takes a folder with a .git for the top)
    os.mkdir(os.path.join(place, ".git"))
    list_crates(place, set(crates()))
    shutil.copy(os.path.join(ROOT, "HANDLES"), place)
    for name in crates():
        for part in PARTS:
            if os.path.isdir(os.path.join(ROOT, "crates", name, part)):
                shutil.copytree(os.path.join(ROOT, "crates", name, part), os.path.join(place, "crates", name, part))
    # What a run of the program by the gate takes, and what it must give.
    for it in ("args", "stdin", "stdout", "status"):
        if os.path.isfile(os.path.join(ROOT, "crates", "wfsd", it)):
            shutil.copy(os.path.join(ROOT, "crates", "wfsd", it), os.path.join(place, "crates", "wfsd"))
    if os.path.isdir(os.path.join(ROOT, "crates", "wfsd", "data")):
        shutil.copytree(os.path.join(ROOT, "crates", "wfsd", "data"), os.path.join(place, "crates", "wfsd", "data"))


def build_anew(place: str) -> None:
    """Proves and builds the program in an empty folder as the gate does, from nothing, and puts it where a built program is."""
    need_kit()
    clean_place(place)
    start, done, said, number = time.monotonic(), 0, [], len(crates())
    tell("proving and building %d crates from nothing" % number)
    command = ["rt", "ci", "--anew"]
    with subprocess.Popen(command, cwd=place, stdin=subprocess.DEVNULL, stdout=subprocess.PIPE, stderr=subprocess.STDOUT, encoding="utf-8", errors="replace") as process:
        for line in process.stdout:
            said.append(line)
            proved = re.fullmatch(r"rt: (\w+) proved\n", line)
            if proved:
                done += 1
                tell("%2d of %d, %4.0f s: %s" % (done, number, time.monotonic() - start, proved[1]))
    if process.returncode != 0:
        sys.exit("".join(said) + "wfsd: not all of it is proved")
    os.makedirs(os.path.dirname(BUILT), exist_ok=True)
    shutil.copy(os.path.join(place, "crates", "wfsd", "out", "wfsd"), BUILT + ".new")
    os.replace(BUILT + ".new", BUILT)
