"""The program of this checkout: the sum of its sources, and the file that is the program of just these sources."""

import hashlib
import os
import re
import shutil
import subprocess
import sys

ROOT = os.path.dirname(os.path.dirname(os.path.realpath(__file__)))
# The folders of a crate that a proof reads.
PARTS = ("proofs", "specs", "src")
# The program that was built here, and a note of its bytes and of its sources, in the form of dist/MANIFEST.
BUILT = os.path.join(ROOT, "crates", "wfsd", "out", "wfsd")
NOTE = BUILT + ".MANIFEST"
# The program that the repository carries, what it says of it, and where the program is unpacked.
PACKED = os.path.join(ROOT, "dist", "wfsd.xz")
MANIFEST = os.path.join(ROOT, "dist", "MANIFEST")
UNPACKED = os.path.join(ROOT, "out", "dist", "wfsd")
# What the kit compiles for where crates.txt names no other processor, and how Linux spells what such a processor has.
PROCESSOR = "x86-64-v2"
FLAGS_OF_PROCESSOR = {"cx16", "lahf_lm", "popcnt", "sse4_1", "sse4_2", "ssse3"}


def tell(text: str) -> None:
    print("wfsd: " + text, file=sys.stderr, flush=True)


# ---- the sources


def listed() -> dict:
    """The libraries that each crate of crates.txt names."""
    named = {}
    with open(os.path.join(ROOT, "crates.txt"), encoding="utf-8") as lines:
        for line in lines:
            name, _, libraries = line.partition("#")[0].partition(":")
            if name.strip():
                named[name.split()[0]] = libraries.split()
    return named


def crates() -> dict:
    """The program's crate and those of the repository that it stands on, by name, each with the libraries that it names."""
    named, found, wanted = listed(), {}, ["wfsd"]
    while wanted:
        name = wanted.pop()
        if name not in found:
            found[name] = named[name]
            wanted += [it for it in named[name] if it in named]
    return dict(sorted(found.items()))


def files_of(crate: str) -> list:
    """The paths of a crate's sources, from the top of the repository, in order."""
    found = []
    for part in PARTS:
        for here, _, names in os.walk(os.path.join(ROOT, "crates", crate, part)):
            found += [os.path.relpath(here, ROOT) + "/" + name for name in names]
    return sorted(found)


def sources() -> str:
    """What the sum of the sources is the SHA-256 of: for each crate the line `NAME: LIBRARIES`, and a line for each of its files, as `sha256sum` prints it."""
    lines = []
    for crate, libraries in crates().items():
        lines.append(" ".join([crate + ":", *libraries]))
        lines += ["%s  %s" % (sum_of(os.path.join(ROOT, path)), path) for path in files_of(crate)]
    return "".join(line + "\n" for line in lines)


def sources_sum() -> str:
    return hashlib.sha256(sources().encode()).hexdigest()


def sum_of(path: str) -> str:
    """The SHA-256 of a file."""
    with open(path, "rb") as file:
        return hashlib.sha256(file.read()).hexdigest()


# ---- manifests


def read_manifest(path: str) -> dict:
    """The lines `NAME: VALUE` of a manifest; none where there is no such file."""
    try:
        with open(path, encoding="utf-8") as file:
            return dict(line.rstrip("\n").split(": ", 1) for line in file)
    except (OSError, ValueError):
        return {}


def write_manifest(path: str, said: dict) -> None:
    replace(path, "".join("%s: %s\n" % line for line in said.items()).encode(), 0o644)


def replace(path: str, content: bytes, mode: int) -> None:
    """Writes a file anew, so that nobody meets half of it."""
    os.makedirs(os.path.dirname(path), exist_ok=True)
    new = "%s.%d" % (path, os.getpid())
    with open(new, "wb") as file:
        file.write(content)
    os.chmod(new, mode)
    os.replace(new, path)


def note(of_sources: str) -> None:
    """Notes that the program that was built here is of these sources."""
    write_manifest(NOTE, {"program": sum_of(BUILT), "sources": of_sources})


def is_told(program: str, manifest: str, of_sources: str) -> bool:
    """Whether a file is the program that a manifest tells of, and the manifest is of these sources."""
    said = read_manifest(manifest)
    return said.get("sources") == of_sources and os.path.isfile(program) and said.get("program") == sum_of(program)


# ---- dist/


def kit() -> str:
    """The name of the Rattle kit on this machine, or nothing."""
    if shutil.which("rt") is None:
        return ""
    return subprocess.run(["rt", "version"], stdout=subprocess.PIPE, check=True, encoding="utf-8").stdout.strip()


def manifest_of(program: bytes, of_sources: str, of_kit: str) -> dict:
    """What dist/MANIFEST says of a program."""
    versions = [tuple(map(int, it.split(b"."))) for it in re.findall(rb"\0GLIBC_([0-9.]+)(?=\0)", program)]
    return {
        "program": hashlib.sha256(program).hexdigest(),
        "sources": of_sources,
        "kit": of_kit,
        "processor": PROCESSOR,
        "library": "glibc " + ".".join(map(str, max(versions))) if versions else "none",
    }


def pack(program: bytes, of_sources: str, of_kit: str) -> None:
    """Makes dist/ anew of a program and its sources."""
    import lzma

    filters = [{"id": lzma.FILTER_X86}, {"id": lzma.FILTER_LZMA2, "preset": 9 | lzma.PRESET_EXTREME}]
    replace(PACKED, lzma.compress(program, filters=filters), 0o644)
    write_manifest(MANIFEST, manifest_of(program, of_sources, of_kit))


def packed() -> bytes:
    """The program of dist/, or nothing where it cannot be unpacked."""
    try:
        import lzma
    except ImportError:
        # (Python can be built without it)
        return subprocess.run(["xz", "-dc", PACKED], stdout=subprocess.PIPE, check=False).stdout if shutil.which("xz") else b""
    try:
        with lzma.open(PACKED) as file:
            return file.read()
    except (OSError, EOFError, lzma.LZMAError):
        return b""


def faults(of_sources: str, built: bytes = None) -> list:
    """What is wrong with dist/ for these sources, and, where it is given, for the program that was built of them."""
    program = packed()
    if not program:
        return ["dist/wfsd.xz cannot be unpacked"]
    found = [] if built in (None, program) else ["the program that was built from these sources is not that of dist/wfsd.xz"]
    said = read_manifest(MANIFEST)
    wanted = manifest_of(program, of_sources, kit() or said.get("kit"))
    for name in sorted(wanted.keys() | said.keys()):
        if said.get(name) != wanted.get(name):
            found.append("dist/MANIFEST: %s is %s, and not %s" % (name, wanted.get(name, "no line"), said.get(name, "left out")))
    return found


def lacking(said: dict) -> str:
    """What this machine lacks for the program of dist/, by what its manifest says; nothing where it can run there."""
    if sys.platform != "linux" or os.uname().machine != "x86_64":
        return "Linux on x86-64"
    with open("/proc/cpuinfo", encoding="utf-8", errors="replace") as file:
        flags = next((set(line.split()) for line in file if line.startswith("flags")), FLAGS_OF_PROCESSOR)
    if not FLAGS_OF_PROCESSOR <= flags:
        return "a processor of " + PROCESSOR
    wanted = said.get("library", "")
    try:
        here = os.confstr("CS_GNU_LIBC_VERSION")
    except ValueError:
        # (another C library)
        here = ""
    numbers = lambda text: [int(it) for it in re.findall(r"\d+", text)]
    return "" if wanted == "none" or here.startswith("glibc ") and numbers(here) >= numbers(wanted) else wanted


def unpack(of_sources: str) -> bool:
    """Unpacks the program of dist/ where it is that of these sources, and returns whether it did."""
    said = read_manifest(MANIFEST)
    if said.get("sources") != of_sources:
        return False
    lacks = lacking(said)
    if lacks:
        tell("the program of dist/ needs %s, which this machine lacks" % lacks)
        return False
    program = packed()
    if hashlib.sha256(program).hexdigest() != said.get("program"):
        tell("dist/wfsd.xz is not the program that dist/MANIFEST names, and is passed over")
        return False
    replace(UNPACKED, program, 0o755)
    return True


# ---- the program


def path() -> str:
    """The path of the program of these sources: built here before, or of dist/, or else proved and built now."""
    now = sources_sum()
    if is_told(BUILT, NOTE, now):
        return BUILT
    if is_told(UNPACKED, MANIFEST, now) or unpack(now):
        return UNPACKED
    import building

    building.build()
    keep(now)
    return BUILT


def keep(of_sources: str) -> None:
    """Notes what was just built of these sources, which must not have changed meanwhile."""
    if sources_sum() != of_sources:
        sys.exit("wfsd: the sources changed while they were proved: run this again")
    note(of_sources)
