"""The built programs: how they are called, and calls of the C library that fail in turn."""
import collections
import itertools
import os
import shutil
import subprocess
import tempfile
import threading
from concurrent.futures import ThreadPoolExecutor

from harness import schemas

HARNESS = os.path.dirname(os.path.abspath(__file__))
TESTS = os.path.dirname(HARNESS)
TOP = os.path.dirname(TESTS)
FENCER = os.path.join(TOP, "crates", "fencer", "out", "fencer")
FENCECHECK = os.path.join(TOP, "crates", "fencecheck", "out", "fencecheck")
TEST_CALLS = os.path.join(TOP, "crates", "test_calls", "out", "test_calls")
PROGRAMS = {"fencer": FENCER, "fencecheck": FENCECHECK}
# the most bytes of a litmus text and of a cost file
LIMIT = 1_048_576
# so many runs of a program go on side by side, or wait for it
SIDE_BY_SIDE = 32
SECONDS = 120

Call = collections.namedtuple("Call", "program words given folder")
# the last call that each thread made, for the report of a failure
last = threading.local()


def missing_programs():
    """The paths of the programs that are not built."""
    return [program for program in (*PROGRAMS.values(), TEST_CALLS) if not os.path.exists(program)]


def run(words, given=b"", program=FENCER, **more):
    """The status of a program and what it prints on standard output."""
    last.call = None if "env" in more else Call(program, words, given, more.get("cwd"))
    try:
        ran = subprocess.run([program, *words], input=given, capture_output=True, timeout=SECONDS, **more)
    except subprocess.TimeoutExpired as late:
        return f"still running after {SECONDS} seconds", late.stdout or b""
    schemas.hold(words, ran.stdout)
    return ran.returncode, ran.stdout


def certificate_of(litmus, options=(), costs=None):
    """The certificate of a placement."""
    with tempfile.TemporaryDirectory() as folder:
        certificate = os.path.join(folder, "certificate")
        run(["place", *options, *(["--costs", costs] if costs else []), "--certificate", certificate, litmus])
        with open(certificate, "rb") as file:
            return file.read()


def said_by(words):
    """What `fencer` says on standard error."""
    return subprocess.run([FENCER, *words], stdin=subprocess.DEVNULL, capture_output=True, timeout=SECONDS).stderr.decode()


def compiler():
    """The toolchain's own clang, or the one on the path."""
    page = subprocess.run(["rt", "doc"], capture_output=True, text=True).stdout.strip() if shutil.which("rt") else ""
    near = os.path.join(os.path.dirname(page), "toolchain", "bin", "clang")
    return near if os.path.exists(near) else shutil.which("clang")


def preloaded(folder, source):
    """A library that stands before the C library's own calls, or None where it can't be built; and what its compiler says."""
    clang = compiler()
    library = os.path.join(folder, "preloaded.so")
    if not clang:
        return None, "no clang"
    words = [clang, "-shared", "-fPIC", "-O1", "-o", library, os.path.join(HARNESS, source)]
    built = subprocess.run(words, capture_output=True, text=True)
    return (library if built.returncode == 0 else None), built.stderr


def watched(library, nth, words, given, program, **more):
    """What a program prints where its Nth call of a kind fails, and whether that call came."""
    reads, writes = os.pipe()
    env = {"LD_PRELOAD": library, "FAIL_NTH": str(nth), "FAIL_MARK": str(writes), **more}
    found = run(words, given, program, env=env, pass_fds=[writes])
    os.close(writes)
    met = os.read(reads, 1) == b"x"
    os.close(reads)
    return found, met


def failing_in_turn(library, words, given, program, **more):
    """What a program prints where its first call of a kind fails, its second, and so on, and whether that call came: up to the first run in which none fails."""
    with ThreadPoolExecutor() as pool:
        for first in itertools.count(1, SIDE_BY_SIDE):
            numbers = range(first, first + SIDE_BY_SIDE)
            for nth, (found, met) in zip(numbers, pool.map(lambda nth: watched(library, nth, words, given, program, **more), numbers)):
                yield nth, found, met
                if not met:
                    return
