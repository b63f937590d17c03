"""Threads: which are started with `--workers`, and how many there are at a time.

A library that stands before the C library's own calls marks the start and the end of each thread.
"""
import hashlib
import struct
import tempfile

from cases.large import EXCHANGES, ORDERS, TWO_THREADS
from harness import MODELS, PreloadedCases, example, run, same, tell

WORKERS = 3
LARGE = (("two threads", TWO_THREADS), ("exchanges", EXCHANGES), ("orders", ORDERS))
# each of its searches has more steps than one that is not cut
LONG = b"""X86 long
{ y=2; }
 P0          | P1          | P2           ;
 MOV [z],EAX | MOV [z],$2  | MOV [x],EDI  ;
 MOV [z],$1  | MOV EAX,[x] | XCHG [z],EDI ;
 MOV [x],$2  | MOV EAX,[z] | XCHG [y],ESI ;
 MOV EDX,[x] | MOV [y],$1  | MOV EDI,[x]  ;
 MOV [x],$2  | MOV [y],EAX | MOV ESI,[y]  ;
 MOV EAX,[y] | MOV [x],$1  | MOV ECX,[y]  ;
 MOV EDX,[z] | MOV EDI,[z] | MOV EDI,[y]  ;
 MOV [y],$2  | MOV [z],$1  | MOV [x],$1   ;
exists (true)
"""
SHARED = (["place", "--certificate", "/dev/stdout"], ["outcomes", "--model", "sequential", "--runs"])
SMALL = ("SB", "MP", "n6", "IRIW", "nothing")
HUNTED = ("SB", "R", "2+2W", "n6")
# which commands start threads: those that hunt, where the program is not large
COMMANDS = (["place"], ["place", "--observed"])


def marked(library, words, given):
    """What a call prints, and the most threads that it had at a time."""
    with tempfile.TemporaryFile("a+b") as file:
        found = run(words, given, env={"LD_PRELOAD": library, "THREAD_MARKS": str(file.fileno())}, pass_fds=[file.fileno()])
        file.seek(0)
        marks = [mark for mark, in struct.iter_unpack("l", file.read())]
    most = threads = 1
    for mark in marks:
        threads += 1 if mark < 0 else -1
        most = max(most, threads)
    return found, most


def digest(found):
    """A status, and a hash of what is printed."""
    return found[0], hashlib.sha256(found[1]).hexdigest()


class Threads(PreloadedCases):
    source = "mark_threads.c"

    def test_hunts(self):
        """Several threads hunt, and there are never more of them than workers."""
        for name in HUNTED:
            source = example(name + ".litmus")
            for command in COMMANDS:
                what, words = f"{' '.join(command)} of {name}", [*command, "-"]
                alone, most = marked(self.library, words, source)
                same(f"{what} by one worker, threads", most, 1)
                found, most = marked(self.library, [*words, "--workers", str(WORKERS)], source)
                tell(f"{what} by {WORKERS} workers", found == alone and found[0] == 0, found, alone)
                tell(f"{what} by {WORKERS} workers, threads", 1 < most <= WORKERS, most, f"2 to {WORKERS}")

    def test_parts(self):
        """Threads share a long search, never more of them than workers. What is found does not depend on how many there are."""
        for command in SHARED:
            alone, most = marked(self.library, [*command, "-"], LONG)
            same(f"{command[0]} of a long search by one worker, status and threads", (alone[0], most), (0, 1))
            for workers in (2, 8):
                what = f"{command[0]} of a long search by {workers} workers"
                found, most = marked(self.library, [*command, "--workers", str(workers), "-"], LONG)
                same(f"{what}, a hash", digest(found), digest(alone))
                tell(f"{what}, threads", 1 < most <= workers, most, f"2 to {workers}")

    def test_lists(self):
        """A short list of outcomes starts no thread, whatever the number of workers."""
        sources = [*((name, example(name + ".litmus")) for name in SMALL), *((name, text.encode()) for name, text in LARGE)]
        for name, source in sources:
            for model in MODELS:
                found, most = marked(self.library, ["outcomes", "--model", model, "--workers", "8", "-"], source)
                same(f"{model} outcomes of {name} by 8 workers, threads", (found[0], most), (0, 1))
