"""Large programs: of more than 6 combinations of traces. Their lists of outcomes with runs, and whatever the number of workers the same answer with the
same trees.

The outcomes are those that `judges/machine.py` finds by walking the machine's states, and each run leaves the outcome that is printed before it.
"""
import hashlib
import os
import tempfile

from cases.explanations import explained
from cases.outcomes import listed_runs
from cases.progress import MOST_SEARCHED, read_program, reads
from harness import FENCECHECK, MODELS, Cases, accepting, bytes_of, certificate_of, in_data, lines, run, same, tell, write
from judges import machine
from judges.texts import test_of

WORKERS = (1, 2, 3, 8, 32)
TWO_THREADS = """X86 two-threads
{ }
 P0          | P1          ;
 MOV [x],$1  | MOV [y],$1  ;
 MOV EAX,[y] | MOV EAX,[x] ;
 MOV EBX,[x] | MOV EBX,[y] ;
 MOV ECX,[y] | MOV ECX,[x] ;
 MOV [x],$2  | MOV [y],$2  ;
 MOV EDX,[y] | MOV EDX,[x] ;
 MOV ESI,[x] | MOV ESI,[y] ;
exists (0:EAX=0 /\\ 1:EAX=0)
"""
EXCHANGES = """X86 exchanges
{ }
 P0           | P1           | P2          ;
 MOV EAX,$1   | MOV EAX,$2   | MOV [x],$3  ;
 XCHG [x],EAX | XCHG [x],EAX | MOV EAX,[y] ;
 MOV [y],$1   | MOV EBX,[y]  | MOV EBX,[x] ;
 MOV EBX,[x]  | MOV ECX,[x]  | MOV ECX,[y] ;
 MOV ECX,[y]  |              |             ;
exists (0:EAX=2 /\\ 1:EAX=1)
"""
# each thread's two stores stay in order: 8! / (2! 2! 2! 2!) orders
ORDERS = """X86 orders
{ }
 P0          | P1          | P2          | P3          ;
 MOV [x],$1  | MOV [x],$1  | MOV [x],$1  | MOV [x],$1  ;
 MOV [x],$2  | MOV [x],$2  | MOV [x],$2  | MOV [x],$2  ;
 MOV EAX,[x] | MOV EAX,[x] | MOV EAX,[x] | MOV EAX,[x] ;
 MOV EBX,[x] |             |             |             ;
exists (0:EAX=1 /\\ 1:EAX=1)
"""
MOST_WHOLE = 1_000
PROGRAMS = (("reads", reads(5, 5, 5)), ("two threads", TWO_THREADS), ("exchanges", EXCHANGES), ("orders", ORDERS))


def listed(name, source):
    """Lists with their runs."""
    test = test_of(source)
    for model in MODELS:
        words = ["outcomes", "--runs", "--model", model, "-"]
        alone = run(words, source)
        same(f"{model} outcomes of {name} with workers", run([*words, "--workers", "8"], source), alone)
        walked = [test.line(outcome) for outcome in machine.outcomes(test, model, ())]
        same(f"{model} outcomes of {name} by the machine", [line + "\n" for line in alone[1].decode().splitlines() if line.startswith("outcome:")], walked)
        listed_runs(test, name, source, model, [])


def settled(certificate):
    """What a certificate has whatever the number of workers, up to the tree of the sequential outcomes and of the tree for the set: of each its bytes and a
    hash. Another worker may be the first to show that a set doesn't serve, so the other runs and the gap tree may differ."""
    front, _, rest = certificate.partition(b"\nruns ")
    fenced = next((line for line in rest.split(b"\n") if line.startswith(b"fenced ")), b"")
    return [(len(part), hashlib.sha256(part).hexdigest()) for part in (front, fenced) if part]


def placed(name, litmus):
    """Answers by several numbers of workers, and their certificates."""
    for options in ([], ["--observed"], ["--trees", "whole"], ["--observed", "--trees", "whole"]):
        alone = run(["place", *options, litmus])
        trees = {}
        for workers in WORKERS:
            what = f"the answer for {name} {options} with {workers} workers"
            with tempfile.NamedTemporaryFile() as certificate:
                found = run(["place", *options, "--workers", str(workers), "--certificate", certificate.name, litmus])
                tell(what, found == alone and alone[0] == 0, found, alone)
                same(f"{what}: its certificate", run([litmus, certificate.name], program=FENCECHECK), accepting(alone[1]))
                trees[workers] = settled(bytes_of(certificate.name))
            tell(f"{what}: its trees", trees[workers] == trees[1] and len(trees[1]) == 2, trees[workers], trees[1])


class Large(Cases):
    def test_size(self):
        """The programs are large. Their certificates are of version 1 or 2 up to 1,000 combinations of traces, and of version 4 above."""
        for name, text in PROGRAMS:
            with tempfile.TemporaryDirectory() as folder:
                litmus = os.path.join(folder, "made.litmus")
                write(litmus, text.encode())
                count = read_program(litmus).combinations()
                tell(f"{name} is large", count > MOST_SEARCHED, count, f"more than {MOST_SEARCHED} combinations")
                for options, whole in (([], b"1"), (["--observed"], b"2")):
                    version = certificate_of(litmus, options).split()[1]
                    same(f"the version of the certificate of {name} {options}", version, b"4" if count > MOST_WHOLE else whole)

    def test_lists(self):
        """Lists of outcomes with their runs, by the machine."""
        for name, text in PROGRAMS:
            listed(name, text.encode())

    def test_answers(self):
        """Answers by 1, 2, 3, 8 and 32 workers, their certificates, and the trees in these."""
        for name, text in PROGRAMS:
            with tempfile.TemporaryDirectory() as folder:
                litmus = os.path.join(folder, "made.litmus")
                write(litmus, text.encode())
                placed(name, litmus)

    def test_reasons(self):
        """Why the fences of their answers are needed."""
        for name, text in PROGRAMS:
            with tempfile.TemporaryDirectory() as folder:
                litmus = os.path.join(folder, f"{name.replace(' ', '-')}.litmus")
                write(litmus, text.encode())
                for options in ([], ["--observed"], ["--condition"]):
                    explained(litmus, options)

    def test_asked(self):
        """The answers of the programs of `asks.tsv`, most of which are not large."""
        for file, _, _ in lines("asks.tsv"):
            placed(os.path.basename(file), in_data(file))
