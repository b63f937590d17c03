"""Ties: the fences of programs of which some gaps go together, by the states of the machine, and their certificates."""
import json
import os
import random
import re
import tempfile

from harness import EXAMPLES, FENCECHECK, Cases, bytes_of, example, example_files, expect, run, said_by, same, tell, write
from judges import conditions, ties
from judges.made_certificates import random_source
from judges.texts import canonical_of, test_of

RANDOM_PROGRAMS = 400
SEED = 75
KINDS = {"whole": [], "observed": ["--observed"], "condition": ["--condition"]}
WORKERS = ("1", "2", "8")
# of more ties not every union is listed
MOST_LISTED = 10
# programs, the options of `gaps`, the ties that are proposed, and what standard error says of them
PROPOSED = (
    ("SB.litmus", ["--ties"], b"0:1 1:1 1\n", "fencer: 0:1 1:1 before line 5 in P0 and P1\n"),
    ("SB.litmus", ["--same", "1"], b"0:1 1\n1:1 1\n", "fencer: warning: --same names one thread alone, and no other runs its code\n"),
    ("SB.litmus", ["--same", "0,2"], b"0:1 1\n1:1 1\n", "fencer: warning: --same names thread 2, and the last thread is P1\n"),
    ("n6.litmus", ["--ties"], b"0:1 1\n0:2 1\n1:1 1\n", ""),
    ("n6.litmus", ["--same", "1,0"], b"0:1 1\n0:2 1\n1:1 1\n", ""),
)


def words_of(kind):
    return "" if kind == "whole" else kind + " "


def example_path(name):
    return os.path.join(EXAMPLES, name)


def places(gaps):
    return "".join(f" {t}:{k}" for t, k in gaps)


class Files:
    """A program and its costs as files, beside a place for a certificate."""

    def __init__(self, folder, source, costs):
        self.litmus, self.costs, self.other, self.certificate = (os.path.join(folder, name) for name in ("litmus", "costs", "other", "certificate"))
        write(self.litmus, source)
        write(self.costs, costs)


def placed(name, files, test, tied, kind, options):
    """The answer is the best union of ties that serves, and its certificate is accepted for these ties; its gaps."""
    find = ties.best_set if len(tied) <= MOST_LISTED else ties.best_hitting_set
    cost, gaps = find(test, tied, ties.asker(test, ties.shown_by(test, canonical_of(bytes_of(files.litmus)), kind)))
    told = f"{words_of(kind)}cost {cost} set{places(gaps)}"
    words = ["place", *KINDS[kind], "--costs", files.costs, "--certificate", files.certificate, *options, files.litmus]
    status, text = run(words)
    same(f"the fences of {name}", (status, text.decode().split("\n")[0]), (0, "answer " + told))
    expect(f"the certificate of {name}", [files.litmus, files.certificate, files.costs], 0, f"accepted {told}\n".encode(), program=FENCECHECK)
    return gaps


def refused(name, files, tied, gaps):
    """A certificate is refused where a tie has one of its gaps and one more, and where a tie of it costs more."""
    for part, cost in tied:
        outside = [gap for other, _ in tied for gap in other if gap not in gaps]
        if part[0] in gaps and outside:
            write(files.other, f"{places([part[0], outside[0]]).strip()} {cost}\n".encode())
            expect(f"{name} with half a tie", [files.litmus, files.certificate, files.other], 1, b"refused check 1 Set\n", program=FENCECHECK)
        if part[0] in gaps:
            rows = [(own, price + 1 if own is part else price) for own, price in tied]
            write(files.other, ties.cost_file(random.Random(0), rows))
            expect(f"{name} with a tie that costs more", [files.litmus, files.certificate, files.other], 1, b"refused check 2 Cost\n", program=FENCECHECK)
            return


# cost texts for the gaps 0:1, 0:2 and 1:1, with the file of all ties that `fencer gaps` prints of each
FILES = (
    (b"", "0:1 1\n0:2 1\n1:1 1\n"),
    (b"0:1 0:2 5", "0:1 0:2 5\n1:1 1\n"),
    (b"\t0:2 \t 00:01  1:1 7\r\n", "0:1 0:2 1:1 7\n"),
    (b"1:1 0:2 3\n\n0:1 2\n", "0:1 2\n0:2 1:1 3\n"),
)
# a program of which one thread waits with two tries
TRIES = b"""X86 tries
{ }
P0          | P1          ;
MOV [x],$1  | MOV [y],$1  ;
MOV EAX,[y] | MOV EAX,[x] ;
CMP EAX,$1  |             ;
JE end      |             ;
MOV EAX,[y] |             ;
CMP EAX,$1  |             ;
JE end      |             ;
end:        |             ;
exists (1:EAX=0)
"""
# programs, what their gaps cost, the options of `gaps`, and the ties that are proposed: each costs as much as the dearest of its gaps
DEAREST = (
    (example("SB.litmus"), b"0:1 5\n1:1 7\n", ["--ties"], b"0:1 1:1 7\n"),
    (example("SB.litmus"), b"0:1 7\n1:1 5\n", ["--same", "0,1"], b"0:1 1:1 7\n"),
    (example("SB.litmus"), b"1:1 3\n", ["--same", "1,0"], b"0:1 1:1 3\n"),
    (example("SB.litmus"), b"0:1 5\n1:1 7\n", ["--same", "0"], b"0:1 5\n1:1 7\n"),
    (TRIES, b"0:1 2\n0:4 9\n0:2 3\n1:1 7\n", ["--tries"], b"0:1 0:4 9\n0:2 0:5 3\n0:3 0:6 1\n1:1 7\n"),
    (TRIES, b"0:4 2\n0:1 9\n0:6 4\n1:1 7\n", ["--ties", "--tries"], b"0:1 0:4 9\n0:2 0:5 1\n0:3 0:6 4\n1:1 7\n"),
    (TRIES, b"0:4 2\n0:5 3\n1:1 7\n", ["--same", "0,1", "--tries"], b"0:1 0:4 1:1 7\n0:2 0:5 3\n0:3 0:6 1\n"),
)
THREE_GAPS = b"X86 three\n{ }\nP0 | P1 ;\nMOV [x],$1 | MOV [y],$1 ;\nMOV EAX,[y] | MOV EAX,[x] ;\nMOV EBX,[x] | ;\nexists (0:EAX=0)\n"


def explained(litmus, files, tied):
    """The reasons of an answer, a block for each of its ties."""
    answer, *blocks = re.split(r"^without ", run(["why", "--costs", files.costs, files.litmus])[1].decode(), flags=re.M)
    chosen = set(re.search(r" set(.*)$", answer.split("\n")[0])[1].split())
    parts = [{f"{t}:{k}" for t, k in gaps} for gaps, _ in tied]
    wanted = [part for part in parts if part <= chosen]
    same(f"the ties that {litmus} needs", [set(block.split("\n")[0].split()) for block in blocks], wanted)
    sequential = run(["outcomes", "--model", "sequential", litmus])[1].decode().split("\n")
    for part, block in zip(wanted, blocks):
        labels = re.search(r"^run (.*)$", block, re.M)[1].split()
        outcome, passed, *_ = run(["replay", litmus, *labels])[1].decode().split("\n")
        gaps = set(passed.split()[1:])
        right = gaps & part and not gaps & (chosen - part) and outcome not in sequential and f"{outcome}\n{passed}\n" in block
        tell(f"why {litmus} needs {' '.join(sorted(part))}", right, block, "a foreign run that passes a gap of this tie alone")


class Ties(Cases):
    def test_files(self):
        """Cost files of which lines name several gaps, as they are read and written again."""
        for spelled, wanted in FILES:
            with tempfile.NamedTemporaryFile() as costs:
                write(costs.name, spelled)
                expect(f"the file of all ties of {spelled}", ["gaps", "--template", "--costs", costs.name, "-"], 0, wanted.encode(), THREE_GAPS)
        with tempfile.NamedTemporaryFile() as costs:
            write(costs.name, b"0:1 1:1 5\n")
            listed = b"0:1 line 5 MOV EAX,[y] cost 5 with 1:1\n0:2 line 6 MOV EBX,[x] cost 1\n1:1 line 5 MOV EAX,[x] cost 5 with 0:1\n"
            expect("the list of gaps with ties", ["gaps", "--costs", costs.name, "-"], 0, listed, THREE_GAPS)

    def test_examples(self):
        """The examples and the atlas, where the lines go together that threads share: each kind of answer, whole and early trees."""
        for number, litmus in enumerate(example_files()):
            test, tied = test_of(bytes_of(litmus)), ties.shared_lines(run(["gaps", litmus])[1].decode())
            with tempfile.TemporaryDirectory() as folder:
                files = Files(folder, bytes_of(litmus), ties.cost_file(random.Random(number), tied))
                for kind in KINDS:
                    options = ["--workers", WORKERS[number % 3], *(["--trees", "early"] if number % 2 else [])]
                    placed(f"the lines of {litmus}, {kind}", files, test, tied, kind, options)

    def test_reasons(self):
        """Why each tie of the answers of the examples is needed: a run that passes a gap of it and none of the others, with an outcome that no sequential run has."""
        for litmus in example_files():
            tied = ties.shared_lines(run(["gaps", litmus])[1].decode())
            with tempfile.TemporaryDirectory() as folder:
                files = Files(folder, bytes_of(litmus), ties.cost_file(random.Random(1), tied))
                explained(litmus, files, tied)
                several = [[f"{t}:{k}" for t, k in gaps] for gaps, _ in tied if len(gaps) > 1]
                for command in ("why", "place", "gaps"):
                    document = json.loads(run([command, "--json", "--costs", files.costs, files.litmus])[1])
                    same(f"the ties of {litmus} in the document of {command}", document.get("ties", []), several)

    def test_lines(self):
        """The ties that are proposed of threads that are alike, of threads that are named, and of tries; and what is said of them."""
        for litmus, words, lines, said in PROPOSED:
            words = ["gaps", *words, example_path(litmus)]
            expect(f"the ties by {' '.join(words)}", words, 0, lines)
            same(f"the lines of the ties by {' '.join(words)}", said_by(words), said)

    def test_dearest(self):
        """The ties that are proposed with a file of costs: each costs what its dearest gap costs."""
        for source, spelled, words, wanted in DEAREST:
            with tempfile.NamedTemporaryFile() as costs:
                write(costs.name, spelled)
                expect(f"the ties by {' '.join(words)} where gaps cost {spelled}", ["gaps", *words, "--costs", costs.name, "-"], 0, wanted, source)

    def test_random(self):
        """Random programs with random ties: each kind of answer, by 1, 2 and 8 workers, whole and early trees."""
        draw = random.Random(SEED)
        for number in range(RANDOM_PROGRAMS):
            source = draw.choice((random_source, conditions.random_program, ties.random_ring))(draw)
            test, kind = test_of(source), draw.choice(list(KINDS))
            tied, costs = ties.random_lines(draw, test) if source.startswith(b"X86 ring") else ties.random_ties(draw, test.gaps())
            options = ["--workers", draw.choice(WORKERS), *draw.choice(([], [], ["--trees", "whole"], ["--trees", "early"]))]
            with tempfile.TemporaryDirectory() as folder:
                files = Files(folder, source, costs)
                name = f"random program {number}, {kind} {' '.join(options)}"
                gaps = placed(name, files, test, tied, kind, options)
                refused(name, files, tied, gaps)
