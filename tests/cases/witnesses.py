"""Witnesses: the runs of `fencer witness`, by the states of the machine alone. Where an outcome has the truth, the run that is printed is one to such
an outcome; otherwise it is said that there is none."""
import itertools
import json
import random
import tempfile

from cases.progress import on_terminal
from harness import EXAMPLES, MODELS, Cases, bytes_of, example_files, in_data, litmus_cases, run, said_by, same, tell, write
from judges import conditions, documents, machine, traces
from judges.texts import canonical_of, test_of

RANDOM_PROGRAMS = 300
SEED = 61


class Program:
    """A program with its condition, and which truths its outcomes have."""

    def __init__(self, source):
        self.source, self.test, self.canonical = source, test_of(source), canonical_of(source)
        self.found = {}

    def truth(self, outcome):
        return documents.meets(self.canonical.splitlines()[-1], conditions.named(self.test, outcome))

    def truths(self, model, fenced):
        key = model, fenced if model == "buffered" else ()
        if key not in self.found:
            self.found[key] = {self.truth(outcome) for outcome in machine.outcomes(self.test, *key)}
        return self.found[key]

    def is_witness(self, text, model, fenced, meets):
        """Whether a text is that of a run with this truth, on the program with these gaps fenced."""
        word, *labels = text.split("\n")[0].split()
        if word != "run":
            return False
        run = machine.replayed(self.test, labels, {self.test.gaps()[gap] for gap in fenced}, model == "buffered")
        if run is None or self.truth(run[0]) != meets:
            return False
        outcome, gaps = run
        passed = " ".join(["passed", *(f"{t}:{k}" for t, k in sorted(gaps))])
        lines = [" ".join(["run", *labels]) + "\n", traces.table(self.test, self.canonical, model, labels), self.test.line(outcome), passed + "\n"]
        return text == "".join(lines)


def sought(name, program, model, fenced, meets):
    """What is printed for a run of a truth, with the gaps of these numbers fenced."""
    places = [program.test.gaps()[gap] for gap in fenced]
    options = ["--model", model, *([] if meets else ["--not"]), *(["--fences", ",".join(f"{t}:{k}" for t, k in places)] if places else [])]
    status, text = run(["witness", *options, "-"], program.source)
    text = text.decode()
    right = program.is_witness(text, model, fenced, meets) if meets in program.truths(model, fenced) else text == documents.NO_RUN[meets]
    tell(f"the run of {name} with {options}", status == 0 and right, f"{text!r}\n  {program.source!r}")
    if text.startswith("run"):
        again = run(["trace", "--model", model, "-", *text.split("\n")[0].split()[1:]], program.source)
        same(f"the trace of {name} with {options}", again, (0, text.split("\n", 1)[1].encode()))


def named_programs():
    """The programs of the examples, of the atlas and of the conditions' answers."""
    files = [*example_files(), *(in_data("condition", case + ".litmus") for case in litmus_cases("condition"))]
    return [(file, Program(bytes_of(file))) for file in files]


def sought_each(programs, draw):
    """Runs of both truths in both machines, with no gap fenced, and in the one with store buffers with some, and with all."""
    for name, program in programs:
        gaps = range(len(program.test.gaps()))
        some = {(), tuple(gaps), *(tuple(gap for gap in gaps if draw.random() < 0.4) for _ in range(2))}
        for fenced, meets, model in itertools.product(sorted(some), (True, False), MODELS):
            if model == "buffered" or not fenced:
                sought(name, program, model, fenced, meets)


class Witnesses(Cases):
    def test_runs(self):
        """Runs that are sought in the examples, in the atlas, in programs with a condition's answer, and in random ones."""
        draw = random.Random(SEED)
        programs = named_programs()
        programs += [(f"random program {number}", Program(conditions.random_program(draw))) for number in range(RANDOM_PROGRAMS)]
        sought_each(programs, draw)

    def test_said(self):
        """On a terminal it is said in the words of the condition's quantifier what is found, as the document says it; elsewhere it is not."""
        text = bytes_of(f"{EXAMPLES}/SB.litmus").decode()
        for condition in ("exists (0:EAX=0 /\\ 1:EAX=0)", "~exists (0:EAX=0 /\\ 1:EAX=0)", "forall (0:EAX=1 \\/ 1:EAX=1)", "forall (x=1)", "~exists (x=0)"):
            with tempfile.NamedTemporaryFile() as file:
                write(file.name, text.replace("exists (0:EAX=0 /\\ 1:EAX=0)", condition).encode())
                for options in ([], ["--not"], ["--model", "sequential"], ["--fences", "0:1,1:1", "--not"]):
                    printed = run(["witness", *options, file.name])[1]
                    says = json.loads(run(["witness", "--json", *options, file.name])[1])["says"]
                    same(f"what a terminal shows of witness {' '.join(options)} of {condition}", on_terminal(["witness", *options, file.name]), (printed, [f"fencer: {says}"]))
                    same(f"what standard error has of witness {' '.join(options)} of {condition}", said_by(["witness", *options, file.name]), "")
