"""Outcomes: the lists that are printed, the two ways to find them, the runs that are listed with them, and the sketches on the way."""
import itertools
import random

from harness import (
    MODELS, Cases, bytes_of, called, example_files, expect, in_data, lines, litmus_cases, outcomes_in, run, same, sources_of, tell, worked_files,
)
from judges import candidates, conditions, documents, machine
from judges.texts import canonical_of, test_of

MOST_GAPS = 128
RANDOM_PROGRAMS = 200
SEED = 44


def sketches(source, mode):
    """What makes the calls of the sketches of a litmus text in one mode."""
    return lambda script: called(f"sketch {mode} {script}", source).decode()


def listed(litmus, model, gaps=(), searched=False):
    """The outcomes of a litmus file with the gaps of these numbers fenced: the same from candidate executions and from the machine's states, and each
    candidate has its run. Where asked, each sketch on the way has a cycle exactly where a plain search of its edges finds one."""
    source = bytes_of(litmus)
    test = test_of(source)
    fenced = [gap for gap in gaps if gap < len(test.gaps())]
    mode, unions = ("sequential", "s") if model == "sequential" else (",".join(map(str, fenced)) or "-", "lg")
    try:
        ended = list(candidates.outcomes(sketches(source, mode), test.code, len(test.memory), unions if searched else ""))
    except candidates.Refused as refused:
        ended = [refused]
    walked = machine.outcomes(test, model, fenced)
    right = sorted(set(ended)) == walked
    tell(f"{model} outcomes of {litmus} with {fenced} fenced", right, f"by candidates {ended!r}", f"by the machine {walked!r}")
    return b"".join(test.line(outcome).encode() for outcome in walked) if right else None


def items_of(line):
    return line.split()[1:]


def leaves(test, model, labels, outcome, observed, fenced=()):
    """Whether a run of the machine with these labels leaves what the line of an outcome shows: all of it, or with `--observed` a part."""
    end = machine.end_of(test, labels, fenced, model)
    if end is None:
        return False
    shown, whole = items_of(outcome), items_of(test.line(end))
    return set(shown) <= set(whole) if observed else shown == whole


def listed_runs(test, name, source, model, options):
    """The outcomes and the other lines are those that are printed without runs, and each run ends in the outcome of the line before it."""
    words = ["outcomes", "--model", model, *options]
    status, alone = run([*words, "-"], source)
    found, text = run([*words, "--runs", "-"], source)
    name = f"{' '.join(words)} {name}"
    shown, plain = text.decode().splitlines(), alone.decode().splitlines()
    tell(f"{name} with runs: the other lines", (found, [line for line in shown if line.split(" ")[0] != "run"]) == (status, plain) and status == 0, text, plain)
    outcomes = [place for place, line in enumerate(shown) if line.startswith("outcome:")]
    runs = [place for place, line in enumerate(shown) if line.split(" ")[0] == "run"]
    tell(f"{name} with runs: one after each outcome", outcomes and runs == [place + 1 for place in outcomes], text)
    for outcome, labels in zip(outcomes, runs):
        tell(f"{name}: {shown[labels]}", leaves(test, model, items_of(shown[labels]), shown[outcome], "--observed" in options), shown[outcome])


def listed_sources():
    """Programs of every kind, and random ones, whose outcomes are printed with runs."""
    files = [*example_files(), *(in_data(folder, case + ".litmus") for folder in ("whole", "observed") for case in litmus_cases(folder))]
    yield from ((file, bytes_of(file)) for file in files)
    draw = random.Random(SEED)
    yield from ((f"of a random program {number}", conditions.random_program(draw)) for number in range(RANDOM_PROGRAMS))


def fenced_list(name, source, fenced):
    """The outcomes of a program with the gaps of these numbers fenced, and what they show of its condition, as the machine's states give them; each
    run that is listed is one of that machine."""
    test, canonical = test_of(source), canonical_of(source)
    places = [test.gaps()[gap] for gap in fenced]
    words = ["outcomes", "--fences", ",".join(f"{t}:{k}" for t, k in places)]
    walked, condition = machine.outcomes(test, "buffered", fenced), canonical.splitlines()[-1]
    met = {documents.meets(condition, conditions.named(test, outcome)) for outcome in walked}
    holds = {"exists": True in met, "~exists": True not in met, "forall": False not in met}[condition.split(" ")[0]]
    often = "Sometimes" if len(met) > 1 else "Always" if True in met else "Never"
    lines = [f"outcomes {len(walked)}\n", *map(test.line, walked), f"observation {often}\n", f"condition {'holds' if holds else 'fails'}\n"]
    same(f"{' '.join(words)} {name}", run([*words, "--check", "-"], source), (0 if holds else 3, "".join(lines).encode()))
    shown = run([*words, "--runs", "-"], source)[1].decode().splitlines()
    pairs = list(zip(shown[1:-2:2], shown[2:-2:2]))
    right = len(shown) == 3 + 2 * len(walked) and all(leaves(test, "buffered", items_of(labels), outcome, False, fenced) for outcome, labels in pairs)
    tell(f"{' '.join(words)} {name} with runs", right and [f"{outcome}\n" for outcome, _ in pairs] == lines[1:-2], shown)


class Outcomes(Cases):
    def test_two_ways(self):
        """Outcomes as an independent program gives them, and with some gaps fenced those on which candidates and the machine agree."""
        for case, file, gaps in lines("outcomes", "cases.tsv"):
            litmus = in_data("outcomes", file)
            for model in MODELS:
                printed = bytes_of(in_data("outcomes", f"{case}.{model}"))
                expect(f"{model} outcomes of {case}", ["outcomes", "--model", model, litmus], 0, printed)
                same(f"{model} outcomes of {case}, listed", listed(litmus, model), outcomes_in(printed))
            listed(litmus, "buffered", [int(gap) for gap in gaps.split()])

    def test_lists(self):
        """Whole outcomes of programs of every kind, and outcomes as far as a test names them, as an independent program prints them."""
        for folder, words, kind in (("whole", [], ""), ("observed", ["--observed"], "observed-")):
            for case, model in itertools.product(litmus_cases(folder), MODELS):
                printed = bytes_of(in_data(folder, f"{case}.{kind}{model}"))
                for litmus in sources_of(folder, case):
                    expect(f"{kind}{model} outcomes of {litmus}", ["outcomes", *words, "--model", model, litmus], 0, printed)

    def test_runs(self):
        """The runs of `fencer outcomes --runs`, each gone through step by step by the machine."""
        for name, source in listed_sources():
            test = test_of(source)
            for model, options in itertools.product(MODELS, ([], ["--observed"])):
                listed_runs(test, name, source, model, options)

    def test_fenced(self):
        """Outcomes with some gaps fenced and with all, of the examples and of random programs, as the machine's states give them."""
        draw = random.Random(SEED)
        programs = [(file, bytes_of(file)) for file in example_files()]
        programs += [(f"of a random program {number}", conditions.random_program(draw)) for number in range(RANDOM_PROGRAMS)]
        for name, source in programs:
            gaps = range(len(test_of(source).gaps()))
            for fenced in sorted({tuple(gaps), tuple(gap for gap in gaps if draw.random() < 0.4)} - {()}):
                fenced_list(name, source, fenced)

    def test_worked(self):
        """The worked examples: with all gaps fenced each has its sequential outcomes, and with none it has those among others. Cycles are compared in
        these modes, and with each gap fenced alone."""
        for litmus in worked_files():
            sequential, buffered, fenced = (listed(litmus, *how, searched=True) for how in (["sequential"], ["buffered"], ["buffered", range(MOST_GAPS)]))
            for gap in range(len(test_of(bytes_of(litmus)).gaps())):
                listed(litmus, "buffered", [gap], searched=True)
            for model, right in zip(MODELS, (sequential, buffered)):
                status, found = run(["outcomes", "--model", model, litmus])
                same(f"{model} outcomes of {litmus}, printed and listed", (status, outcomes_in(found)), (0, right))
            same(f"{litmus} with all gaps fenced", fenced, sequential)
            more = sequential and buffered and set(sequential.splitlines()) <= set(buffered.splitlines())
            tell(f"{litmus} with no gap fenced", more, buffered, f"{sequential!r} and others")

    def test_each_sketch(self):
        """On every sketch of the worked examples that some order of choices goes through, and so on each that the solver meets, a cycle is found exactly
        where a plain search of its edges finds one: sequentially, and with each set of gaps fenced."""
        for (file,) in lines("outcomes", "worked.tsv"):
            source = bytes_of(in_data("outcomes", file))
            test = test_of(source)
            count = len(test.gaps())
            sets = [",".join(map(str, gaps)) or "-" for size in range(count + 1) for gaps in itertools.combinations(range(count), size)]
            for mode, unions in (("sequential", "s"), *((gaps, "lg") for gaps in sets)):
                fault = None
                try:
                    candidates.compare_each(sketches(source, mode), test.code, len(test.memory), unions)
                except candidates.Refused as refused:
                    fault = refused
                tell(f"the cycles of every sketch of {file}: {mode}", fault is None, fault)
