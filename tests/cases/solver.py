"""The solver, the search and the hunt: what they answer call by call, how many questions a placement takes, and that a hunt closes."""
import itertools
import re

from harness import TEST_CALLS, Cases, bytes_of, certificate_of, expect, expect_call, in_data, lines, printed, run, tell
from judges.texts import test_of

WORKERS = (1, 2, 8, 32)


def replayed_runs(call, litmus, told):
    """Each run that the solver prints is replayed to its outcome, and a foreign one passes the gaps that the solver says."""
    outcomes, passed, runs = ([line for line in told if line.startswith(front)] for front in ("outcome:", "passed", "run "))
    model = "sequential" if call == "sequential" else "buffered"
    tell(f"a run of each outcome by {call} of {litmus}", len(runs) == len(outcomes), told)
    for outcome, gaps, labels in itertools.zip_longest(outcomes, passed, runs, fillvalue="passed\n"):
        words = ["replay", "--model", model, litmus, *labels.split()[1:]]
        expect(f"the run {labels!r} by {call} of {litmus}", words, 0, (outcome + gaps).encode())


def gap_tree_nodes(litmus):
    """How many nodes the gap tree of a placement has."""
    gaps = certificate_of(litmus).split(b"\ngaps ")[1].split()
    return gaps.count(b"P") + gaps.count(b"B")


def costs_of(gaps, path):
    """What each gap costs by a cost file: a line gives a place and its cost, and any other gap costs 1."""
    told = dict(line.split() for line in bytes_of(path).decode().splitlines()) if path else {}
    return [told.get(f"{t}:{k}", "1") for t, k in gaps]


class Solver(Cases):
    def test_calls(self):
        """What the solver answers: the lines that leave it no choice, which come first; and that its runs are replayed to their outcomes."""
        for call, file, text in lines("solver.tsv"):
            litmus = in_data(file)
            status, found = run([], call.encode() + b"\n" + bytes_of(litmus), TEST_CALLS)
            right = status == 0 and found.startswith(printed(text))
            tell(f"{call} of {file}", right, f"{status} {found!r}", f"status 0, and lines that begin with {printed(text)!r}")
            # (a hunt prints runs that its script gave)
            if "--observed" not in call and not call.startswith("hunt "):
                replayed_runs(call, litmus, found.decode().splitlines(keepends=True))

    def test_questions(self):
        """How many sets the placer asks its solver about, one of which serves, and how many nodes its gap tree has: no more than another placer's."""
        for file, most, most_nodes in lines("asks.tsv"):
            litmus = in_data(file)
            status, found = run([], b"place 1\n" + bytes_of(litmus), TEST_CALLS)
            told = re.search(rb"\nserve 1\nasks ([0-9]+)\n", found)
            tell(f"questions for {file}", status == 0 and told and int(told[1]) <= int(most), f"{status} {found!r}", f"at most {most}")
            nodes = gap_tree_nodes(litmus)
            tell(f"the gap tree of {file}", nodes <= int(most_nodes), f"{nodes} nodes", f"at most {most_nodes}")

    def test_hunts(self):
        """That a hunt closes: `fencer place` searches again where one does not, so its answers do not show it. Each placement of `placed.tsv` is found by
        one hunt alone, by 1, 2, 8 and 32 workers."""
        for name, file, costs, options, gaps, _ in lines("placed.tsv"):
            text = bytes_of(in_data(file))
            given = costs_of(test_of(text).gaps(), costs and in_data(costs))
            for workers in WORKERS:
                call = " ".join(["hunt-with", *options.split(), str(workers), *(given if costs else [])])
                expect_call(call, text, " ".join(["set", *gaps.split()]).encode() + b"\n", f"{name}: {call}")
