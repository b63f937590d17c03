"""Runs: what a replay prints, the tables of `fencer trace`, and the graphs of runs."""
import itertools
import os
import tempfile

from harness import (
    EXAMPLES, MODELS, Cases, bytes_of, example_files, expect, in_data, lines, printed, run, same, sources_of, tell,
)
from judges import graphs, machine
from judges.texts import drawn, execution_of, test_of


def traced(litmus, model, labels, status, shown):
    """The table of a run, and its graph where it is a run."""
    words = ["trace", "--model", model, litmus, *labels]
    expect(f"trace of {litmus}: {model} {' '.join(labels)}", words, status, shown)
    if status == 0:
        graph_of(litmus, model, labels, shown)


def graph_of(litmus, model, labels, printed_alone):
    """The graph of a run is the execution that `graphs` works out from the states of the machine, and nothing else is printed."""
    name = f"graph of {litmus}: {model} {labels}"
    with tempfile.TemporaryDirectory() as folder:
        file = os.path.join(folder, "graph")
        same(f"{name}: what is printed", run(["trace", "--model", model, "--dot", file, litmus, *labels]), (0, printed_alone))
        text = bytes_of(file).decode()
    test, title = execution_of(litmus, model, labels), bytes_of(litmus).split()[1].decode()
    runs = list(graphs.read(text))
    tell(name, len(runs) == 1 and graphs.is_drawn(runs[0], title, test), text)


class Runs(Cases):
    def test_replays(self):
        """Replays; where the same test is written in another way too (`.wild`), both print the same."""
        for folder in ("replays", "made", "whole", "large"):
            for case, model, labels, status, text in lines(folder, "replays.tsv"):
                for litmus in sources_of(folder, case):
                    words = ["replay", "--model", model, litmus, *labels.split()]
                    expect(f"replay of {litmus}: {model} {labels}", words, int(status), printed(text))

    def test_tables(self):
        """Tables of runs, as `traces` draws them from the states of the machine, and after each what the replay prints."""
        for folder in ("replays", "made", "whole"):
            for case, model, labels, status, text in lines(folder, "replays.tsv"):
                litmus = in_data(folder, case + ".litmus")
                table = drawn(litmus, model, labels.split()) if status == "0" else b""
                traced(litmus, model, labels.split(), int(status), table + printed(text))

    def test_examples(self):
        """The table and the graph of a run of each example, in which the threads take turns."""
        for litmus, model in itertools.product(example_files(), MODELS):
            labels = machine.run_in_turn(test_of(bytes_of(litmus)), model)
            status, text = run(["replay", "--model", model, litmus, *labels])
            tell(f"{litmus}: {model} {labels} is a run", status == 0, text)
            traced(litmus, model, labels, 0, drawn(litmus, model, labels) + text)

    def test_graph_layout(self):
        """The layout of some graphs, as it was printed once; what they say is judged apart from that."""
        with tempfile.TemporaryDirectory() as folder:
            graph = os.path.join(folder, "graph")
            for name, litmus, words, wanted in lines("graphs.tsv"):
                command, *words = [in_data(litmus) if word == "{}" else word for word in words.split()]
                printed_alone = run([command, *words])
                found = run([command, "--dot", graph, *words])
                tell(f"what is printed beside {name}", found == printed_alone and found[0] == 0, found, printed_alone)
                same(name, bytes_of(graph), bytes_of(in_data(wanted)))

    def test_graph_files(self):
        """Graphs that can't be written, and a graph of a run that is refused."""
        source = os.path.join(EXAMPLES, "SB.litmus")
        with tempfile.TemporaryDirectory() as folder:
            for command, *labels in (["trace", "e0", "e1", "e0", "e1", "f0", "f1"], ["why"]):
                for place in (folder, "/dev/full", os.path.join(folder, "none", "graph")):
                    expect(f"{command} with a graph in {place}", [command, "--dot", place, source, *labels], 1, b"refused file 2 Write\n")
            new = os.path.join(folder, "new")
            expect("a graph of a run that is refused", ["trace", "--dot", new, source, "e0", "e0", "e0"], 1, b"refused replay 2 AtEnd step 2\n")
            tell("no file is made for the graph of a run that is refused", not os.path.exists(new))
