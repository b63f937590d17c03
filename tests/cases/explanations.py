"""Explanations: the reasons of `fencer why`, each judged on its own: its run, table, graph, outcome and what is said of the condition."""
import os
import tempfile

from harness import (
    EXAMPLES, LIMIT, MODELS, Cases, bytes_of, example, example_files, expect, in_data, litmus_cases, outcomes_in, run, same, tell, without_end,
    without_front, worked_files, write,
)
from judges import documents, graphs, machine
from judges.texts import canonical_of, drawn, execution_of, test_of


def explained(litmus, options):
    """The answer line is that of `fencer place`, with a reason for each of its gaps, in order; each is judged on its own."""
    status, text = run(["why", *options, litmus])
    head, *reasons = text.decode().split("without ")
    answer = run(["place", *options, litmus])[1].decode().split("\n")[0] + "\n"
    gaps = answer.split(" set")[1].split()
    name = f"why {' '.join(options)} {litmus}"
    compared = " in what is compared" if "--observed" in options else ""
    none = "Store buffers do not change the condition's verdict.\n" if "--condition" in options else f"Every store buffer outcome is sequential{compared}.\n"
    end = "" if gaps else none
    tell(name, status == 0 and head == answer + end and [reason.split("\n")[0] for reason in reasons] == gaps, text)
    shown = [option for option in options if option in ("--observed", "--condition")]
    listed = [run(["outcomes", *[option for option in shown if option == "--observed"], "--model", model, litmus])[1] for model in MODELS]
    lists = [outcomes_in(text).decode() for text in listed]
    often = [text.decode().splitlines()[-2] for text in listed]
    if not gaps:
        buffered, sequential = often if shown == ["--condition"] else lists
        tell(f"{name}: every outcome is sequential", buffered == sequential, (buffered, sequential))
    for reason in reasons:
        judge_reason(name, litmus, gaps, reason, lists[0].splitlines(), often[0], shown)
    judge_graph(name, litmus, options, reasons, text)


def judge_graph(name, litmus, options, reasons, printed_alone):
    """The graph of an answer has the execution of each reason's run, in order, and nothing else is printed."""
    with tempfile.TemporaryDirectory() as folder:
        file = os.path.join(folder, "graph")
        same(f"{name}: what is printed beside its graph", run(["why", "--dot", file, *options, litmus]), (0, printed_alone))
        text = bytes_of(file).decode()
    runs = list(graphs.read(text))
    tell(f"{name}: its graph has a run for each gap", len(runs) == len(reasons), text)
    for run_found, reason in zip(runs, reasons):
        gap, labels, *_ = reason.split("\n")
        wanted = execution_of(litmus, "buffered", without_front(labels, "run ").split())
        tell(f"{name}: the graph without {gap}", graphs.is_drawn(run_found, f"without {gap}", wanted) and run_found[5], text)
        tell(f"{name}: a cycle over {gap}, where a shortest one leads there", graphs.leads_over(run_found[5], wanted, gap), text)


def judge_reason(name, litmus, gaps, reason, sequential, often, shown):
    """The run of a reason is replayed to its outcome, passes the gap and no other of the answer's, has its table, and no sequential run has the
    outcome, or its truth."""
    gap, labels, *told, met, _ = reason.split("\n")
    by_truth = shown == ["--condition"]
    end = "No sequential run has this outcome." if by_truth else told.pop()
    *table, outcome, passed = told
    labels = without_front(labels, "run ").split()
    status, text = run(["replay", litmus, *labels])
    replayed = text.decode().splitlines()
    right = status == 0 and passed == replayed[1] and set(passed.split()) & set(gaps) == {gap}
    if shown == ["--observed"]:
        right = right and set(outcome.split()) <= set(replayed[0].split())
    else:
        right = right and outcome == replayed[0]
    tell(f"{name}: the run that {gap} prevents", right, f"{reason!r}\n  {text!r}")
    same(f"{name}: its table", "\n".join([*table, ""]).encode(), drawn(litmus, "buffered", labels, gap))
    expect(f"{name}: its trace", ["trace", litmus, *labels], 0, drawn(litmus, "buffered", labels) + text)
    tell(f"{name}: its outcome", outcome not in sequential and end == "No sequential run has this outcome.", reason)
    last = {name: int(value) for name, value in (part.strip(";").split("=") for part in replayed[0].split()[1:])}
    meets = documents.meets(canonical_of(bytes_of(litmus)).splitlines()[-1], last)
    same(f"{name}: what is said of the condition", met, (documents.ALONE if by_truth else documents.MET)[meets])
    if by_truth:
        same(f"{name}: no sequential run has its truth", often, f"observation {'Never' if meets else 'Always'}")
    judge_with_others(name, litmus, gaps, gap, labels, replayed[0], outcome if not shown else None)


def judge_with_others(name, litmus, gaps, gap, labels, replayed, outcome):
    """The run of a reason is one with the answer's other gaps fenced. In the examples its outcome is one of those that the machine comes to then."""
    test = test_of(bytes_of(litmus))
    others = [number for number, (t, k) in enumerate(test.gaps()) if f"{t}:{k}" in gaps and f"{t}:{k}" != gap]
    left = machine.end_of(test, labels, others)
    tell(f"{name}: the run that {gap} prevents, with the other gaps fenced", left and test.line(left) == replayed + "\n", left)
    if outcome and os.path.dirname(litmus) == EXAMPLES:
        left = [test.line(it) for it in machine.outcomes(test, "buffered", others)]
        tell(f"{name}: the outcome with the other gaps fenced", outcome + "\n" in left, left)


class Explanations(Cases):
    def test_whole(self):
        """Why the fences of an answer are needed, in the examples and in programs of every kind, with costs too."""
        examples = example_files()
        worked = [litmus for litmus in worked_files() if litmus not in examples]
        others = [in_data(folder, case + ".litmus") for folder in ("whole", "observed") for case in litmus_cases(folder)]
        for litmus in [*examples, *worked, *others]:
            explained(litmus, [])
            costs = without_end(litmus, ".litmus") + ".costs"
            if os.path.exists(costs):
                explained(litmus, ["--costs", costs])

    def test_observed(self):
        """Why they are needed for what a test names."""
        for litmus in [*example_files(), *(in_data("observed", case + ".litmus") for case in litmus_cases("observed"))]:
            explained(litmus, ["--observed"])

    def test_condition(self):
        """Why they are needed for the condition's truth."""
        for litmus in [*example_files(), *(in_data("condition", case + ".litmus") for case in litmus_cases("condition"))]:
            explained(litmus, ["--condition"])

    def test_files(self):
        """What is read first and judged first for the reasons of an answer."""
        source = example("SB.litmus")
        with tempfile.TemporaryDirectory() as folder:
            for name, costs, given, line in (
                ("why with damaged costs", b"0:1 1\n0:1 five\n", source, b"refused costs 1 Line line 2\n"),
                ("why with no cost file", None, source, b"refused file 1 Read\n"),
                ("why of a damaged text, before the costs", b"-", b"X87\n", b"refused litmus 2 Header line 1\n"),
            ):
                if costs is not None:
                    write(os.path.join(folder, "costs"), costs)
                same(name, run(["why", "--costs", "none" if costs is None else "costs", "-"], given, cwd=folder), (1, line))
        expect("why of a text that is too long", ["why", "-"], 1, b"refused file 3 TooLong\n", source + b" " * LIMIT)
