"""What `fencer` prints with `--json`, compared with what it prints without.

A document is read by Python's json. `differs` says whether a document and the text of the same command say different things; the
examples of docs/formats.md are compared byte for byte with what the program prints (`examples`).
"""
import itertools
import json
import re

from judges import graphs, traces

FORMAT = "fencer 1"
PROGRAM = ["format", "command", "test", "condition", "locations", "registers", "initial", "threads"]
FIELDS = {
    "why": [*PROGRAM, "gaps", "answer", "runs"],
    "place": [*PROGRAM, "gaps", "answer", "fenced", "says"],
    "trace": [*PROGRAM, "run"],
    "outcomes": [*PROGRAM, "model", "observed", "outcomes", "observation", "holds", "says"],
    "witness": [*PROGRAM, "model", "fences", "meets_condition", "run", "says"],
    "gaps": [*PROGRAM, "gaps"],
    "survey": [*PROGRAM, "file", "holds", "unexecuted", "runs", "gaps", "condition_answer", "answer", "says"],
}
RUN = ["steps", "outcome", "meets_condition", "passed", "execution", "says"]
STEP = ["label", "instruction", "reads", "stores", "reaches", "buffer", "memory", "registers"]
# what is said beside an answer: of sequential runs, and of what its author may not have meant
VERDICTS = ("no_fence_mends", "happens_sequentially")
NOTE = ["kind", "line", "column", "word", "message"]
REFUSAL = ["format", "refused", "file", "line", "column", "word", "message"]
MET = {
    True: "This run meets the condition's formula.",
    False: "This run does not meet the condition's formula; registers or memory end as they sequentially cannot.",
}
ALONE = {
    True: "This run meets the condition's formula, and no sequential run does.",
    False: "This run does not meet the condition's formula, and each sequential run does.",
}
NO_RUN = {True: "No run meets the condition's formula.\n", False: "Every run meets the condition's formula.\n"}
# what a condition is about, by its quantifier, and what is said of it: of a run that meets the formula or does not, of a machine in which the condition holds
# or fails, and where a run that meets the formula or does not is sought and there is none
SUBJECTS = {"exists": "what the condition asks about", "~exists": "what must not happen", "forall": "what must always hold"}
IN_RUN = {
    "exists": ("does not happen in this run", "happens in this run"), "~exists": ("does not happen in this run", "happens in this run"),
    "forall": ("fails in this run", "holds in this run"),
}
IN_MACHINE = {
    "exists": ("never happens", "happens in some run"), "~exists": ("happens in some run", "never happens"), "forall": ("fails in some run", "always holds"),
}
IN_NONE = {"exists": ("happens in every run", "never happens"), "~exists": ("happens in every run", "never happens"), "forall": ("always holds", "never holds")}
EXAMPLE = re.compile(r"^    \$ \./fencer (.* --json .*)\n    (\{.*\})\n", re.M)


def read(printed):
    """A document from the bytes of one line; `None` where they are none, have a `<` or spell a name twice in one object."""
    def once(pairs):
        if len({name for name, _ in pairs}) < len(pairs):
            raise ValueError("a name stands twice")
        return dict(pairs)

    if b"<" in printed or printed.count(b"\n") != 1 or not printed.endswith(b"}\n"):
        return None
    try:
        return json.loads(printed.decode("ascii"), object_pairs_hook=once)
    except ValueError:
        return None


def meets(condition, outcome):
    """Whether an outcome, by names, meets the formula of a canonical condition."""
    formula = condition.split(" ", 1)[1]
    formula = re.sub(r"(\d+:[A-Z]+|\w+)=(\d+)", lambda atom: str(outcome[atom[1]] == int(atom[2])), formula)
    for sign, word in (("/\\", " and "), ("\\/", " or "), ("true", "True"), ("false", "False")):
        formula = formula.replace(sign, word)
    return eval(formula, {"__builtins__": {}})


def saying(condition, verbs, holds):
    """What is said of a canonical condition, where that holds of which there are two verbs for each quantifier."""
    quantifier, formula = condition.split(" ", 1)
    return f"{SUBJECTS[quantifier]} {formula} {verbs[quantifier][holds]}"


def outcome_line(outcome):
    return " ".join(["outcome:", *(f"{value['name']}={value['value']};" for value in outcome)])


def passed_line(passed):
    return " ".join(["passed", *passed])


def stored(store):
    return f"{store['location']}={store['value']}"


def cells(document, step):
    """The line of a step in the table of its run."""
    thread, instruction = int(step["label"][1:]), step["instruction"]
    effect = []
    if step["reads"]:
        effect.append(f"reads {stored(step['reads'])} from {'its buffer' if step['reads']['from'] == 'buffer' else 'memory'}")
    if step["stores"]:
        effect.append(f"stores {stored(step['stores'])}")
    written = "-" if instruction is None else document["threads"][thread]["instructions"][instruction]["text"]
    waiting = " ".join(stored(store) for store in step["buffer"])
    return [step["label"], f"P{thread}", written, ", ".join(effect) or "-", waiting or "-", stored(step["reaches"]) if step["reaches"] else "-"]


def table_differs(document, run, table):
    """Whether the lines of a table say other things than the steps of a run."""
    found = [re.split(r" {2,}", line) for line in table]
    return found != [list(traces.HEADINGS), *(cells(document, step) for step in run["steps"])]


def states_differ(document, run):
    """Whether memory or registers after the steps are not what the steps before and the outcome make of them."""
    memory, registers = list(document["initial"]["memory"]), [list(values) for values in document["initial"]["registers"]]
    for step in run["steps"]:
        if step["reaches"]:
            memory[document["locations"].index(step["reaches"]["location"])] = step["reaches"]["value"]
        if step["memory"] != memory:
            return True
        registers[int(step["label"][1:])] = step["registers"]
    names = [f"{t}:{name}" for t, own in enumerate(document["registers"]) for name in own] + document["locations"]
    last = dict(zip(names, [value for values in registers for value in values] + memory))
    return any(last[value["name"]] != value["value"] for value in run["outcome"]) or meets(document["condition"], last) != run["meets_condition"]


def graph_differs(run, drawn):
    """Whether a run's graph, as `graphs.read` gives it, has other edges, or another cycle in red."""
    def event(named):
        return f"init_{named}" if isinstance(named, str) else f"step{named}"

    execution = run["execution"]
    edges = {(event(a), event(b), relation) for relation in ("po", "rf", "co", "fr") for a, b in execution[relation]}
    walked = [(event(stage["event"]), stage["relation"]) for stage in execution["cycle"]]
    cycle = {(*place, after[0]) for place, after in zip(walked, walked[1:] + walked[:1])}
    red = {(a, relation, b) for a, b, relation in drawn[4] if (a, b) in drawn[5] and (a, relation, b) in cycle}
    first = not execution["cycle"] or execution["cycle"][0]["event"] == min(stage["event"] for stage in execution["cycle"])
    return edges != drawn[4] or cycle != red or len(cycle) != len(drawn[5]) or not first


def program_differs(document, canonical):
    """Whether a document says another program than a canonical text."""
    head, *rest = canonical.splitlines()
    written = traces.instructions(canonical)
    said = [[cell["text"] for cell in thread["instructions"]] for thread in document["threads"]]
    initial = re.fullmatch(r"\{(.*) \}", rest[0])[1]
    names = [(f"{t}:{name}", value) for t, own in enumerate(document["registers"]) for name, value in zip(own, document["initial"]["registers"][t])]
    values = "".join(f" {name}={value};" for name, value in [*zip(document["locations"], document["initial"]["memory"]), *names])
    labels = sorted(label for thread in document["threads"] for cell in [*thread["instructions"], {"labels": thread["end"]}] for label in cell["labels"])
    spelled = sorted(re.findall(r"(\w+):(?= |$)", "\n".join(line for line in rest if line.endswith(" ;"))))
    same = head == "X86 " + document["test"] and rest[-1] == document["condition"] and initial == values
    columns = [[cell for cell in column if cell] for column in written] or [[] for _ in said]  # a text without rows has no columns
    return not same or said != columns or labels != spelled


def answer_differs(document, line):
    answer = document["answer"]
    costs = {gap["gap"]: gap["cost"] for gap in document["gaps"]}
    places = [f"{t}:{k}" for t, thread in enumerate(document["threads"]) for k in range(1, len(thread["instructions"]))]
    kind = "" if answer["compares"] == "all" else answer["compares"] + " "
    said = " ".join([f"answer {kind}cost {answer['cost']} set", *answer["set"]])
    kinds = {
        "all": [("observed", False)], "observed": [("observed", True)], "condition": [("observed", False), ("condition", True)],
    }
    told = list(answer)[:2] == ["set", "cost"] and list(answer.items())[2:] == [*kinds[answer["compares"]], ("compares", answer["compares"])]
    return not told or said != line or list(costs) != places or answer["cost"] != sum(costs[gap] for gap in answer["set"])


def run_differs(document, run, first, table, outcome, passed):
    """Whether a run says other things than its lines."""
    right = list(run) == [first, *RUN] and all(list(step) == STEP for step in run["steps"])
    same = right and outcome_line(run["outcome"]) == outcome and passed_line(run["passed"]) == passed
    same = same and run["says"] == saying(document["condition"], IN_RUN, run["meets_condition"])
    return not same or table_differs(document, run, table) or states_differ(document, run)


def is_marked(run, table):
    """Whether one row of the table is marked, that of the step which passes the gap."""
    thread, number = run["without"].split(":")
    wanted = [(step["label"], step["instruction"]) == (f"e{thread}", int(number)) for step in run["steps"]]
    return [line.endswith("  <- " + run["without"]) for line in table] == [False, *wanted] and sum(wanted) == 1


def without_mark(run, table):
    return [line.removesuffix("  <- " + run["without"]) for line in table]


def why_differs(document, text, dot):
    head, *reasons = text.split("without ")
    if answer_differs(document, head.split("\n")[0]) or [run["without"] for run in document["runs"]] != document["answer"]["set"]:
        return True
    drawn_runs = list(graphs.read(dot))
    if not len(document["runs"]) == len(reasons) == len(drawn_runs):
        return True
    for run, reason, drawn in zip(document["runs"], reasons, drawn_runs):
        gap, labels, *told, last, _ = reason.split("\n")
        said = ALONE if "condition" in document["answer"] else MET
        *table, outcome, passed = told if said is ALONE else told[:-1]
        if not is_marked(run, table) or run_differs(document, run, "without", without_mark(run, table), outcome, passed) or graph_differs(run, drawn):
            return True
        if run["without"] != gap or labels.split()[1:] != [step["label"] for step in run["steps"]] or last != said[run["meets_condition"]]:
            return True
    return False


def trace_differs(document, text, dot):
    *table, outcome, passed, _ = text.split("\n")
    (drawn,) = graphs.read(dot)
    return run_differs(document, document["run"], "model", table, outcome, passed) or graph_differs(document["run"], drawn)


def witness_differs(document, text, dot):
    run = document["run"]
    if document["says"] != saying(document["condition"], IN_NONE if run is None else IN_RUN, document["meets_condition"]):
        return True
    if run is None:
        return text != NO_RUN[document["meets_condition"]] or list(graphs.read(dot)) != []
    labels, rest = text.split("\n", 1)
    told = run["meets_condition"] == document["meets_condition"] and run["model"] == document["model"]
    fenced = set(run["passed"]) & set(document["fences"])
    return not told or fenced or labels.split() != ["run", *(step["label"] for step in run["steps"])] or trace_differs(document, rest, dot)


def outcomes_differ(document, text):
    lines = [f"outcomes {len(document['outcomes'])}"]
    for outcome, labels in itertools.zip_longest(document["outcomes"], document.get("runs", [])):
        lines += [outcome_line(outcome or []), *([] if labels is None else [" ".join(["run", *labels])])]
    lines += [f"observation {document['observation']}", f"condition {'holds' if document['holds'] else 'fails'}", ""]
    return text != "\n".join(lines) or document["says"] != saying(document["condition"], IN_MACHINE, document["holds"])


def placed_differs(document, text):
    """Whether a placement says another answer or another program, or of the condition other than its notes do: that a sequential run decides it."""
    line, fenced = text.split("\n", 1)
    decided = any(note["kind"] in VERDICTS for note in document.get("notes", []))
    says = saying(document["condition"], IN_MACHINE, decided == document["condition"].startswith("exists "))
    return answer_differs(document, line) or document["fenced"] != fenced or document["says"] != says


def lines_differ(document, lines):
    """Whether instructions and gaps have other lines than these, by threads."""
    said = [[cell["line"] for cell in thread["instructions"]] for thread in document["threads"]]
    at = {f"{t}:{k}": line for t, own in enumerate(lines) for k, line in enumerate(own) if k}
    return said != lines or any(gap["line"] != at[gap["gap"]] for gap in document.get("gaps", []))


def gaps_differ(document, text):
    """Whether the list of the gaps says other things than the document: `text` has the costs."""
    def line(gap):
        thread, number = map(int, gap["gap"].split(":"))
        return f"{gap['gap']} line {gap['line']} {document['threads'][thread]['instructions'][number]['text']} cost {gap['cost']}\n"

    return text != "".join(line(gap) for gap in document["gaps"])


def differs(printed, command, text, canonical, lines, dot=None, fences=None):
    """Whether a command's document says other things than its text, the program's canonical text with its instructions' lines, and the graph of its runs."""
    document = read(printed)
    fields = list(FIELDS[command])
    if command == "outcomes" and "\nrun" in text:
        fields.insert(fields.index("says"), "runs")
    if command == "outcomes" and fences:
        fields.insert(fields.index("model") + 1, "fences")
    if document and document.get("notes") and command not in ("trace", "gaps"):
        fields.append("notes")
    if document is None or list(document) != fields or document["format"] != FORMAT or document["command"] != command:
        return True
    if program_differs(document, canonical) or lines_differ(document, lines):
        return True
    if command == "gaps":
        return gaps_differ(document, text)
    if command == "why":
        return why_differs(document, text, dot)
    if command == "trace":
        return trace_differs(document, text, dot)
    if command == "witness":
        return document["fences"] != (fences or []) or witness_differs(document, text, dot)
    if command == "outcomes":
        return document.get("fences", []) != (fences or []) or outcomes_differ(document, text)
    return placed_differs(document, text)


def noted(printed, name, front="fencer: ", after=""):
    """What standard error has of the notes of a document, where the litmus text has this name; `front` stands before what sequential runs decide, `after` follows where no fence mends it."""
    def line(note):
        place = f":{note['line']}:{note['column']}" if note["line"] else ""
        said = f"{front}{note['message']}\n" if note["kind"] in VERDICTS else f"{name}{place}: {note['message']}\n"
        return said + after if note["kind"] == "no_fence_mends" else said

    notes = read(printed).get("notes", [])
    right = all(list(note) == NOTE and bool(note["line"]) == bool(note["column"]) == bool(note["word"]) for note in notes)
    return "".join(map(line, notes)).encode() if right else None


def refusal_differs(printed, line):
    """Whether the document of a refusal gives another reason than the line."""
    document = read(printed)
    return document is None or list(document) != REFUSAL or f"refused {document['refused']}\n" != line


def examples(text):
    """The examples of a document of the project: the words of each, and what is printed for them."""
    return [(words.split(), f"{printed}\n".encode()) for words, printed in EXAMPLE.findall(text)]
