"""Documents: what the commands print with `--json` says what they print without, and what their graphs have."""
import copy
import itertools
import json
import os
import tempfile

from harness import MODELS, TOP, Cases, bytes_of, example, example_files, expect, in_data, run, same, schemas, tell
from judges import documents, machine
from judges.texts import canonical_of, instruction_lines, test_of


def documented(words, litmus, labels=(), fences=None):
    """The document of a command is compared with its text and with the graph of its runs."""
    command, *options = words
    text = run([*words, litmus, *labels])[1].decode()
    status, printed_document = run([command, "--json", *options, litmus, *labels])
    graph = None
    if command in ("why", "trace", "witness"):
        with tempfile.TemporaryDirectory() as folder:
            file = os.path.join(folder, "graph")
            run([command, "--dot", file, *options, litmus, *labels])
            graph = bytes_of(file).decode()
    source = bytes_of(litmus)
    lines = instruction_lines(source.decode())
    right = status == 0 and not documents.differs(printed_document, command, text, canonical_of(source), lines, graph, fences)
    tell(f"the document of {' '.join(words)} {litmus}", right, repr(printed_document), f"what is printed without --json: {text!r}")


# commands that print a document of each kind, of store buffering on the input; the last is refused
KINDS = (
    ("why", ()), ("place", ("--condition",)), ("trace", ("e0", "e1", "e0", "e1", "f0", "f1")), ("witness", ()), ("witness", ("--fences", "0:1,1:1")),
    ("outcomes", ("--runs",)), ("gaps", ()), ("survey", ()), ("trace", ("e7",)),
)
# which keyword is broken where, within lists, references and values that may be null too: the kind of document, the place of a value, and what stands there
# in place of it
DAMAGE = (
    ("type", "why", ("test",), 1),
    ("type", "why", ("gaps",), {}),
    ("type", "trace", ("run", "meets_condition"), 1),
    ("type", "trace", ("run", "steps", 0, "instruction"), "0"),
    ("type", "refusal", ("file",), False),
    ("type", "survey", ("holds", "buffered"), "true"),
    ("required", "survey", ("condition_answer",), None),
    ("pattern", "survey", ("runs", 0, "executes", 0), "0:64"),
    ("additionalProperties", "survey", ("runs", 0, "more"), 0),
    ("required", "why", ("answer", "cost"), None),
    ("required", "refusal", ("message",), None),
    ("additionalProperties", "place", ("more",), 0),
    ("oneOf", "trace", ("run", "steps", 2, "reads", "more"), 0),
    ("type", "place", ("gaps", 1, "cost"), "1"),
    ("pattern", "outcomes", ("runs", 0, 0), "e9"),
    ("enum", "trace", ("run", "model"), "weak"),
    ("enum", "outcomes", ("observation",), "Often"),
    ("const", "why", ("format",), "fencer 2"),
    ("const", "place", ("answer", "condition"), 1),
    ("pattern", "why", ("gaps", 0, "gap"), "0:0"),
    ("pattern", "why", ("answer", "set", 0), "0:1\n"),
    ("pattern", "outcomes", ("condition",), "never (x=1)"),
    ("minimum", "why", ("answer", "cost"), -1),
    ("minimum", "gaps", ("gaps", 0, "line"), 0),
    ("required", "place", ("threads", 0, "instructions", 0, "line"), None),
    ("maximum", "outcomes", ("outcomes", 0, 0, "value"), 2 ** 32),
    ("oneOf", "witness", ("run",), {}),
    ("oneOf", "trace", ("command",), "traces"),
    ("oneOf", "trace", ("run", "steps", 0, "stores"), []),
    ("enum", "trace", ("run", "execution", "cycle"), [{"event": 0, "relation": "hb"}]),
)


def damaged(document, keyword, place, there):
    """A document in which something else stands in a place; for `required` nothing does."""
    document = copy.deepcopy(document)
    *way, last = place
    value = document
    for name in way:
        value = value[name]
    if keyword == "required":
        del value[last]
    else:
        value[last] = there
    return document


class JsonDocuments(Cases):
    def test_runs(self):
        """A run of each example as `trace` prints it, and the lists of outcomes, with runs and without."""
        for litmus, model in itertools.product(example_files(), MODELS):
            documented(["trace", "--model", model], litmus, machine.run_in_turn(test_of(bytes_of(litmus)), model))
            documented(["outcomes", "--model", model], litmus)
            documented(["outcomes", "--runs", "--model", model], litmus)

    def test_answers(self):
        """Answers, their reasons, and outcomes as far as they are shown, of each example."""
        for litmus in example_files():
            for command, options in itertools.product(("why", "place", "outcomes"), ([], ["--observed"])):
                documented([command, *options], litmus)
            for command in ("why", "place"):
                documented([command, "--condition"], litmus)

    def test_witnesses(self):
        """Runs that are sought in each example, with no gap fenced and with every second one."""
        for litmus in example_files():
            places = [f"{t}:{k}" for t, k in test_of(bytes_of(litmus)).gaps()]
            for model, options, fences in itertools.product(MODELS, ([], ["--not"]), ([], places[::2])):
                if model == "buffered" or not fences:
                    documented(["witness", "--model", model, *options, *(["--fences", ",".join(fences)] if fences else [])], litmus, fences=fences)

    def test_gaps(self):
        """The gaps of each example with costs of their own, and that a cost file that is asked for too changes nothing."""
        for litmus in example_files():
            with tempfile.NamedTemporaryFile() as file:
                entries = run(["gaps", "--template", litmus])[1].splitlines()
                file.write(b"".join(b"%s %d\n" % (entry.split(b" ")[0], 3 + number) for number, entry in enumerate(entries)))
                file.flush()
                documented(["gaps", "--costs", file.name], litmus)
                same(f"the document of gaps --template {litmus}", run(["gaps", "--json", "--template", litmus]), run(["gaps", "--json", litmus]))

    def test_fenced(self):
        """The outcomes of each example with every second gap fenced, with runs and without."""
        for litmus in example_files():
            fences = [f"{t}:{k}" for t, k in test_of(bytes_of(litmus)).gaps()][::2]
            for options in ([], ["--runs"], ["--observed"]) if fences else ():
                documented(["outcomes", "--fences", ",".join(fences), *options], litmus, fences=fences)

    def test_shown(self):
        """The examples of docs/formats.md are what is printed."""
        for words, line in documents.examples(bytes_of(os.path.join(TOP, "docs", "formats.md")).decode()):
            named = [os.path.join(TOP, word) if word.endswith(".litmus") else word for word in words]
            expect(f"the example {' '.join(words)} of docs/formats.md", named, 1 if b'"refused"' in line else 0, line)

    def test_schema(self):
        """Each document that a case prints fits docs/fencer.schema.json, and one that is damaged in any way does not."""
        printed = {}
        for command, options in KINDS:
            before = schemas.Held.count
            words = [option for option in options if option.startswith("-") or ":" in option]
            text = run([command, "--json", *words, "-", *(option for option in options if option not in words)], example("SB.litmus"))[1]
            same(f"the document of {command} {' '.join(options)} is held against the schema", schemas.Held.count, before + 1)
            document = json.loads(text)
            same(f"the document of {command} {' '.join(options)} fits", schemas.document_faults(document), [])
            printed.setdefault(schemas.kind(document), document)
        for keyword, kind, place, there in DAMAGE:
            found = schemas.document_faults(damaged(printed[kind], keyword, place, there))
            front = "".join(f"{name}: " for name in place[:-1])
            tell(f"{keyword} at {place} of {kind}", any(said.startswith(front) and keyword in said.split(": ") for said in found), found, "a fault there by this keyword")

    def test_refusals(self):
        """The document of a refusal gives the reason that the line gives."""
        for command in ("why", "place", "outcomes", "trace", "witness", "gaps"):
            litmus = in_data("none.litmus")
            status, text = run([command, litmus])
            told = run([command, "--json", litmus])
            right = told[0] == status == 1 and not documents.refusal_differs(told[1], text.decode())
            tell(f"the document of a refusal of {command}", right, told, f"status 1, and a document of {text!r}")
