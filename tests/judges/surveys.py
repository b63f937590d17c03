"""What one look at a program finds: the condition in both machines, the instructions that no sequential run executes, and both answers, by the states of
the machines alone; and whether a document says it (`document_differs`).
"""
import itertools

from judges import conditions, documents, machine, traces

REGISTERS = "EAX", "EBX"
HOLDS = {"exists": any, "~exists": lambda met: not any(met), "forall": all}


def executed_instructions(test):
    """The instructions that some sequential run executes: each that is a thread's next one at a state of such a run."""
    first = machine.begun(test)
    seen, to_walk, found = {first}, [first], set()
    while to_walk:
        state = to_walk.pop()
        found |= {(t, thread[0]) for t, thread in enumerate(state[0]) if thread[0] < len(test.code[t])}
        after = {after for _, after in machine.steps(test, set(), False, state)} - seen
        seen |= after
        to_walk += after
    return found


def random_program(draw):
    """A small program that moves, compares and jumps between its accesses, so that often no run executes some instruction."""
    threads = []
    for t in range(draw.choice((2, 2, 3))):
        count = draw.choice((3, 4, 5, 6))
        cells, targets = [], set()
        for k in range(count):
            first, second, place, target = draw.choice(REGISTERS), draw.choice(REGISTERS), draw.choice("xy"), draw.randint(k + 1, count)
            jump = draw.choice(("JE", "JNE", "JNE", "JMP"))
            cells.append(draw.choice((f"MOV {first},[{place}]", f"MOV [{place}],${draw.choice((1, 2))}", f"MOV [{place}],{first}", f"XCHG [{place}],{first}",
                                      f"MOV {first},${draw.choice((0, 1))}", f"MOV {first},{second}", "MFENCE", f"CMP {first},${draw.choice((0, 1, 3))}",
                                      f"CMP {first},{second}", f"{jump} t{t}l{target}", f"{jump} t{t}l{target}")))
            targets |= {target} if cells[-1].startswith("J") else set()
        threads.append([(f"t{t}l{k}: " if k in targets else "") + cell for k, cell in enumerate([*cells, ""])])
    rows = itertools.zip_longest(*threads, fillvalue="")
    head = " | ".join(f"P{t}" for t in range(len(threads)))
    body = "".join(" | ".join(row) + " ;\n" for row in rows)
    return f"X86 random\n{{ }}\n{head} ;\n{body}exists (true)\n".encode()


def holds(test, condition, model):
    """Whether a canonical condition holds in a machine with no gap fenced."""
    met = [documents.meets(condition, conditions.named(test, outcome)) for outcome in machine.outcomes(test, model, ())]
    return HOLDS[condition.split(" ")[0]](met)


class Judgement:
    """What is worked out of a program and its condition, once for each canonical text."""

    known = {}

    def __init__(self, test, condition):
        self.executed = executed_instructions(test)
        self.holds = {model: holds(test, condition, model) for model in ("sequential", "buffered")}
        self.sets = {"condition ": conditions.best_set(test, condition), "": conditions.best_whole_set(test)}

    @classmethod
    def of(cls, test, canonical):
        if canonical not in cls.known:
            cls.known[canonical] = cls(test, canonical.splitlines()[-1])
        return cls.known[canonical]


def answer(word, chosen, told):
    """The line of an answer, and one of each of its fences."""
    head = " ".join([f"answer {word}cost {len(chosen)} set", *(f"{t}:{k}" for t, k in chosen)])
    return [head, *(f"fence {t}:{k} line {told[t][k][0]}, before {told[t][k][1]}" for t, k in chosen)]


def block(test, canonical, numbers, allowed=False):
    """The lines of a file, its row and its status, where each thread's instructions stand in the lines of these numbers, and where it is allowed that no
    sequential run executes an instruction."""
    judged = Judgement.of(test, canonical)
    told = [list(zip(own, codes)) for own, codes in zip(numbers, traces.instructions(canonical))]
    others = [(t, k) for t, code in enumerate(test.code) for k in range(len(code)) if (t, k) not in judged.executed]
    lines = [f"{model} condition {'holds' if held else 'fails'}" for model, held in judged.holds.items()]
    lines += [f"unexecuted {t}:{k} line {told[t][k][0]} {told[t][k][1]}" for t, k in others]
    for word, chosen in judged.sets.items():
        lines += answer(word, chosen, told)
    words = [lines[0].split()[-1], lines[1].split()[-1], str(len(others)), *(line.split("cost ")[1].split()[0] for line in lines if line.startswith("answer "))]
    return lines, " ".join(words), 3 if (others and not allowed) or not judged.holds["sequential"] else 0


def executed_by(test, labels):
    """The instructions that labels execute one after another, or None where they are no whole sequential run."""
    state, places = machine.begun(test), []
    for label in labels:
        thread = state[0][int(label[1:])]
        if label[0] != "e" or thread[0] == len(test.code[int(label[1:])]):
            return None
        places.append(f"{label[1:]}:{thread[0]}")
        state = machine.stepped(test, set(), False, state, label)[1]
    return sorted(places, key=lambda place: [int(number) for number in place.split(":")]) if machine.has_ended(test, state) else None


def runs_differ(test, document):
    """Whether a run is none, executes other instructions, or executes none that those before it do not; or whether they execute others than sequential runs."""
    seen = set()
    for run in document["runs"]:
        if list(run) != ["labels", "executes"] or executed_by(test, run["labels"]) != run["executes"] or set(run["executes"]) <= seen:
            return True
        seen |= set(run["executes"])
    return seen != {f"{t}:{k}" for t, k in executed_instructions(test)}


def document_differs(printed, name, test, canonical, numbers):
    """Whether a document of a file says other things than its block must, or another program."""
    document = documents.read(printed)
    fields = [*documents.FIELDS["survey"], *(["notes"] if document and document.get("notes") else [])]
    if document is None or list(document) != fields or document["format"] != documents.FORMAT or document["command"] != "survey":
        return True
    if documents.program_differs(document, canonical) or documents.lines_differ(document, numbers) or document["file"] != name:
        return True
    lines, _, _ = block(test, canonical, numbers)
    texts = [[cell["text"] for cell in thread["instructions"]] for thread in document["threads"]]
    if document["says"] != {model: documents.saying(document["condition"], documents.IN_MACHINE, holds) for model, holds in document["holds"].items()}:
        return True
    said = [f"{model} condition {'holds' if holds else 'fails'}" for model, holds in document["holds"].items()]
    for place in document["unexecuted"]:
        t, k = map(int, place["place"].split(":"))
        said.append(f"unexecuted {place['place']} line {place['line']} {texts[t][k]}")
    answers = [line for line in lines if line.startswith("answer ")]
    wrong = [documents.answer_differs({**document, "answer": document[field]}, line) for field, line in zip(("condition_answer", "answer"), answers)]
    return said != [line for line in lines if not line.startswith(("answer ", "fence "))] or any(wrong) or runs_differ(test, document)
