"""Compares what a page shows with its document: each step of each run, and what is shown once for a run.

The sentences, marks and places that are expected here are worked out from the document, apart from the page's script."""
import json
import os
import re
import time

HERE = os.path.dirname(os.path.abspath(__file__))
with open(os.path.join(HERE, "shown.js"), encoding="utf-8") as file:
    SHOWN = file.read()
HEADS = ["#", "step", "thread", "instruction", "what it does", "still waits", "reaches memory"]
CONTROLS = ("button", "slider", "tab", "tabpanel", "checkbox", "region", "image", "table")
SIZES = ((1280, 720), (1920, 1080), (420, 900))
SOME_STEPS = 6
BESIDE = 4  # so many threads stand beside the texts, and fit on a telephone
SILENT = ("Runtime.exceptionThrown", "Log.entryAdded", "Runtime.consoleAPICalled")
ADDRESS_DELAY = 5  # seconds at most


class Wrong(Exception):
    """What is shown is not what the document says."""


counts = {"checks": 0}


def same(shown, wanted, what):
    counts["checks"] += 1
    if shown != wanted:
        raise Wrong(f"{what}:\n  shown  {shown}\n  wanted {wanted}")


def right(holds, what):
    same(bool(holds), True, what)


def shown(browser, call):
    return browser.evaluate("(() => {" + SHOWN + f"return {call}; }})()")


def assignment(access):
    return f"{access['location']}={access['value']}"


def gap_place(gap):
    return tuple(map(int, gap.split(":")))


def listed(parts, last):
    return last.join(filter(None, [", ".join(parts[:-1]), parts[-1]])) if parts else ""


def register_of(text):
    """The register that a load, an exchange or a move puts its value in, or None."""
    if text is None or text.split(" ")[0] not in ("MOV", "XCHG"):
        return None
    operands = text.split(" ", 1)[1].split(",")
    return next((word for word in (operands if text.startswith("XCHG") else operands[:1]) if word[0] != "["), None)


class Truth:
    """True, false, or not known yet."""

    def __init__(self, value):
        self.value = value

    def __and__(self, other):
        return Truth(False if False in (self.value, other.value) else None if None in (self.value, other.value) else True)

    def __or__(self, other):
        return ~(~self & ~other)

    def __invert__(self):
        return Truth(None if self.value is None else not self.value)


class Run:
    """A run of a document, with the states that its steps give."""

    def __init__(self, document, run):
        self.document, self.run, self.steps = document, run, run["steps"]
        self.gap = run.get("without")
        self.tie = tie_of(document, self.gap)
        self.where = f"{document['test']} without {self.gap}" if self.gap else f"a run of {document['test']}"
        self.threads = [int(step["label"][1:]) for step in self.steps]
        self.outcome = " ".join(f"{item['name']}={item['value']};" for item in run["outcome"])
        self.cycle = run["execution"]["cycle"]
        self.states = list(self.all_states())
        self.slots = [max([1] + [len(buffers[thread]) for _, _, buffers in self.states]) for thread in range(len(document["threads"]))]
        self.sequential = run.get("model") == "sequential"
        if self.gap:
            self.find_gap()
        self.decided = self.deciding_step()

    def is_written(self, name, i):
        """Whether a step writes a register or a location."""
        thread, _, register = name.rpartition(":")
        reaches = self.steps[i]["reaches"]
        return bool(reaches) and reaches["location"] == name if not thread \
            else self.threads[i] == int(thread) and register_of(self.text(i)) == register

    def value(self, name):
        thread, _, register = name.rpartition(":")
        names, values = (self.document["registers"][int(thread)], self.states[-1][1][int(thread)]) if thread else \
            (self.document["locations"], self.states[-1][0])
        return dict(zip(names, values)).get(register, 0)

    def truth(self, n):
        """The truth of the condition's formula after n steps, of the values that no later step writes."""
        def atom(found):
            name, value = found[0].split("=")
            comes = any(self.is_written(name, i) for i in range(n, len(self.steps)))
            return f"Truth({None if comes else self.value(name) == int(value)})"
        formula = self.document["condition"].split(" ", 1)[1].replace("/\\", "&").replace("\\/", "|")
        formula = re.sub(r"[^\s()&|]+=\d+", atom, re.sub(r"\btrue\b(?!=)", "Truth(True)", re.sub(r"\bfalse\b(?!=)", "Truth(False)", formula)))
        return eval(re.sub(r"\bnot\b", "~", formula), {"Truth": Truth}).value

    def deciding_step(self):
        """After how many steps the condition's truth is known, or None where it is before the first."""
        found = next(n for n in range(len(self.states)) if self.truth(n) is not None)
        same(self.truth(len(self.steps)), self.run["meets_condition"], self.where + ": the formula")
        return found or None

    def jump(self, i):
        """The label that a step jumps to, or None."""
        text, number = self.text(i), self.steps[i]["instruction"]
        if text is None or text[0] != "J" or self.next_instruction(i + 1, self.threads[i]) == number + 1:
            return None
        return text.split(" ")[1]

    def next_instruction(self, n, thread):
        """What a thread executes next after n steps."""
        coming = (self.steps[i]["instruction"] for i in range(n, len(self.steps)) if self.threads[i] == thread)
        return next((number for number in coming if number is not None), len(self.document["threads"][thread]["instructions"]))

    def breaks(self):
        """Whether the run breaks the file's condition, shows what it asks for, or neither: None."""
        quantifier, meets = self.document["condition"].split(" ")[0], self.run["meets_condition"]
        return {("~exists", True): "breaks", ("forall", False): "breaks", ("exists", True): "meets"}.get((quantifier, meets))

    def short(self, i):
        """What a step does, in a few words."""
        step, thread = self.steps[i], f"P{self.threads[i]}"
        if step["instruction"] is None:
            return f"{thread}'s store {assignment(step['reaches'])} reaches memory"
        if step["reads"]:
            return f"{thread} reads {assignment(step['reads'])}{' from its buffer' if step['reads']['from'] == 'buffer' else ''}" \
                + (f" and stores {assignment(step['stores'])}" if step["stores"] else "")
        if step["stores"]:
            return f"{thread} stores {assignment(step['stores'])}{'' if step['reaches'] else ' in its buffer'}"
        return f"{thread} jumps to {self.jump(i)}" if self.jump(i) else f"{thread} executes {self.text(i)}"

    def place(self, n):
        """What the slider says of a step."""
        return f"step {n} of {len(self.steps)}: {self.short(n - 1)}" if n else "start"

    def all_states(self):
        """Memory, registers and buffers before the first step, and after each one."""
        initial = self.document["initial"]
        memory, registers, buffers = initial["memory"], initial["registers"], [[] for _ in self.document["threads"]]
        yield memory, registers, buffers
        for step, mine in zip(self.steps, self.threads):
            memory = step["memory"]
            registers = [step["registers"] if thread == mine else other for thread, other in enumerate(registers)]
            buffers = [step["buffer"] if thread == mine else other for thread, other in enumerate(buffers)]
            yield memory, registers, buffers

    def find_gap(self):
        """The step that passes the gap, and the one at which the last store that waits there reaches memory."""
        thread, instruction = gap_place(self.gap)
        self.passing = next(i for i, step in enumerate(self.steps) if (self.threads[i], step["instruction"]) == (thread, instruction))
        left = len(self.states[self.passing][2][thread])
        arrivals = [i for i, step in enumerate(self.steps) if i >= self.passing and step["label"] == f"f{thread}"]
        self.arrival = arrivals[left - 1]

    def text(self, i):
        number = self.steps[i]["instruction"]
        return None if number is None else self.document["threads"][self.threads[i]]["instructions"][number]["text"]

    def edges(self):
        return [(edge["relation"], edge["event"], self.cycle[(i + 1) % len(self.cycle)]["event"]) for i, edge in enumerate(self.cycle)]

    def is_around_gap(self, first, second):
        if not self.gap:
            return False
        thread, number = gap_place(self.gap)
        return self.threads[first] == self.threads[second] == thread and self.steps[first]["instruction"] < number <= self.steps[second]["instruction"]

    def shown_threads(self, whole):
        """The threads that the graph shows."""
        some = {self.threads[edge["event"]] for edge in self.cycle}
        return {thread for thread in range(len(self.document["threads"])) if whole or not some or thread in some}

    def command(self):
        model = "--model sequential " if self.run.get("model") == "sequential" else ""
        return f"fencer trace {model}LITMUS " + " ".join(step["label"] for step in self.steps)


def cells(names, values, former, written):
    return [[name, str(value), str(old) if value != old else "", value != old or name == written] for name, value, old in zip(names, values, former)]


def programs(document):
    def labels(names):
        return "".join(name + ": " for name in names)
    return [[labels(line["labels"]) + line["text"] for line in thread["instructions"]] + ([labels(thread["end"]).strip()] if thread["end"] else [])
            for thread in document["threads"]]


def is_within(point, box):
    return box[0] - 1.5 <= point[0] <= box[2] + 1.5 and box[1] - 1.5 <= point[1] <= box[3] + 1.5  # slots stand 3 apart


def check_step(run, n, page):
    """All that is shown after n steps."""
    last, where = len(run.steps), f"{run.where}, step {n}"
    step = run.steps[n - 1] if n else None
    memory, former = run.states[n][0], run.states[max(0, n - 1)][0]
    same(page["count"], f"Step {n} of {last}" if n else "Start", where + ": count")
    same(page["slider"], str(n), where + ": slider")
    same(page["valueText"], run.place(n), where + ": the slider's text")
    reached = step and step["reaches"] and step["reaches"]["location"]
    same(page["memory"], cells(run.document["locations"], memory, former, reached), where + ": memory")
    for thread, column in enumerate(page["threads"]):
        check_thread(run, n, thread, column)
    passing = run.gap and run.passing < n <= run.arrival
    same(page["passing"], [run.gap] if passing else [], where + ": the fence is passed")
    same(page["unused"], [n == 0, n == 0, False, n == last, n == last], where + ": buttons")
    same(set(page["moments"]) <= {f"step {n}"}, True, where + ": moments")
    same((page["row"], page["later"]), ([str(n)] if n else [], last - n), where + ": rows")
    is_event = n and (step["reads"] or step["stores"]) and run.threads[n - 1] in run.shown_threads(False)
    same(page["here"], [str(n - 1)] if is_event else [], where + ": event")
    check_words(run, n, page["said"])
    check_arrows(run, n, page)


def check_thread(run, n, thread, column):
    where = f"{run.where}, step {n}, P{thread}"
    mine = n > 0 and run.threads[n - 1] == thread
    number = run.steps[n - 1]["instruction"] if mine else None
    now = [] if number is None else [f"{thread}:{number}"]
    same((column["now"], column["lit"]), (now, now), where + ": instruction")
    check_buffer(run, n, thread, column)
    written = register_of(run.text(n - 1)) if mine else None
    former = run.states[max(0, n - 1)][1][thread]
    same(column["cells"], cells(run.document["registers"][thread], run.states[n][1][thread], former, written), where + ": registers")
    executed = [run.steps[i]["instruction"] for i in range(n) if run.threads[i] == thread]
    passed = [k for k in range(run.next_instruction(n, thread)) if f"{thread}:{k}" not in now]
    same(column["done"], [f"{thread}:{k}" for k in passed if k in executed], where + ": what is done")
    same(column["struck"], [f"{thread}:{k}" for k in passed if k not in executed], where + ": what is jumped over is struck out")


def check_buffer(run, n, thread, column):
    """What waits, what came in and what left; nothing in a run of the sequential machine."""
    where, waiting, former = f"{run.where}, step {n}, P{thread}", run.states[n][2][thread], run.states[max(0, n - 1)][2][thread]
    same(column["full"], [assignment(store) for store in waiting], where + ": buffer, oldest first")
    bottoms = [slot[3] for slot in column["slots"]]
    same(bottoms, sorted(bottoms, reverse=True), where + ": the oldest store is the lowest")
    same(len(column["slots"]), 0 if run.sequential else run.slots[thread], where + ": slots")
    same(column["came"], [assignment(waiting[-1])] if len(waiting) > len(former) else [], where + ": the store that came")
    same("".join(column["left"]), assignment(former[0]) if len(waiting) < len(former) else "", where + ": the store that left")


def check_words(run, n, said):
    where = f"{run.where}, step {n}: sentence"
    last = n == len(run.steps)
    same(verdict(run) in said, bool(last and run.gap), where + ", verdict")
    same(f"The outcome is {run.outcome}" in said, last, where + ", outcome")
    same("the fence that is left out would have made" in said, bool(run.gap) and n - 1 == run.passing, where + ", the fence")
    if n == 0:
        return
    step, text = run.steps[n - 1], run.text(n - 1)
    right((text or assignment(step["reaches"])) in said, where + ", what")
    same(re.findall(r"jumps to (\S+)\.", said), [run.jump(n - 1)] if run.jump(n - 1) else [], where + ", where it jumps to")
    for part in ("reads", "stores"):
        right(not step[part] or assignment(step[part]) in said, f"{where}, {part}")
    if step["reads"] and not step["stores"]:
        same("from its own store buffer" in said, step["reads"]["from"] == "buffer", where + ", from where")
    if step["stores"]:
        same("goes into its store buffer" in said, not step["reaches"], where + ", to where")
    right(not run.sequential or "buffer" not in said, where + ", no buffer")


def check_arrows(run, n, page):
    """What moves: an arrow from where it was to where it is now."""
    where, wanted = f"{run.where}, step {n}: arrow", []
    if n:
        step, thread = run.steps[n - 1], run.threads[n - 1]
        column, locations = page["threads"][thread], run.document["locations"]
        if step["reads"]:
            own = [i for i, store in enumerate(run.states[n - 1][2][thread]) if store["location"] == step["reads"]["location"]]
            source = column["slots"][own[-1]] if step["reads"]["from"] == "buffer" else page["locations"][locations.index(step["reads"]["location"])]
            wanted.append((source, column["registers"][run.document["registers"][thread].index(register_of(run.text(n - 1)))]))
        if step["stores"] and not step["reaches"]:
            wanted.append((None, column["slots"][len(step["buffer"]) - 1]))
        if step["reaches"]:
            wanted.append((None if step["stores"] else column["slots"][0], page["locations"][locations.index(step["reaches"]["location"])]))
    same(len(page["arrows"]), len(wanted), where)
    for points, (source, target) in zip(page["arrows"], wanted):
        right(source is None or is_within(points[:2], source), f"{where} from {points[:2]} {source}")
        right(is_within(points[-2:], target), f"{where} to {points[-2:]} {target}")


def rows(run):
    """The table of a run."""
    for i, step in enumerate(run.steps):
        does = []
        if step["reads"]:
            does.append(f"reads {assignment(step['reads'])} from {'its buffer' if step['reads']['from'] == 'buffer' else 'memory'}")
        if step["stores"]:
            does.append("stores " + assignment(step["stores"]))
        if run.jump(i):
            does.append("jumps to " + run.jump(i))
        mark = f" ← {run.gap}" if run.gap and i == run.passing else ""
        waits = [] if run.sequential else [" ".join(map(assignment, step["buffer"])) or "–"]
        yield [str(i + 1), step["label"], f"P{run.threads[i]}", run.text(i) or "–", ", ".join(does) or "–",
               *waits, (assignment(step["reaches"]) if step["reaches"] else "–") + mark]


def place_words(document, gap, more=""):
    """An instruction with its thread, its gap and its line of the file."""
    thread, number = gap_place(gap)
    cell = document["threads"][thread]["instructions"][number]
    return f"before {cell['text']} of P{thread} (gap {gap}, line {cell['line']}{more})"


def tie_of(document, gap):
    """The gaps that go together with a gap, itself among them."""
    return next((tie for tie in document.get("ties", []) if gap in tie), [gap])


def tie_words(document, gap):
    """The instructions after a gap and those that go together with it."""
    return listed([place_words(document, own).removeprefix("before ") for own in tie_of(document, gap)], " and ")


def together(document, gap):
    """What is said of a fence that stands with others or not at all."""
    others = [other for other in tie_of(document, gap) if other != gap]
    return f" with {', '.join(others)}" if others else ""


def verdict(run):
    """That no sequential run ends so."""
    if "condition" not in run.document.get("answer", {}):
        return "No sequential run has this outcome."
    so, verb = happening(run.document, run.run["meets_condition"]), happening(run.document, True).split(" ")[-1]
    return f"{so} in this run" + (", and in no sequential run." if run.run["meets_condition"] else f"; it {verb} in each sequential run.")


def formula(document):
    """The formula of the condition, without the parentheses around it."""
    return re.fullmatch(r"(?:~exists|exists|forall) \((.*)\)", document["condition"])[1]


def happening(document, meets):
    """That what the condition is about is so, or is not, by its quantifier."""
    quantifier, about = document["condition"].split(" ")[0], formula(document)
    subject = f"What must not happen ({about})" if quantifier == "~exists" else about
    yes, no = ("holds", "fails") if quantifier == "forall" else ("happens", "does not happen")
    return f"{subject} {yes if meets else no}"


def condition_words(document, meets):
    """What is said of the run's outcome and the file's condition."""
    quantifier = document["condition"].split(" ")[0]
    begins = happening(document, meets) + " in this run"
    if meets != (quantifier != "forall"):
        return begins
    sequential = any(note["kind"] in ("no_fence_mends", "happens_sequentially") for note in document.get("notes", []))
    return begins + (", and in a sequential run too, which ends otherwise." if sequential else ", and in no sequential run.")


def check_run(run, page):
    """What is shown once for a run."""
    document, where = run.document, run.where
    gaps = document["answer"]["set"] if run.gap else document.get("fences", [])
    cost = {gap["gap"]: gap["cost"] for gap in document.get("gaps", [])}
    left_out = [other["without"] for other in document["runs"]] if run.gap else []
    tabs = [[", ".join(f"P{gap_place(own)[0]} {own}" for own in tie_of(document, gap)), f"without the fence before {tie_words(document, gap)}",
             "true" if gap == run.gap else "false", 0 if gap == run.gap else -1] for gap in left_out]
    same(page["tabs"], tabs, where + ": tabs")
    fences = [[gap, f"MFENCE{' left out,' if gap in run.tie else ''}{f' cost {cost[gap]}' if cost else ''}{together(document, gap)}", gap in run.tie, gap]
              for gap in gaps]
    same(page["fences"], fences, where + ": fences, each before its instruction")
    same(page["programs"], programs(document), where + ": program")
    heads = [head for head in HEADS if not (run.sequential and head == "still waits")]
    same((page["heads"], page["rows"]), (heads, list(rows(run))), where + ": table")
    right(not run.sequential or "buffer" not in page["text"], where + ": no buffer on the sequential machine")
    same(page["commands"], [run.command()], where + ": command")
    same(page["pass"], run.passing if run.gap else -1, where + ": the row that passes the gap")
    end = f"step {len(run.steps)}The run ends with {run.outcome} "
    right(page["moments"][-1].startswith(end), where + ": how it ends")
    check_decision(run, page["moments"], page["bad"])
    if not run.gap:
        said = f"It passes {', '.join(run.run['passed'])}." if run.run["passed"] else "It passes no gap."
        return same([passed.startswith(said) for passed in page["passed"]], [] if run.sequential else [True], where + ": passed gaps")
    right(f"{'fence' if len(run.tie) == 1 else 'fences'} before {tie_words(document, run.gap)}" in page["title"], where + ": which fence is left out")
    first = f"step {run.passing + 1}P{gap_place(run.gap)[0]} goes on to {run.text(run.passing)} while"
    found = [moment for moment in page["moments"] if moment.startswith(first)]
    reads = run.steps[run.passing]["reads"]
    right(len(found) == 1 and (not reads or f"and reads {assignment(reads)}." in found[0]), where + ": the moment of the gap")
    alone = "condition" in document["answer"]
    said = end + verdict(run) + ("" if alone else " " + condition_words(document, run.run["meets_condition"]))
    right(page["moments"][-1].startswith(said), where + ": condition")
    keeps = not alone and run.breaks() is None
    same("fewer fences may be enough: fencer why --condition LITMUS" in page["moments"][-1], keeps, where + ": whether the condition needs fewer")
    others = [place_words(document, gap, f", cost {cost[gap]}") for gap in run.run["passed"] if gap not in run.tie]
    same(page["also"], [f"A fence {listed(others, ' or ')} would prevent this run too."] if others else [], where + ": other gaps")
    return None


def check_decision(run, moments, bad):
    """The step that breaks the condition, or meets it, is named; where the condition is asked about, the step that decides it. It is
    bad in a run that a fence prevents, and where it breaks the condition."""
    asked = run.document["command"] == "witness" or "condition" in run.document.get("answer", {})
    says = {"breaks": f"This breaks the condition {run.document['condition']}.", "meets": f"This meets the condition {run.document['condition']}.",
            None: f"From here on the formula of the condition is {str(run.run['meets_condition']).lower()}." if asked else None}[run.breaks()]
    found = [moment for moment in moments[:-1] if says and moment.endswith(says)]
    same(len(found), 1 if says and run.decided else 0, run.where + ": the step that decides the condition")
    others = [moment for moment in moments[:-1] if "the condition" in moment and moment not in found]
    same(others, [], run.where + ": no other step decides the condition")
    if found:
        right(re.match(rf"step {run.decided}(?!\d)", found[0]), f"{run.where}: it is step {run.decided}: {found[0]}")
        same(found[0] in bad, bool(run.gap) or run.breaks() == "breaks", f"{run.where}: whether it is bad: {found[0]}")
        reads, reaches = run.steps[run.decided - 1]["reads"], run.steps[run.decided - 1]["reaches"]
        right(not reads or f"reads {assignment(reads)}" in found[0], run.where + ": what the deciding step reads")
        right(reads or not reaches or assignment(reaches) in found[0], run.where + ": what reaches memory in the deciding step")
    numbers = [int(re.match(r"step (\d+)", moment)[1]) for moment in moments]
    same(numbers, sorted(numbers), run.where + ": the moments are in order")


def check_graph(run, page, whole):
    """The candidate execution: its cycle's threads and edges, or all of it."""
    where, execution, cycle = run.where + (", whole graph" if whole else ", graph"), run.run["execution"], run.edges()
    threads = run.shown_threads(whole)
    edges = [[f"{relation} {first} {second}", (relation, first, second) in cycle]
             for relation in ("po", "rf", "co", "fr") for first, second in execution[relation]
             if whole or (relation, first, second) in cycle or relation == "po" and run.threads[first] in threads]
    same(sorted(page["edges"]), sorted(edges), where + ": edges")
    events = [str(i) for i, step in enumerate(run.steps) if (step["reads"] or step["stores"]) and run.threads[i] in threads]
    initial = {first for relation in ("rf", "co") for first, _ in execution[relation] if isinstance(first, str)} if whole else set()
    same(sorted(page["events"]), sorted([*events, *initial]), where + ": events")
    same(sorted(page["red"]), sorted(str(first) for _, first, _ in cycle), where + ": red events")
    right(page["isInside"], where + ": the texts lie in their boxes")
    same(len(page["cycle"]), len(cycle), where + ": sentences")
    for sentence, (relation, first, second) in zip(page["cycle"], cycle):
        begins = f"P{run.threads[first]}'s {run.text(first)} "
        right(sentence.startswith(begins) and f"P{run.threads[second]}'s {run.text(second)}" in sentence and f"({relation})" in sentence, f"{where}: {sentence}")
    around = [1 for first, second in execution["po"] if run.threads[first] in threads and run.is_around_gap(first, second)]
    same(page["cuts"], len(around), where + ": the fence that is left out")
    leads_over = any(run.is_around_gap(first, second) for _, first, second in cycle)
    same(page["aside"], 1 if run.gap and not leads_over else 0, where + ": whether the cycle leads over the fence")
    same(page["acyclic"], 0 if cycle else 1, where + ": no cycle")


def check_whole_run(browser, run, presses):
    check_run(run, shown(browser, "pageShown()"))
    check_graph(run, shown(browser, "graphShown()"), False)
    browser.evaluate("document.querySelector('.pick input').click()")
    check_graph(run, shown(browser, "graphShown()"), True)
    browser.evaluate("document.querySelector('.pick input').click(), document.activeElement.blur()")
    last = len(run.steps)
    pages = shown(browser, f"runShown({last})")
    for n, page in enumerate(pages):
        check_step(run, min(n, last), page)
    if presses:
        check_presses(browser, run)


def check_presses(browser, run):
    """Each button, the slider, and the keys that step."""
    last = len(run.steps)

    def button(number):
        return lambda: browser.click(f".controls button:nth-of-type({number})")

    presses = [(lambda: browser.key("ArrowLeft"), last - 1), (button(1), 0), (button(4), 1), (button(2), 0), (lambda: browser.key("End"), last),
               (lambda: browser.key("Home"), 0), (button(5), last), (lambda: browser.evaluate("document.querySelector('#step').focus()"), last),
               (lambda: browser.key("Home"), 0), (lambda: browser.key("ArrowRight"), 1), (lambda: browser.key("End"), last),
               (lambda: browser.key("ArrowLeft"), last - 1), (lambda: browser.click("tbody tr:nth-child(2) td"), 2),
               (lambda: browser.key("ArrowRight"), 3)]
    if run.gap:
        presses.append((lambda: browser.click(".moments button"), run.passing + 1))
    for press, n in presses:
        press()
        check_step(run, n, shown(browser, "stepShown()"))
    check_hints(browser, run)


def check_hints(browser, run):
    """The slider says what the step is that the mouse is over."""
    last = len(run.steps)
    left, top, width, height = browser.evaluate("(({ left, top, width, height }) => [left, top, width, height])(document.querySelector('#step').getBoundingClientRect())")
    hint = "(bubble => bubble.checkVisibility() ? bubble.textContent : null)(document.querySelector('.bubble'))"
    for n in (0, 1, last // 2, last):
        browser.move(left + 8 + (width - 16) * n / last, top + height / 2)
        same(browser.evaluate(hint), run.place(n), f"{run.where}: what the slider says of step {n}")
    browser.move(left, top + height + 200)
    same(browser.evaluate(hint), None, run.where + ": the slider says nothing where the mouse is elsewhere")


def check_sizes(browser, run, thorough):
    """In windows of each size: memory, buffers, registers and the executed instruction are in sight, at every step or at some of them,
    nothing is cut off, the width is used, and the tabs take few rows. On a telephone many threads scroll in a box that is in sight, with
    the one of the step in sight there."""
    last = len(run.steps)
    for width, height in SIZES:
        browser.resize(width, height)
        where, threads = f"{run.where} at {width} by {height}", len(run.document["threads"])
        fit = width >= 1280 or threads <= BESIDE
        threads_of_steps = json.dumps([None if fit else thread for thread in [0, *run.threads]])
        steps = last if thorough or not fit else min(last, SOME_STEPS)
        same(shown(browser, f"outOfSight({last}, {steps}, {threads_of_steps})"), [], where + ": in sight")
        same(shown(browser, "cutOff()"), [], where + ": nothing is cut off")
        same(shown(browser, "emptyParts()"), [], where + ": the width is used")
        same(shown(browser, "tabRows()") <= (1 if width >= 1280 else 3), True, where + ": rows of tabs")
    browser.resize(*SIZES[0])


def check_introduction(browser, where):
    """What the page is about is folded, and unfolds."""
    reads = "document.querySelector('.about p').checkVisibility()"
    same(browser.evaluate(reads), False, where + ": the introduction is folded")
    browser.click(".about summary")
    same(browser.evaluate(reads), True, where + ": the introduction unfolds")
    browser.click(".about summary")


def count_words(document):
    """How many fences the answer has, or lines where some gaps go together."""
    parts, gaps = len(document["runs"]), len(document["answer"]["set"])
    if "ties" in document:
        return f"{'one fenced line' if parts == 1 else f'{parts} fenced lines'} ({gaps} MFENCEs)"
    return "a fence" if parts == 1 else f"{parts} fences"


def check_answer(browser, document):
    """What is said above the runs."""
    page, gaps = shown(browser, "pageShown()"), document["answer"]["set"]
    some = len(gaps)
    same(page["heading"], f"Why {document['test']} needs {count_words(document)}", "heading")
    for gap in gaps if some <= 3 else []:
        right(place_words(document, gap) in page["lead"], "the answer in a sentence")
    right(f"cost{'s' if some == 1 else ''} {document['answer']['cost']}; no cheaper" in page["lead"], "cost")
    same((page["scripts"], page["foreign"], page["panels"]), (2, 0, 1), "nothing of the document becomes markup")
    same("that the file's condition and its locations line name" in page["text"], document["answer"]["observed"], "what is observed")
    same("as far as the file's condition tells them apart" in page["text"], "condition" in document["answer"], "what the condition tells apart")


def check_tab_keys(browser, some):
    browser.click("#tab0")
    for key, wanted in [("ArrowRight", 1), ("ArrowLeft", 0), ("ArrowLeft", some - 1), ("Home", 0), ("End", some - 1)]:
        browser.key(key)
        chosen = browser.evaluate("[document.activeElement.id, document.querySelector('[aria-selected=true]').id]")
        same(chosen, [f"tab{wanted}", f"tab{wanted}"], "tabs by " + key)


def check_address(browser, path, run):
    browser.open(path, f"{run.gap or 'run'}/2")
    check_step(run, 2, shown(browser, "stepShown()"))
    same(browser.evaluate("document.querySelectorAll('.token').length"), 0, "no motion on opening")
    browser.key("ArrowLeft")
    end, wanted = time.time() + ADDRESS_DELAY, f"#{run.gap or 'run'}/1"
    while browser.evaluate("location.hash") != wanted and time.time() < end:
        time.sleep(0.05)
    same(browser.evaluate("location.hash"), wanted, "address")


def check_looks(browser, path, run):
    """Contrast, width, motion, names for screen readers, and paper."""
    at, last = run.gap or "run", len(run.steps)
    for calm in (False, True):
        browser.open(path, at + "/0", calm=calm)
        wanted = not calm and bool(run.steps[0]["stores"] or run.steps[0]["reads"])
        same(shown(browser, "tokensOfStep()") > 0, wanted, f"{run.where}: motion, unwanted {calm}")
    for dark in (False, True):
        for width, height in SIZES:
            browser.open(path, f"{at}/0", width=width, height=height, dark=dark)
            for n in (0, 2, last):
                browser.evaluate(f"(() => {{ const slider = document.querySelector('#step'); slider.value = {n}; slider.dispatchEvent(new Event('input')); }})()")
                same(shown(browser, "faintTexts()"), [], f"{run.where}: contrast at {width}, dark {dark}")
                right(browser.evaluate("document.documentElement.scrollWidth <= innerWidth"), f"{run.where}: fits {width}")
    nodes = browser.call("Accessibility.getFullAXTree")["nodes"]
    names = [(node["role"]["value"], node.get("name", {}).get("value", "")) for node in nodes if not node["ignored"]]
    for control in CONTROLS if run.gap else ("button", "slider", "region", "table"):
        right(any(role == control for role, _ in names), f"{run.where}: there is a {control}")
        right(all(name for role, name in names if role == control), f"{run.where}: each {control} has a name")
    browser.open(path, at + "/2", media="print", dark=True)
    found = browser.evaluate("['.controls', '.arrows'].map(part => getComputedStyle(document.querySelector(part)).display)")
    same((found, browser.evaluate("getComputedStyle(document.body).backgroundColor")), (["none", "none"], "rgb(255, 255, 255)"), "paper")


def check_play(browser, path):
    browser.open(path, calm=True)
    step = "document.querySelector('#step').value"
    browser.click(".controls button:nth-of-type(3)")
    time.sleep(2)
    right(browser.evaluate(step) != "0", "play")
    browser.click(".controls button:nth-of-type(3)")
    paused = browser.evaluate(step)
    time.sleep(2)
    same(browser.evaluate(step), paused, "pause")
    for focused in ("body", "#tab0", "#step", ".table"):
        browser.open(path, calm=True)
        if focused != "body":
            browser.evaluate(f"document.querySelector('{focused}').focus()")
        for wanted in ("⏸ Pause", "▶ Play"):
            browser.key(" ")
            same(browser.evaluate("document.querySelector('.controls button:nth-of-type(3)').textContent"), wanted, f"Space at {focused}")


def check_silence(browser):
    """No exception, no line on the console, and no request but for the page itself."""
    for event in browser.events:
        right(event["method"] not in SILENT, f"silence: {event}")
        if event["method"] == "Network.requestWillBeSent":
            right(re.match("file:|data:|about:", event["params"]["request"]["url"]), f"no network: {event}")


def note_words(document, note):
    """What the page says of a note: of the condition by its formula, of a slip by its line."""
    if note["kind"] in ("no_fence_mends", "happens_sequentially"):
        is_for_all = document["condition"].startswith("forall")
        shows = f" fencer witness --model sequential {'--not ' if is_for_all else ''}LITMUS shows such a run."
        end = f": no fence mends it.{shows}" if note["kind"] == "no_fence_mends" else "."
        return f"{happening(document, not document['condition'].startswith('forall'))} without store buffers too{end}"
    begins = f"Line {note['line']}: {note['message']}" if note["line"] else note["message"][0].upper() + note["message"][1:]
    return begins + ("" if begins.endswith("?") else ".")


def check_notes(browser, document):
    """What is said beside the answer."""
    wanted = [note_words(document, note) for note in document.get("notes", [])]
    same(shown(browser, "pageShown()")["notes"], wanted, f"{document['test']}: what is said beside the answer")


def check_no_fence(browser, document):
    page = shown(browser, "pageShown()")
    mends = any(note["kind"] == "no_fence_mends" for note in document.get("notes", []))
    same(page["heading"], f"{document['test']} {'is wrong without store buffers too: no fence mends it' if mends else 'needs no fence'}", "heading")
    right("Every outcome is sequential" in page["text"], "empty answer")
    same((page["controls"], page["tabs"]), (0, []), "no player")
    same(page["programs"], programs(document), "program")
    right(f"The file's condition: {document['condition']}" in page["text"], "condition")


def machine_words(document):
    """The machine of a run that is sought, with its fences."""
    machine = "on the machine with store buffers" if document["model"] == "buffered" else "on the sequential machine"
    places = [place_words(document, gap) for gap in document["fences"]]
    return machine + (f", with MFENCE {listed(places, ' and ')}" if places else "")


def verdict_there(document):
    """Whether the condition holds of the machine in which a run is sought, where that is known."""
    # whether some run meets the formula, and whether every one does
    some, every = {(True, True): (True, None), (True, False): (None, False), (False, True): (False, False), (False, False): (True, True)}[
        document["run"] is not None, document["meets_condition"]]
    holds = {"exists": some, "~exists": None if some is None else not some, "forall": every}[document["condition"].split(" ")[0]]
    return "" if holds is None else f" So the condition {document['condition']} {'holds' if holds else 'fails'} there."


def check_sought(browser, document):
    """A run that is sought, or that there is none."""
    page, meets, test, about = shown(browser, "pageShown()"), document["meets_condition"], document["test"], formula(document)
    subject, verb = re.fullmatch(r"(.*) (\w+)", happening(document, True)).groups()
    if document["run"]:
        leaves = "leaves" if meets else "does not leave"
        same(page["heading"], f"{happening(document, meets)} in a run of {test}", "heading")
        return same(page["lead"], f"A run {machine_words(document)}, which {leaves} {about}.{verdict_there(document)}", "what run it is")
    same(page["heading"], f"{subject} never {verb} in {test}" if meets else f"{subject} {verb} in every run of {test}", "heading")
    same(page["lead"], f"{'No' if meets else 'Each'} run {machine_words(document)} leaves {about}.{verdict_there(document)}", "that there is none")
    same((page["controls"], page["tabs"]), (0, []), "no player")
    same(page["programs"], programs(document), "program")
    same([fence[0] for fence in page["fences"]], document["fences"], "fences")
    right(f"The file's condition: {document['condition']}" in page["text"], "condition")
    return None


def check_page(browser, path, document, thorough):
    """Opens a page and compares it with its document; thorough adds keys, buttons and looks."""
    browser.open(path, calm=True)
    check_notes(browser, document)
    runs = [Run(document, run) for run in document.get("runs", [document.get("run")]) if run]
    if document["command"] == "witness":
        check_sought(browser, document)
    elif not runs:
        check_no_fence(browser, document)
    elif runs[0].gap:
        check_answer(browser, document)
    else:
        same(shown(browser, "pageShown()")["heading"], f"A run of {document['test']}", "heading")
    for i, run in enumerate(runs):
        if run.gap:
            browser.evaluate(f"document.querySelector('#tab{i}').click(), document.activeElement.blur()")
        check_whole_run(browser, run, thorough and i == 0)
        if i == 0:
            check_sizes(browser, run, thorough)
    if runs:
        check_introduction(browser, document["test"])
    if thorough and len(runs) > 1:
        check_tab_keys(browser, len(runs))
    check_silence(browser)
    if thorough and runs:
        check_address(browser, path, runs[-1])
        check_looks(browser, path, runs[0])
        check_silence(browser)
