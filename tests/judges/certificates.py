"""What `fencecheck` says of a certificate: whether it is valid, or its first fault, as docs/formats.md and docs/definitions.md say it (*Trees and
certificates*, *Early trees*)."""
import re

from judges import machine
from judges.certificate_texts import LOCATIONS_FROM, Refused, read
from judges.data_flow import without_dead_loads
from judges.sketches import Mode, empty_sketch

RULES = {1: "whole", 2: "whole", 4: "early"}
FAULTS = {
    "Set": 1, "Cost": 2, "SequentialRun": 3, "SequentialTree": 4, "Run": 5, "NotForeign": 6, "FencedTree": 7, "GapTree": 8, "Shown": 10,
}
WORDS = re.compile(r"(?:\d+:)?\w+=\d+|/\\|\\/|[()]|not|true|false")


def parsed(words):
    """A formula of the words of a canonical condition, which are taken from the list: a sign or `not` with its parts, an atom with its value, or a truth."""
    word = words.pop(0)
    if word == "(":
        first, sign = parsed(words), words.pop(0)
        return first if sign == ")" else (sign, first, (parsed(words), words.pop(0))[0])
    if word == "not":
        return word, parsed(words)
    name, _, value = word.partition("=")
    return (word,) if not value else ("=", name, int(value))


def atoms_of(formula):
    return [formula[1:]] if formula[0] == "=" else [atom for part in formula[1:] for atom in atoms_of(part)]


def is_known(formula, wanted, knows):
    """Whether a formula is known to have this truth, by what is known of its atoms: a conjunction is false where a part is, whatever the other is."""
    sign, *parts = formula
    if sign == "=":
        return knows(wanted, *parts)
    if sign in ("true", "false"):
        return wanted == (sign == "true")
    if sign == "not":
        return is_known(parts[0], not wanted, knows)
    each = (is_known(part, wanted, knows) for part in parts)
    return all(each) if wanted == (sign == "/\\") else any(each)


def total(costs, gaps):
    return sum(costs[gap] for gap in gaps)


def is_better(costs, gaps, others):
    """Whether one set of gaps is better than another: cheaper, or as cheap and with the least gap of the difference."""
    cost, other = total(costs, gaps), total(costs, others)
    return cost < other or cost == other and gaps != others and min(gaps ^ others) in gaps


class Question:
    """A program with what is shown of its outcomes, as a certificate asks for it: all, what its condition and `locations` name, or its formula's truth."""

    def __init__(self, test, canonical, asked):
        self.test = test
        self.formula = parsed(WORDS.findall(canonical.splitlines()[-1].split(" ", 1)[1]))
        listed = re.search(r"^locations \[(.*)\]$", canonical, re.M)
        names = {name for name, _ in atoms_of(self.formula)} | set(re.findall(r"[\w:]+", listed[1] if listed else ""))
        self.is_truth = asked == "condition"
        every = [*range(6 * len(test.code)), *(LOCATIONS_FROM + location for location in range(len(test.memory)))]
        self.places = every if asked == "all" else sorted(map(self.place_of, names))
        self.shown = asked if isinstance(asked, str) else self.places

    def judged(self, version):
        """The program by which a certificate of this version is judged: in version 4 without its dead loads."""
        if RULES[version] == "whole":
            return self.test
        told = {self.place_of(name) for name, _ in atoms_of(self.formula)} if self.is_truth else self.places
        return without_dead_loads(self.test, {(place // 6, machine.REGISTERS[place % 6]) for place in told if place < LOCATIONS_FROM})

    def place_of(self, name):
        """The place of a register or a location by its name in a condition."""
        if ":" not in name:
            return LOCATIONS_FROM + self.test.locations.index(name)
        t, register = name.split(":")
        return 6 * int(t) + machine.REGISTERS.index(register.capitalize())

    def show(self, outcome):
        """What is shown of an outcome: the values of the shown places, or a truth."""
        values = {**{6 * t + r: value for t, own in enumerate(outcome[0]) for r, value in enumerate(own)}, **dict(enumerate(outcome[1], LOCATIONS_FROM))}
        if self.is_truth:
            return is_known(self.formula, True, lambda wanted, name, value: (values[self.place_of(name)] == value) == wanted)
        return [values[place] for place in self.places]

    def must_end(self, sketch, shown):
        """Whether this is shown of each completion of a sketch."""
        if self.is_truth:
            return is_known(self.formula, shown, lambda wanted, name, value: self.is_known_atom(sketch, wanted, self.place_of(name), value))
        return sketch.is_whole() and all(self.last_values(sketch, place) <= {value} for place, value in zip(self.places, shown))

    def is_known_atom(self, sketch, wanted, place, value):
        """Whether it is known that a place ends with this value, or that it does not: a register once each read of its thread has its value, a location once
        each read has."""
        is_there = sketch.is_whole() if place >= LOCATIONS_FROM else sketch.traces[place // 6].next_read is None
        return is_there and all((last == value) == wanted for last in self.last_values(sketch, place))

    def last_values(self, sketch, place):
        """The values with which a place may end."""
        return sketch.last_values(place - LOCATIONS_FROM) if place >= LOCATIONS_FROM else {sketch.traces[place // 6].last[2][place % 6]}


class Judge:
    """A certificate before a judge: the program with what is shown, and what each gap costs."""

    def __init__(self, question, costs, certificate):
        self.question, self.test, self.costs, self.certificate = question, question.judged(certificate.version), costs, certificate
        self.rule = RULES[certificate.version]
        self.places = self.test.gaps()
        self.set = set(certificate.gaps)

    def fault(self):
        """The first fault, with its detail; nothing where the certificate is valid."""
        claimed = self.certificate
        if claimed.shown != self.question.shown:
            return "Shown", None
        if not self.set <= set(range(len(self.places))):
            return "Set", None
        if claimed.cost != total(self.costs, self.set):
            return "Cost", None
        ended = [machine.replayed(self.test, labels, (), False) for labels in claimed.seq]
        if None in ended:
            return "SequentialRun", ended.index(None)
        self.outcomes = [self.question.show(outcome) for outcome, _ in ended]
        path = self.wrong_node(claimed.tree, empty_sketch(Mode(self.test, self.rule)), self.sketches_below)
        if path is not None:
            return "SequentialTree", path
        ended = [machine.replayed(self.test, labels, (), True) for labels in claimed.runs]
        if None in ended:
            return "Run", ended.index(None)
        foreign = [self.question.show(outcome) not in self.outcomes for outcome, _ in ended]
        if not all(foreign):
            return "NotForeign", foreign.index(False)
        path = self.wrong_node(claimed.fenced, empty_sketch(Mode(self.test, self.rule, {self.places[gap] for gap in self.set})), self.sketches_below)
        if path is not None:
            return "FencedTree", path
        self.passed = [{self.places.index(place) for place in passed} for _, passed in ended]
        path = self.wrong_node(claimed.gap_tree, (frozenset(), frozenset()), self.regions_below)
        return None if path is None else ("GapTree", path)

    def wrong_node(self, nodes, root, below):
        """The path of the first wrong node of a tree, where `below` says for what the children of a right one stand; nothing where each node is right."""
        left = [((), root)]
        for node in nodes:
            path, here = left.pop()
            children = below(node, here)
            if children is None or len(children) != node.count:
                return "".join(f"/{number}" for number in path) or "/"
            left += [((*path, number), child) for number, child in reversed(list(enumerate(children)))]
        return None

    def sketches_below(self, node, sketch):
        """The sketches of the children of a cover tree's node; nothing where the node is wrong whatever its children are."""
        if node.letter == "V":
            return sketch.with_values(*node.about)
        if node.letter == "S":
            return sketch.with_sources(self.rule, *node.about)
        if node.letter == "O":
            return sketch.with_orders(self.rule, *node.about)
        if node.letter == "C":
            return [] if sketch.is_cycle(*node.about) else None
        number, = node.about
        return [] if number < len(self.outcomes) and self.question.must_end(sketch, self.outcomes[number]) else None

    def regions_below(self, node, region):
        """The regions of the children of a gap tree's node, each with what its sets must have and never have; nothing where the node is wrong."""
        must, never = region
        if any(number >= len(self.passed) or self.passed[number] & must for number in node.about):
            return None
        free = [sorted(self.passed[number] - never) for number in node.about]
        if node.letter == "P":
            return [(must | {gap}, never | set(free[0][:place])) for place, gap in enumerate(free[0])]
        return [] if self.is_bound(must, free) else None

    def is_bound(self, must, free):
        """Whether runs bound a region that pass these gaps, each its own: no set that has the gaps of `must` and one of each run is better."""
        if len(set().union(*free)) < sum(map(len, free)):
            return False
        cheapest = (min(gaps, key=lambda gap: (self.costs[gap], gap)) for gaps in free if gaps)
        return not all(free) or not is_better(self.costs, must.union(cheapest), self.set)


def accepted_line(test, shown, cost, gaps):
    """The line that accepts a set of gaps, for what is shown."""
    kind = {"all": "", "condition": " condition"}.get(str(shown), " observed")
    return " ".join([f"accepted{kind} cost {cost} set", *("%d:%d" % test.gaps()[gap] for gap in sorted(gaps))])


def line_of(test, canonical, costs, text):
    """The line that `fencecheck` prints of a certificate's text, for a program, its canonical text and what each of its gaps costs."""
    try:
        certificate = read(text)
    except Refused as refused:
        return refused.line
    question = Question(test, canonical, certificate.shown)
    fault = Judge(question, costs, certificate).fault()
    if fault:
        name, detail = fault
        return f"refused check {FAULTS[name]} {name}" + ("" if detail is None else f" {detail}")
    return accepted_line(test, certificate.shown, certificate.cost, certificate.gaps)
