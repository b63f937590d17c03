"""Random certificates of small random programs: an early search of its own makes their cover trees, by choices in random order, and the walked states of
the machine give their runs. Simple and slow; what is made is judged like any other certificate, and is valid where the rule is the version's.
"""
import functools
import itertools

from judges import machine
from judges.certificate_texts import Certificate, Node
from judges.certificates import RULES, Question, accepted_line, is_better, total
from judges.sketches import Mode, empty_sketch

VALUES, NAMES, REGISTERS, SIGNS = (1, 1, 2), "xyz", ("EAX", "EBX"), ("/\\", "\\/")
MOST_ACCESSES, MOST_NODES = 8, 240
# how often the search goes on at a sketch where it might close the tree
GOES_ON = 0.04


class TooLong(Exception):
    """A tree that would have too many nodes."""


def random_source(draw):
    """The litmus text of a random program of at most 8 accesses, mostly store buffering with some more, and a condition that speaks of what it names."""
    threads = draw.choice((2, 2, 2, 3))
    names, columns = NAMES[:draw.randrange(2, threads + 1)], [[] for _ in range(threads)]
    if draw.random() < 0.85:
        for column, mine, other in zip(columns, names, names[1:] + names[:1]):
            column += [f"MOV [{mine}],${draw.choice(VALUES)}", f"MOV {draw.choice(REGISTERS)},[{other}]"]
    for _ in range(draw.randrange(1, MOST_ACCESSES - sum(map(len, columns)) + 1)):
        column = draw.choice(columns)
        place = draw.randrange(len(column) + 1)
        column[place:place] = random_cells(draw, names)
    for cells in columns:
        if cells and draw.random() < 0.2:
            cells.insert(draw.randrange(len(cells)), f"CMP {draw.choice(REGISTERS)},${draw.randrange(2)}")
            cells.insert(draw.randrange(1, len(cells) + 1), f"{draw.choice(('JE', 'JNE'))} end")
            cells.append("end:")
    rows = "".join(" | ".join(row) + " ;\n" for row in itertools.zip_longest(*columns, fillvalue=""))
    head = " | ".join(f"P{t}" for t in range(threads))
    first = draw.choice(("", "", "x=1; ", "y=2; 0:EAX=1; "))
    named = draw.choice(("", "", "locations [x;]\n", "locations [0:EAX; y;]\n"))
    return f"X86 random\n{{ {first}}}\n{head} ;\n{rows}{named}{random_condition(draw, names, threads)}\n".encode()


def random_cells(draw, names):
    """The instructions of one access, and perhaps one more before them."""
    place, register, kind = draw.choice(names), draw.choice(REGISTERS), draw.random()
    before = ["MFENCE"] if draw.random() < 0.05 else [f"MOV {register},$2"] if draw.random() < 0.05 else []
    if kind < 0.38:
        return [*before, f"MOV [{place}],${draw.choice(VALUES)}"]
    if kind < 0.8:
        return [*before, f"MOV {register},[{place}]"]
    return [*before, f"{'MOV' if kind < 0.88 else 'XCHG'} [{place}],{register}"]


def random_condition(draw, names, threads):
    """A condition of one to three atoms."""
    formula = ""
    for _ in range(draw.choice((1, 2, 2, 3))):
        place = draw.choice(names) if draw.random() < 0.3 else f"{draw.randrange(threads)}:{draw.choice(REGISTERS)}"
        atom = draw.choice(("", "", "", "not ")) + f"{place}={draw.randrange(3)}"
        formula = f"({formula} {draw.choice(SIGNS)} {atom})" if formula else atom
    return f"exists ({formula})"


def ended_runs(draw, test, fenced, buffered):
    """A run for each way in which the machine's runs end, with its outcome; which run it is, is random."""
    labels = [f"{kind}{t}" for t in range(len(test.code)) for kind in ("ef" if buffered else "e")]
    before, to_walk = {machine.begun(test): None}, [machine.begun(test)]
    while to_walk:
        state = to_walk.pop()
        if machine.has_ended(test, state):
            yield run_to(before, state), machine.left(state)
        for label in draw.sample(labels, len(labels)):
            step = machine.stepped(test, fenced, buffered, state, label)
            if step and step[1] not in before:
                before[step[1]] = state, label
                to_walk.append(step[1])


def run_to(before, state):
    """The labels that lead to a state."""
    labels = []
    while before[state]:
        state, label = before[state]
        labels.insert(0, label)
    return labels


class Cover:
    """The nodes of a cover tree, each before its children, as a search makes them: the rule `none` lets each read with a value take a source."""

    def __init__(self, draw, question, rule, outcomes, mode):
        self.draw, self.question, self.rule, self.outcomes, self.nodes = draw, question, rule, outcomes, []
        self.search(empty_sketch(mode))

    def search(self, sketch):
        """The tree of a sketch: a cycle or an outcome where there is one, else a choice and the trees after it."""
        if len(self.nodes) == MOST_NODES:
            raise TooLong
        leaf = self.leaf(sketch) if self.draw.random() >= GOES_ON else None
        choice = None if leaf else self.choice(sketch)
        if choice is None:
            return self.nodes.append(leaf or self.leaf(sketch))
        letter, about, below = choice
        self.nodes.append(Node(letter, about, len(below)))
        for child in below:
            self.search(child)

    def leaf(self, sketch):
        """The leaf that closes the tree at a sketch, if there is one."""
        cycle = self.cycle(sketch)
        if cycle:
            return Node("C", cycle, 0)
        numbers = [number for number, shown in enumerate(self.outcomes) if self.question.must_end(sketch, shown)]
        return Node("K", (self.draw.choice(numbers),), 0) if numbers else None

    def cycle(self, sketch):
        """A cycle of known edges, as its union and its events; nothing where there is none."""
        for union in sketch.mode.unions:
            events = sketch.events()
            edges = {begin: [to for to in events if sketch.is_edge(union, begin, to)] for begin in events}
            for begin in self.draw.sample(events, len(events)):
                way = way_back(edges, begin)
                if way:
                    return union, way
        return None

    def choice(self, sketch):
        """A choice at a sketch, its kind random first: its letter, what it speaks of, and the sketches after it; nothing where all is chosen."""
        events = sketch.events()
        kinds = [
            ("V", [(t,) for t in range(len(sketch.traces))], sketch.with_values),
            ("S", [(read,) for read in events if sketch.access(read).read is not None and read not in sketch.sources], self.sources(sketch)),
            ("O", list(itertools.permutations(events, 2)), functools.partial(sketch.with_orders, self.rule)),
        ]
        for letter, every, after in kinds[1:] + kinds[:1] if self.rule == "none" else self.draw.sample(kinds, len(kinds)):
            for about in self.draw.sample(every, len(every)):
                below = after(*about)
                if below is not None:
                    return letter, about, below
        return None

    def sources(self, sketch):
        return sketch.each_source if self.rule == "none" else functools.partial(sketch.with_sources, self.rule)


def way_back(edges, begin):
    """A shortest way along edges from an event back to it; nothing where there is none."""
    before, level = {}, [begin]
    while level:
        after = []
        for event in level:
            for to in edges[event]:
                if to == begin:
                    way = [event]
                    while way[0] != begin:
                        way.insert(0, before[way[0]])
                    return way
                if to not in before:
                    before[to] = event
                    after.append(to)
        level = after
    return None


class Maker:
    """What is made of one program: its best set with what each gap costs, its sequential outcomes, and foreign runs with the gaps that they pass."""

    def __init__(self, draw, test, canonical, asked, costs):
        self.draw, self.test, self.costs = draw, test, costs
        self.question = Question(test, canonical, asked)
        self.places = test.gaps()
        self.runs, self.foreign = {}, []
        for labels, outcome in ended_runs(draw, test, (), False):
            self.runs.setdefault(str(self.question.show(outcome)), []).append((labels, self.question.show(outcome)))
        self.set = next(gaps for gaps in self.sets() if self.serves(gaps))
        self.line = accepted_line(test, self.question.shown, total(costs, self.set), self.set)

    def sets(self):
        """The sets of gaps, the best first."""
        every = (set(itertools.compress(range(len(self.places)), has)) for has in itertools.product((True, False), repeat=len(self.places)))
        return sorted(every, key=lambda gaps: total(self.costs, gaps))

    def serves(self, gaps):
        """Whether a set serves; a foreign run that it does not prevent is kept."""
        if any(not passed & gaps for _, passed in self.foreign):
            return False
        fenced = {self.places[gap] for gap in gaps}
        found = next((labels for labels, outcome in ended_runs(self.draw, self.test, fenced, True) if self.is_foreign(outcome)), None)
        if found:
            self.keep(found)
        return found is None

    def is_foreign(self, outcome):
        return str(self.question.show(outcome)) not in self.runs

    def keep(self, labels):
        _, passed = machine.replayed(self.test, labels, (), True)
        self.foreign.append((labels, {self.places.index(place) for place in passed}))

    def find_more(self, most):
        """Finds foreign runs besides those that the sets needed, up to so many."""
        for labels, outcome in ended_runs(self.draw, self.test, (), True):
            if most and self.is_foreign(outcome):
                self.keep(labels)
                most -= 1

    def certificate(self, version, rule):
        """A certificate of this version whose cover trees follow the rule; `TooLong` is raised where one has too many nodes."""
        draw, judged = self.draw, self.question.judged(version)
        seq = [draw.choice(runs) for runs in self.runs.values()]
        seq += [draw.choice(draw.choice(list(self.runs.values()))) for _ in range(draw.choice((0, 0, 1)))]
        draw.shuffle(seq)
        foreign = draw.sample(self.foreign, len(self.foreign))
        outcomes = [shown for _, shown in seq]
        trees = [Cover(draw, self.question, rule, outcomes, it).nodes for it in (Mode(judged, RULES[version]), Mode(judged, RULES[version], {self.places[gap] for gap in self.set}))]
        gap_tree = []
        self.split(gap_tree, [passed for _, passed in foreign], frozenset(), frozenset(), version == 4)
        runs, head = [labels for labels, _ in foreign], (version, self.question.shown, sorted(self.set), total(self.costs, self.set))
        return Certificate(*head, [labels for labels, _ in seq], trees[0], runs, trees[1], gap_tree)

    def split(self, nodes, passed, must, never, by_runs):
        """Adds the nodes of a gap tree for a region, over runs that pass these gaps: a bound where there is one, or a run that splits the region."""
        bound = self.bound(passed, must, never, by_runs)
        if bound is not None and (self.draw.random() < 0.7 or not self.better(must)):
            return nodes.append(Node("B", bound, 0))
        number = self.draw.choice([number for number, gaps in enumerate(passed) if not gaps & must])
        gaps = sorted(passed[number] - never)
        nodes.append(Node("P", (number,), len(gaps)))
        for place, gap in enumerate(gaps):
            self.split(nodes, passed, must | {gap}, never | set(gaps[:place]), by_runs)

    def bound(self, passed, must, never, by_runs):
        """The numbers of runs that bound a region, tried in random order; nothing where these don't."""
        chosen, taken, gaps = [], set(), must
        if by_runs and (self.better(gaps) or self.draw.random() < 0.3):
            for number in self.draw.sample(range(len(passed)), len(passed)):
                free = passed[number] - never
                if not passed[number] & must and not free & taken and (self.better(gaps) or self.draw.random() < 0.3):
                    chosen, taken = [*chosen, number], taken | free
                    gaps = gaps | {min(free, key=lambda gap: (self.costs[gap], gap))} if free else None
                    if gaps is None:
                        return tuple(chosen)
        return None if self.better(gaps) else tuple(chosen)

    def better(self, gaps):
        """Whether a set is better than the best one that serves."""
        return is_better(self.costs, gaps, self.set)
