"""Sketches, worked out here alone: partly chosen candidate executions, as docs/definitions.md says it (*Candidate executions*, *Sketches*, *Early trees*).

An event is a thread and the number of its access; the initial write of a location is `INITIAL` and the location.
"""
import collections
import functools
import itertools

from judges import machine
from judges.data_flow import held_values

INITIAL = -1
READS, WRITES = ("Load", "Xchg"), ("Store", "StoreImm", "Xchg")

Access = collections.namedtuple("Access", "section location read written")
# the accesses of a thread; the place, flag and registers where it stops; the location of the read that has no value there, if it stops at one
Trace = collections.namedtuple("Trace", "accesses last next_read")


def location_of(instruction):
    """The location that an instruction reads or writes, if it does."""
    name, words = instruction[0], instruction[1].split(", ")
    return int(words[1 if name == "Load" else 0]) if name in machine.ACCESSES else None


def values_of(test, location):
    """The values of a location, ascending."""
    every = [(name, words.split(", ")) for code in test.code for name, words in code]
    values = {test.memory[location]} | {int(words[1]) for name, words in every if name == "StoreImm" and int(words[0]) == location}
    if any(name in ("Store", "Xchg") and int(words[0]) == location for name, words in every):
        values |= {0, *test.memory, *itertools.chain(*test.registers)}
        values |= {int(words[1]) for name, words in every if name in ("LoadImm", "StoreImm", "CmpImm")}
    return sorted(values)


def may_store(instruction, location, value):
    """Whether an instruction may store a value to a location: as an immediate, or from a register, which may hold it."""
    name, words = instruction
    return name in WRITES and location_of(instruction) == location and (name != "StoreImm" or int(words.split(", ")[1]) == value)


class Mode:
    """A program and its machine: the sequential one, or the store buffer machine with some gaps fenced, given as places; and the values that a rule takes:
    early those that a location may hold, else all of its values."""

    def __init__(self, test, rule, fenced=None):
        self.test, self.fenced = test, fenced or set()
        self.unions = "s" if fenced is None else "lg"
        self.values = held_values(test) if rule == "early" else [values_of(test, location) for location in range(len(test.memory))]
        self.trace = functools.lru_cache(maxsize=None)(self.traced)

    def traced(self, t, given):
        """What a thread does where its first reads have these values."""
        thread, section, accesses, values = (0, False, self.test.registers[t], ()), 0, [], list(given)
        while thread[0] < len(self.test.code[t]):
            instruction = self.test.code[t][thread[0]]
            name, location = instruction[0], location_of(instruction)
            if name in READS and not values:
                return Trace(accesses, thread, location)
            section += (t, thread[0]) in self.fenced
            read = values.pop(0) if name in READS else None
            memory = self.test.memory if read is None else machine.put(self.test.memory, location, read)
            thread, memory = machine.executed(instruction, thread, memory, False)
            if location is not None:
                accesses.append(Access(section, location, read, memory[location] if name in WRITES else None))
            section += name in ("Fence", "Xchg")
        return Trace(accesses, thread, None)


class Sketch:
    """The values that the first reads of each thread have, the sources of some reads, and some pairs of writes to one location in their order."""

    def __init__(self, mode, given, sources, pairs):
        self.mode, self.given, self.sources, self.pairs = mode, given, sources, pairs
        self.traces = [mode.trace(t, values) for t, values in enumerate(given)]

    def access(self, event):
        """What an event reads and writes; nothing where there is no such event."""
        t, i = event
        if t == INITIAL:
            return Access(0, i, None, self.mode.test.memory[i])
        return self.traces[t].accesses[i] if t < len(self.traces) and i < len(self.traces[t].accesses) else None

    def events(self):
        """The accesses, by thread and number."""
        return [(t, i) for t, trace in enumerate(self.traces) for i in range(len(trace.accesses))]

    def writes(self, location):
        """The writes of a location with their values: the initial one, and then by thread and number."""
        found = [(event, self.access(event)) for event in [(INITIAL, location), *self.events()]]
        return [(event, access.written) for event, access in found if access.location == location and access.written is not None]

    def is_whole(self):
        """Whether each read has its value."""
        return all(trace.next_read is None for trace in self.traces)

    def may_still_write(self, u, location, value):
        """Whether thread u has a next read and, there or later, an instruction that may store the value to the location."""
        trace = self.traces[u]
        return trace.next_read is not None and any(may_store(it, location, value) for it in self.mode.test.code[u][trace.last[0]:])

    def is_settled(self, read):
        """Whether no thread but its own may still write what the read has read."""
        access = self.access(read)
        return not any(u != read[0] and self.may_still_write(u, access.location, access.read) for u in range(len(self.traces)))

    # what may be chosen next, by a rule, which is `whole` or `early`: the sketches after each choice, or nothing where that is not open

    def with_values(self, t):
        """A thread's next read takes each value of its location, ascending."""
        if t >= len(self.traces) or self.traces[t].next_read is None:
            return None
        values = self.mode.values[self.traces[t].next_read]
        return [Sketch(self.mode, machine.put(self.given, t, (*self.given[t], value)), self.sources, self.pairs) for value in values]

    def with_sources(self, rule, read):
        """A read that has its value and no source takes each source: the initial write first, and then by thread and number."""
        access = self.access(read)
        if access is None or access.read is None or read in self.sources:
            return None
        return self.each_source(read) if (self.is_settled(read) if rule == "early" else self.is_whole()) else None

    def each_source(self, read):
        """The sketches in which a read has each source that it has now, by whichever rule."""
        access = self.access(read)
        sources = [event for event, value in self.writes(access.location) if event != read and value == access.read]
        return [Sketch(self.mode, self.given, {**self.sources, read: source}, self.pairs) for source in sources]

    def with_orders(self, rule, first, second):
        """Two writes to one location that have no order take both."""
        accesses = [self.access(first), self.access(second)]
        if first == second or any(it is None or it.written is None for it in accesses) or accesses[0].location != accesses[1].location:
            return None
        both = [(first, second), (second, first)]
        if not self.pairs.isdisjoint(both) or not (rule == "early" or self.is_whole()):
            return None
        return [Sketch(self.mode, self.given, self.sources, self.pairs | {pair}) for pair in both]

    # what is known of every completion

    def is_before(self, first, second, access):
        """Whether an event is known to come before a write: by a chosen pair, or as the initial write of its location."""
        return (first, second) in self.pairs or (first == (INITIAL, access.location) and second != first and access.written is not None)

    def is_edge(self, union, begin, to):
        """Whether a known edge of a union leads from an event to another."""
        x, y = self.access(begin), self.access(to)
        if x is None or y is None:
            return False
        alike, follows = begin[0] == to[0] != INITIAL, begin[0] == to[0] != INITIAL and begin[1] < to[1]
        if union == "l":
            follows = follows and x.location == y.location
        elif union == "g":
            follows = follows and (x.read is not None or y.written is not None or x.section != y.section)
        reads_from = self.sources.get(to) == begin and not (union == "g" and alike)
        from_read = begin != to and begin in self.sources and self.is_before(self.sources[begin], to, y)
        return follows or reads_from or self.is_before(begin, to, y) or from_read

    def is_cycle(self, union, events):
        """Whether a known edge of a union of the mode leads from each event to the next, and from the last to the first."""
        return bool(events) and union in self.mode.unions and all(self.is_edge(union, *pair) for pair in zip(events, [*events[1:], events[0]]))

    def last_values(self, location):
        """The values of the writes that may be the last of a location."""
        writes, begun = self.writes(location), {first for first, _ in self.pairs}
        return {value for event, value in writes if event not in begun and (event[0] != INITIAL or len(writes) == 1)}


def empty_sketch(mode):
    """The sketch in which nothing is chosen."""
    return Sketch(mode, ((),) * len(mode.test.code), {}, frozenset())
