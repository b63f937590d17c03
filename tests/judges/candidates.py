"""Candidate executions, gone through by the calls of sketches that `test_calls` makes: their outcomes, and a run of each.

A script is the choices of one sketch. One call of the program takes the scripts of many, each after the step `new`.
"""
import itertools
import re

from judges.machine import numbers

EVENT = re.compile(r"Initial\((\d+)\)|Access\((\d+), (\d+)\)")
ACCESS = re.compile(r"Some\(Access \{ section: \d+, location: (\d+), read: (\w+)(?:\(\d+\))?, written: (\w+)(?:\(\d+\))? \}\)")
UNIONS = {"s": "Sequential", "l": "Location", "g": "Global"}
AT_ONCE = 500
RUN = re.compile(r"registers \[(.*)\]; memory \[(.*)\]")


class Refused(Exception):
    """A sketch refuses what it has offered, or a run is not replayed to the sketch's outcome."""


def answers(call, scripts, asked):
    """What each sketch answers to the steps that are asked of it after its script."""
    steps = [["new", *script, *questions] for script, questions in zip(scripts, asked)]
    lines = call(" ".join(itertools.chain.from_iterable(steps))).replace("\nmemory ", "; memory ").split("\n")
    if len(lines) != sum(map(len, steps)) + 1:
        raise Refused(lines[:1])
    rest = iter(lines)
    for script, questions in zip(scripts, asked):
        told = list(itertools.islice(rest, 1 + len(script)))
        if any(line not in ("", "true", "Ok(())") for line in told):
            raise Refused(script, told)
        yield list(itertools.islice(rest, len(questions)))


def given(call, threads, locations):
    """The scripts that give each read a value."""
    asked = [f"next:{t}" for t in range(threads)] + [f"values:{location}" for location in range(locations)]
    level, whole = [()], []
    while level:
        after = []
        for script, told in zip(level, answers(call, level, [asked] * len(level))):
            waiting = [(t, int(location[5:-1])) for t, location in enumerate(told[:threads]) if location != "None"]
            if not waiting:
                whole.append(script)
            for t, location in waiting[:1]:
                after += [(*script, step) for step in giving(t, told[threads + location])]
        level = after
    return whole


def giving(t, values):
    """The steps that give the next read of a thread each of these values."""
    return [f"give:{t}:{value}" for value in values[1:-1].split(", ")]


def choosing(read, sources):
    """The steps that choose each of these sources for a read."""
    return [f"choose:{read}:{a or f'{t}.{k}'}" for a, t, k in EVENT.findall(sources)]


def ordering(first, second):
    """The steps that order two writes, one way and the other."""
    return [f"order:{first}:{second}", f"order:{second}:{first}"]


def to_choose(events, told):
    """What is left to choose where each read has its value: a source of each read, and an order of each two writes to one location."""
    accesses = [(event, ACCESS.fullmatch(access), sources) for event, access, sources in zip(events, told, told[len(events):])]
    there = [(event, access[1], access[2] == "Some", access[3] == "Some", sources) for event, access, sources in accesses if access]
    for event, _, reads, _, sources in there:
        if reads:
            yield choosing(event, sources)
    for (first, at, _, stores, _), (second, there_too, _, stores_too, _) in itertools.combinations(there, 2):
        if stores and stores_too and at == there_too:
            yield ordering(first, second)


def has_cycle(edges):
    """Whether a way along edges comes back to where it began: events that no edge leads to are left out until none is left, or none can be."""
    left = set(itertools.chain.from_iterable(edges))
    while left:
        first = left - {to for begin, to in edges if begin in left}
        if not first:
            return True
        left -= first
    return False


def searched_cycles(call, scripts, events, unions):
    """Of each sketch, the unions in which a plain search of its known edges comes back to where it began."""
    pairs = list(itertools.permutations(events, 2))
    asked = [f"is-edge:{union}:{begin}:{to}" for union in unions for begin, to in pairs]
    for told in answers(call, scripts, [asked] * len(scripts)):
        rest = iter(told)
        yield [union for union in unions if has_cycle([pair for pair in pairs if next(rest) == "true"])]


def found_cycles(call, scripts, events, unions):
    """What each sketch finds. It is compared with a plain search where there are unions to search."""
    found = [cycle for (cycle,) in answers(call, scripts, [["find-cycle"]] * len(scripts))]
    if unions:
        for script, cycle, searched in zip(scripts, found, searched_cycles(call, scripts, events, unions)):
            if cycle not in ([f"{UNIONS[union]} true" for union in searched] or ["none"]):
                raise Refused(script, cycle, searched)
    return found


def accesses(code):
    """As many events of each thread as it has instructions."""
    return [f"{t}.{k}" for t, instructions in enumerate(code) for k in range(len(instructions))]


def complete(call, code, locations, unions=""):
    """The scripts that choose everything, without a cycle."""
    whole, events = given(call, len(code), locations), accesses(code)
    asked = [f"access:{event}" for event in events] + [f"sources:{event}" for event in events]
    level = [(script, list(to_choose(events, told))) for script, told in zip(whole, answers(call, whole, [asked] * len(whole)))]
    found = []
    while level:
        cycles = found_cycles(call, [script for script, _ in level], events, unions)
        level = [it for it, cycle in zip(level, cycles) if cycle == "none"]
        found += [script for script, left in level if not left]
        level = [((*script, choice), left[1:]) for script, left in level if left for choice in left[0]]
    return found


def chosen_below(call, locations, words, script):
    """The steps by which a node of a certificate's cover tree goes on after a script; none at a leaf."""
    letter, about = next(words), next(words)
    if letter == "O":
        return ordering(about, next(words))
    count = 0 if letter == "K" else int(next(words))
    if letter == "V":
        ((at, *values),) = answers(call, [script], [[f"next:{about}", *(f"values:{location}" for location in range(locations))]])
        return giving(about, values[int(at[5:-1])])
    if letter == "S":
        ((sources,),) = answers(call, [script], [[f"sources:{about}"]])
        return choosing(about, sources)
    list(itertools.islice(words, count))
    return []


def below(call, locations, words, script=()):
    """The sketches that a cover tree of a certificate goes through, from its root on, as scripts."""
    yield script
    for step in chosen_below(call, locations, words, script):
        yield from below(call, locations, words, (*script, step))


def compare_tree(call, code, locations, tree, unions):
    """Compares what the sketches find that a cover tree of a certificate goes through with a plain search."""
    found_cycles(call, list(below(call, locations, iter(tree.split()))), accesses(code), unions)


def partly_given(call, threads, locations):
    """The scripts that give some of the reads a value, whichever thread's come first, and those that give each read one."""
    asked = [f"next:{t}" for t in range(threads)] + [f"values:{location}" for location in range(locations)]
    level, partly, whole = [()], [], []
    while level:
        after = {}
        for script, told in zip(level, answers(call, level, [asked] * len(level))):
            waiting = [(t, int(location[5:-1])) for t, location in enumerate(told[:threads]) if location != "None"]
            (partly if waiting else whole).append(script)
            for t, location in waiting:
                for step in giving(t, told[threads + location]):
                    # the values of one thread stand in their order, and it is one sketch whichever thread's come first
                    after[tuple(sorted((*script, step), key=lambda it: it.split(":")[1]))] = None
        level = list(after)
    return partly, whole


def each_sketch(call, code, locations):
    """The scripts that choose anything: some values, or all and then some sources and orders, from the first on and from the last."""
    partly, whole = partly_given(call, len(code), locations)
    yield from partly
    events = accesses(code)
    asked = [f"access:{event}" for event in events] + [f"sources:{event}" for event in events]
    for script, told in zip(whole, answers(call, whole, [asked] * len(whole))):
        for picked in itertools.product(*([None, *steps] for steps in to_choose(events, told))):
            chosen = [step for step in picked if step]
            yield (*script, *chosen)
            if len(chosen) > 1:
                yield (*script, *reversed(chosen))


def compare_each(call, code, locations, unions):
    """Compares what every sketch finds with a plain search: each is one that some order of choices goes through."""
    rest = each_sketch(call, code, locations)
    while scripts := list(itertools.islice(rest, AT_ONCE)):
        found_cycles(call, scripts, accesses(code), unions)


def outcomes(call, code, locations, unions=""):
    """The outcomes that the runs of all candidate executions are replayed to, one for each of these; `call` makes the calls of a sketch in one mode.
    Cycles are searched for in these unions of the mode."""
    scripts = complete(call, code, locations, unions)
    for (told,) in answers(call, scripts, [["run"]] * len(scripts)):
        run = RUN.fullmatch(told)
        if not run:
            raise Refused(told)
        registers = re.findall(r"\[([^\]]*)\]", run[1])
        yield tuple(numbers(it) for it in registers), numbers(run[2])
