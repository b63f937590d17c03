"""The table of a run, drawn from the states of `machine`: what `fencer trace` prints is compared with it.

Instructions are written as in the canonical text of the program.
"""
import re

from judges import machine

HEADINGS = ("step", "thread", "instruction", "reads and stores", "still waits", "reaches memory")


def instructions(canonical):
    """Each thread's instructions as the canonical text has them, without labels."""
    rows = re.search(r"^P0.*;\n((?:.* ;\n)*)", canonical, re.M)[1]
    columns = zip(*(re.sub(" ;$", "", line).split(" | ") for line in rows.splitlines()))
    return [[re.sub(r"\w+: ?", "", cell) for cell in column] for column in columns]


def effect(test, code, before, after, memory):
    """What an instruction reads and stores, from the thread before and after it and from memory before it."""
    name, words = code[0], code[1].split(", ")

    def named(location, value):
        return f"{test.locations[int(location)]}={value}"

    def value(word):
        return before[2][machine.REGISTERS.index(word)] if word in machine.REGISTERS else word

    if name == "Load":
        own = any(location == int(words[1]) for location, _ in before[3])
        read = named(words[1], after[2][machine.REGISTERS.index(words[0])])
        return f"reads {read} from {'its buffer' if own else 'memory'}", None
    if name in ("StoreImm", "Store"):
        return f"stores {named(words[0], value(words[1]))}", named(words[0], value(words[1]))
    if name == "Xchg":
        stored = named(words[0], value(words[1]))
        return f"reads {named(words[0], memory[int(words[0])])} from memory, stores {stored}", stored
    return "-", None


def rows(test, written, model, labels):
    """For each label of a run the gap that its step passes, as `0:1`, or None, and a line of cells."""
    threads, memory = tuple((0, False, first, ()) for first in test.registers), test.memory
    for label in labels:
        t = int(label[1:])
        before = threads[t]
        if label[0] == "f":
            (location, value), *left = before[3]
            after, reads, instruction = (*before[:3], tuple(left)), "-", "-"
            memory, reaches = machine.put(memory, location, value), f"{test.locations[location]}={value}"
        else:
            code, instruction = test.code[t][before[0]], written[t][before[0]]
            after, later = machine.executed(code, before, memory, model == "buffered")
            reads, reaches = effect(test, code, before, after, memory)
            if len(after[3]) > len(before[3]):
                reaches = None
            memory = later
        threads = machine.put(threads, t, after)
        waiting = " ".join(f"{test.locations[location]}={value}" for location, value in after[3])
        passed = f"{t}:{before[0]}" if label[0] == "e" and before[3] else None
        yield passed, (label, f"P{t}", instruction, reads, waiting or "-", reaches or "-")


def table(test, canonical, model, labels, marked=None):
    """The lines of the table of a run's labels. The row whose step passes this gap ends with its mark."""
    lines = [(None, HEADINGS), *rows(test, instructions(canonical), model, labels)]
    widths = [max(len(row[column]) for _, row in lines) for column in range(len(HEADINGS))]
    return "".join("  ".join(cell.ljust(width) for cell, width in zip(row, widths)).rstrip() + (f"  <- {passed}" if passed and passed == marked else "")
                   + "\n" for passed, row in lines)
