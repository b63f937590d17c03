"""The two machines, walked state by state: what the programs list is compared with the outcomes that are found here.

A program comes as `test_calls` prints what it reads of a litmus text. Its instructions and its states are worked out here alone.
"""
import re

REGISTERS = ("Eax", "Ebx", "Ecx", "Edx", "Esi", "Edi")
JUMPS = ("Jmp", "Je", "Jne")
ACCESSES = ("Load", "Store", "StoreImm", "Xchg")


class Test:
    """The code and the first registers of each thread, the first values of memory, and what an outcome names."""

    def __init__(self, read):
        threads = re.findall(r"Thread \{ code: Items \{ items: \[(.*?)\] \}, registers: \[(.*?)\] \}", read)
        self.code = [re.findall(r"(\w+)(?:\((.*?)\))?(?:, |$)", code) for code, _ in threads]
        self.registers = [numbers(first) for _, first in threads]
        self.memory = numbers(re.search(r"^memory \[(.*)\]$", read, re.M)[1])
        self.locations = re.search(r"^locations(.*)$", read, re.M)[1].split()
        self.named = [names.split() for names in re.findall(r"^registers of \d+(.*)$", read, re.M)]

    def gaps(self):
        """The place of each gap, as a thread and the instruction after it."""
        return [(t, k) for t, code in enumerate(self.code) for k in range(1, len(code))]

    def line(self, outcome):
        registers, memory = outcome
        items = [f"{t}:{name.upper()}={registers[t][REGISTERS.index(name)]};" for t, names in enumerate(self.named) for name in names]
        items += [f"{name}={value};" for name, value in zip(self.locations, memory)]
        return " ".join(["outcome:", *items]) + "\n"


def numbers(listed):
    return tuple(int(number) for number in listed.split(", ") if number)


def put(values, index, value):
    return (*values[:index], value, *values[index + 1:])


def executed(instruction, thread, memory, buffered):
    """A thread and memory after the thread's instruction; nothing where it has to wait until no store of the thread waits."""
    name, words = instruction[0], instruction[1].split(", ")
    place, flag, registers, waiting = thread

    def value(word):
        return registers[REGISTERS.index(word)] if word in REGISTERS else int(word)

    if name in ("Fence", "Xchg", "Cas") and waiting:
        return None
    place += 1
    if name in JUMPS and {"Jmp": True, "Je": flag, "Jne": not flag}[name]:
        place = int(words[0])
    elif name in ("CmpImm", "CmpReg"):
        flag = value(words[0]) == value(words[1])
    elif name in ("LoadImm", "Copy"):
        registers = put(registers, REGISTERS.index(words[0]), value(words[1]))
    elif name == "Load":
        location = int(words[1])
        seen = [stored for at, stored in waiting if at == location] or [memory[location]]
        registers = put(registers, REGISTERS.index(words[0]), seen[-1])
    elif name in ("StoreImm", "Store") and buffered:
        waiting = (*waiting, (int(words[0]), value(words[1])))
    elif name in ("StoreImm", "Store"):
        memory = put(memory, int(words[0]), value(words[1]))
    elif name == "Xchg":
        location, register = int(words[0]), REGISTERS.index(words[1])
        registers, memory = put(registers, register, memory[location]), put(memory, location, registers[register])
    elif name == "Cas":  # a compare-and-swap, which no litmus file has: the location, the expected value, the new one, the register of the old one
        location, expected, new, register = int(words[0]), int(words[1]), int(words[2]), REGISTERS.index(words[3])
        registers, memory = put(registers, register, memory[location]), put(memory, location, new if memory[location] == expected else memory[location])
    return (place, flag, registers, waiting), memory


def steps(test, fenced, buffered, state):
    """Each step that is possible, as `stepped` gives it."""
    for t in range(len(state[0])):
        for label in (f"f{t}", f"e{t}"):
            step = stepped(test, fenced, buffered, state, label)
            if step:
                yield step


def outcomes(test, model, gaps):
    """The outcomes, ascending; in the model `buffered` the gaps with these numbers are fenced."""
    fenced = {place for gap, place in enumerate(test.gaps()) if gap in gaps}
    first = begun(test)
    seen, to_walk, found = {first}, [first], set()
    while to_walk:
        state = to_walk.pop()
        after = {after for _, after in steps(test, fenced, model == "buffered", state)} - seen
        seen |= after
        to_walk += after
        if has_ended(test, state):
            found.add(left(state))
    return sorted(found)


def run_in_turn(test, model):
    """The labels of a run in which the threads execute all their instructions one thread after another, and each store waits as long as it can."""
    threads, memory, labels = [(0, False, registers, ()) for registers in test.registers], test.memory, []
    for t, code in enumerate(test.code):
        while threads[t][0] < len(code):
            after = executed(code[threads[t][0]], threads[t], memory, model == "buffered")
            if after:
                threads[t], memory = after
                labels.append(f"e{t}")
            else:
                (location, value), *left = threads[t][3]
                threads[t], memory = (*threads[t][:3], tuple(left)), put(memory, location, value)
                labels.append(f"f{t}")
    return labels + [f"f{t}" for t, thread in enumerate(threads) for _ in thread[3]]


def begun(test):
    """The state in which nothing is executed yet."""
    return tuple((0, False, registers, ()) for registers in test.registers), test.memory


def has_ended(test, state):
    """Whether each thread has come to its end and no store waits."""
    return all(place == len(code) and not waiting for (place, _, _, waiting), code in zip(state[0], test.code))


def left(state):
    """The outcome of a state in which a run has ended."""
    return tuple(registers for _, _, registers, _ in state[0]), state[1]


def stepped(test, fenced, buffered, state, label):
    """The gap that a step passes, or None where it passes none, and the state after the step; nothing where the step isn't possible."""
    (threads, memory), t = state, int(label[1:])
    if t >= len(threads):
        return None
    place, flag, registers, waiting = threads[t]
    if label[0] == "f":
        return (None, (put(threads, t, (place, flag, registers, waiting[1:])), put(memory, *waiting[0]))) if waiting else None
    if place == len(test.code[t]) or waiting and (t, place) in fenced:
        return None
    after = executed(test.code[t][place], threads[t], memory, buffered)
    return after and ((t, place) if waiting else None, (put(threads, t, after[0]), after[1]))


def replayed(test, labels, fenced, buffered):
    """The outcome of a run with these gaps fenced and the gaps that it passes, as places; nothing where a step isn't possible or the run hasn't ended."""
    state, passed = begun(test), set()
    for label in labels:
        step = stepped(test, fenced, buffered, state, label)
        if step is None:
            return None
        gap, state = step
        passed |= {gap} - {None}
    return (left(state), passed) if has_ended(test, state) else None


def end_of(test, labels, gaps, model="buffered"):
    """The outcome of a run, in the model `buffered` with the gaps with these numbers fenced; nothing where a step isn't possible there or the run hasn't ended."""
    fenced = {place for gap, place in enumerate(test.gaps()) if gap in gaps}
    run = replayed(test, labels, fenced, model == "buffered")
    return run and run[0]
