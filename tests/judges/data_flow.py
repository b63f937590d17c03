"""What flows through a program, worked out here alone, as docs/definitions.md says it (*Data flow*): which loads are dead, and which values a location may hold."""
import copy

from judges import machine

# the places of the registers that an instruction takes a value from, and of the one that it puts a value into, among its words
USES = {"Copy": (1,), "Store": (1,), "Xchg": (1,), "CmpImm": (0,), "CmpReg": (0, 1)}
SETS = {"LoadImm": 0, "Copy": 0, "Load": 0, "Xchg": 1}


def words_of(instruction):
    return instruction[1].split(", ")


def used(instruction):
    """The registers that an instruction takes the values of."""
    return {words_of(instruction)[place] for place in USES.get(instruction[0], ())}


def is_set(instruction):
    """The register that an instruction puts a value into, as a set."""
    return {words_of(instruction)[SETS[instruction[0]]]} if instruction[0] in SETS else set()


def leads_to(instruction, k):
    """The places to which instruction k of a thread may lead."""
    target = [int(words_of(instruction)[0])] if instruction[0] in machine.JUMPS else []
    return target if instruction[0] == "Jmp" else [*target, k + 1]


def live_registers(code, told):
    """The registers that are live before each instruction of a thread, and at its end, where these are told."""
    live = [set(told) for _ in range(len(code) + 1)]
    for k in reversed(range(len(code))):
        later = set().union(*(live[j] for j in leads_to(code[k], k)))
        live[k] = used(code[k]) | later - is_set(code[k])
    return live


def slim_code(code, told):
    """The instructions of a thread, where each load of a register that is not live after it is a copy of the register onto itself."""
    live = live_registers(code, told)
    registers = [words_of(instruction)[0] for instruction in code]
    return [("Copy", f"{r}, {r}") if it[0] == "Load" and r not in live[k + 1] else it for k, (it, r) in enumerate(zip(code, registers))]


def without_dead_loads(test, told):
    """A program without its dead loads, where these registers, each as its thread and its name, are told at the ends of the threads."""
    slim = copy.copy(test)
    slim.code = [slim_code(code, {name for u, name in told if u == t}) for t, code in enumerate(test.code)]
    return slim


def held_values(test):
    """For each location the values that flow to it, ascending: from initial values and the numbers of MOVs, along instructions, whichever path leads there."""
    locations, before = [{value} for value in test.memory], None
    while locations != before:
        before = [set(values) for values in locations]
        for code, first in zip(test.code, test.registers):
            flow_along(code, first, locations)
    return [sorted(values) for values in locations]


def flow_along(code, first, locations):
    """Adds to the values of locations those that a thread hands to them, where its registers begin with these values."""
    places = [{name: set() for name in machine.REGISTERS} for _ in range(len(code) + 1)]
    places[0] = {name: {value} for name, value in zip(machine.REGISTERS, first)}
    for k, instruction in enumerate(code):
        after = handed_on(instruction, dict(places[k]), locations)
        for j in leads_to(instruction, k):
            places[j] = {name: values | after[name] for name, values in places[j].items()}


def handed_on(instruction, held, locations):
    """What registers may hold after an instruction, before which they may hold this; the instruction adds to the values of its location."""
    name, words = instruction[0], words_of(instruction)
    if name == "StoreImm":
        locations[int(words[0])] |= {int(words[1])}
    elif name in ("Store", "Xchg"):
        locations[int(words[0])] |= held[words[1]]
    if name == "LoadImm":
        held[words[0]] = {int(words[1])}
    elif name == "Copy":
        held[words[0]] = held[words[1]]
    elif name == "Load":
        held[words[0]] = set(locations[int(words[1])])
    elif name == "Xchg":
        held[words[1]] = set(locations[int(words[0])])
    return held
