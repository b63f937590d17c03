"""Litmus tests for measurements and trials: store bufferings, and random ones from a seed, of loads and stores alone or of every kind of instruction.

A random test has a name, FAMILY-ACCESSES-THREADS-NUMBER: `random-15-3-0` has loads and stores of 1 or 2, 15 accesses and three threads, and is the first of
its kind. In the family `exchanges` there are also locked exchanges, stores of registers and first values, so that a location may have each value of the
program. `r` and `x` stand for the two families.
"""
import os

TOP = os.path.dirname(os.path.dirname(os.path.abspath(__file__)))
FAMILIES = ("random", "exchanges")
REGISTERS = ("EAX", "EBX", "ECX", "EDX", "ESI", "EDI")
JUMPS = ("JE", "JNE", "JNE", "JMP")


def built(crate):
    """The path of a program that is built."""
    return os.path.join(TOP, "crates", crate, "out", crate)


def litmus(threads, first=()):
    """A test of these threads, each a list of instructions with their labels, and of these first values."""
    longest = max(len(code) for code in threads)
    rows = zip(*(code + [""] * (longest - len(code)) for code in threads))
    lines = [" | ".join(f"P{t}" for t in range(len(threads))), *(" | ".join(row) for row in rows)]
    values = "".join(f"{value}; " for value in first)
    return f"X86 measured\n{{ {values}}}\n" + "".join(line + " ;\n" for line in lines) + "exists (true)\n"


def store_bufferings(count):
    """As many store bufferings, each of two threads and two locations of its own."""
    names = "abcdefgh"
    pairs = [(names[2 * n], names[2 * n + 1]) for n in range(count)]
    return [[f"MOV [{x}],$1", f"MOV EAX,[{y}]"] for pair in pairs for x, y in (pair, pair[::-1])]


def numbers(seed):
    """Numbers that the seed decides."""
    state = seed
    while True:
        state = (state * 6364136223846793005 + 1442695040888963407) % 2**64
        yield state >> 33


def mixed(seed, shape, locations):
    """Threads of so many loads and stores of 1 or 2, as the numbers of the seed have it."""
    random = numbers(seed)

    def one(place):
        location = locations[next(random) % len(locations)]
        if next(random) % 2 == 0:
            return f"MOV {REGISTERS[place % len(REGISTERS)]},[{location}]"
        return f"MOV [{location}],${next(random) % 2 + 1}"

    return [[one(place) for place in range(shape[1])] for _ in range(shape[0])]


def exchanging(seed, shape, locations):
    """Threads of so many accesses, and first values of a third of the locations: of ten accesses one is a locked exchange and one stores a
    register, and the others are loads and stores of 1 or 2."""
    random = numbers(seed)

    def one():
        location, register, kind = one_of(random, locations), one_of(random, REGISTERS), next(random) % 10
        if kind == 0:
            return f"XCHG [{location}],{register}"
        if kind == 1:
            return f"MOV [{location}],{register}"
        return f"MOV {register},[{location}]" if kind % 2 == 0 else f"MOV [{location}],${one_of(random, '12')}"

    threads = [[one() for _ in range(shape[1])] for _ in range(shape[0])]
    return threads, [f"{location}={one_of(random, '12')}" for location in locations if next(random) % 3 == 0]


def one_of(random, values):
    return values[next(random) % len(values)]


def made(family, accesses, threads, number):
    """The test of such a family, number of accesses, number of threads, and number among its kind."""
    lengths = [accesses // threads + (t < accesses % threads) for t in range(threads)]
    seed, shape = 1_000 * accesses + 100 * threads + number, (threads, max(lengths))
    code, first = exchanging(seed, shape, "xyz") if family == "exchanges" else (mixed(seed, shape, "xyz"), ())
    return litmus([part[:length] for part, length in zip(code, lengths)], first)


def named(name):
    """The test of a name."""
    word, *counts = name.split("-")
    family = {"r": "random", "x": "exchanges"}.get(word, word)
    if family not in FAMILIES or len(counts) != 3 or not all(count.isdigit() for count in counts):
        raise ValueError(f"no test is named {name}, but {', '.join(FAMILIES)} with -ACCESSES-THREADS-NUMBER")
    return made(family, *map(int, counts))


def instruction(random, locations):
    """An instruction that is no jump: mostly a load or a store."""
    register, other = one_of(random, REGISTERS), one_of(random, REGISTERS)
    location, value = one_of(random, locations), one_of(random, "12")
    plain = [f"MOV {register},[{location}]", f"MOV [{location}],${value}"]
    others = [f"MOV [{location}],{register}", f"XCHG [{location}],{register}", f"CMP {register},${value}", f"CMP {register},{other}"]
    return one_of(random, [*plain * 8, *others, f"MOV {register},${value}", f"MOV {register},{other}", "MFENCE"])


def thread(random, length, locations):
    """So many instructions, where after each comparison a jump leads to a later place or to the thread's end."""
    cells, targets = [], set()
    for place in range(length):
        if cells and cells[-1].startswith("CMP"):
            target = min(place + 1 + next(random) % 3, length)
            targets.add(target)
            cells.append(f"{one_of(random, JUMPS)} L{target}")
        else:
            cells.append(instruction(random, locations))
    if length in targets:
        cells.append("")
    return [f"L{place}: {cell}".strip() if place in targets else cell for place, cell in enumerate(cells)]


def varied(seed, shape, locations):
    """Threads of so many instructions of every kind, first values of some locations and registers, and the text of a cost file."""
    random = numbers(seed)
    threads = [thread(random, shape[1], locations) for _ in range(shape[0])]
    named = [*locations, *(f"{t}:{register}" for t in range(shape[0]) for register in REGISTERS)]
    first = [f"{name}={one_of(random, '12')}" for name in named if next(random) % 8 == 0]
    costs = [f"{t}:{place} {one_of(random, '11234')}\n" for t in range(shape[0]) for place in range(1, shape[1])]
    return threads, first, "".join(costs)
