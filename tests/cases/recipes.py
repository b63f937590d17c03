"""Recipes: what the guide writes for an instruction that is not read leaves what that instruction leaves.

The programs are random: loads, stores, and compare-and-swaps of one location. An independent machine has the instruction itself; `fencer` has the recipe of
docs/guide.md (*Compare-and-swap*) in its place. Of its outcomes those count in which no thread found the lock taken; of its answers the cost does.
"""
import itertools
import os
import random
import re
import types

from harness import TOP, Cases, bytes_of, run, same, tell
from judges import machine

GUIDE = os.path.join(TOP, "docs", "guide.md")
LOCATIONS = "xyz"
PROGRAMS, SEED = 30, 1


def recipe():
    """The instructions of the guide's recipe, of x, 0 and 1, without what is said of each."""
    text = bytes_of(GUIDE).decode().partition("## Compare-and-swap")[2].partition("\n    MOV EAX,$1 ")[2]
    lines = ("    MOV EAX,$1 " + text.partition("\n\n")[0]).split("\n")
    return [re.match(r"    ((?:\w+: )?\w+(?: \S+)?)", line)[1] for line in lines]


def drawn(draw):
    """A program, a thread in each list: store buffering, of which a load may be one of x, with a compare-and-swap or two of x in each thread."""
    threads = []
    for mine, other in (("y", "z"), ("z", "y")):
        registers = ["EBX", "ECX", "EDX"]
        thread = [("StoreImm", mine, draw.choice((1, 2))), ("Load", registers.pop(), draw.choice((other, "x")))]
        for _ in range(draw.choice((1, 2))):
            swap = ("Cas", "x", draw.choice((0, 1)), draw.choice((1, 2)), registers.pop())
            thread.insert(draw.randrange(len(thread) + 1), swap)
        threads.append(thread)
    return threads


def written(step, number):
    """An instruction as a litmus file has it; for a compare-and-swap those of the recipe, with labels and a register of its own."""
    name, *words = step
    if name == "StoreImm":
        return [f"MOV [{words[0]}],${words[1]}"]
    if name == "Load":
        return [f"MOV {words[0]},[{words[1]}]"]
    location, expected, new, register = words
    *lines, last = [re.sub(r"EBX", register, line).replace("OUT", f"OUT{number}") for line in recipe()]
    lines = [line.replace("[x],$1", f"[{location}],${new}").replace(f"{register},$0", f"{register},${expected}") for line in lines]
    # the lock is given back from a register of its own, so that EAX says whether the thread had it
    return [*lines, f"OUT{number}: MOV ESI,$0", last.partition(": ")[2].replace("EAX", "ESI")]


def source_of(threads):
    columns = [[line for number, step in enumerate(thread) for line in written(step, number)] + ["END:"] for thread in threads]
    rows = [" | ".join(cells) for cells in itertools.zip_longest(*columns, fillvalue="")]
    head = " | ".join(f"P{t}" for t in range(len(threads)))
    return "\n".join(["X86 swaps", "{ }", *(f"{row} ;" for row in [head, *rows]), f"locations [{'; '.join(LOCATIONS)};]", "exists (x=0)", ""]).encode()


def with_the_instruction(threads):
    """The program for a machine that has the instruction."""
    def code(step):
        words = [str(LOCATIONS.index(it)) if it in tuple(LOCATIONS) else str(it).capitalize() for it in step[1:]]
        return step[0], ", ".join(words)

    places = [(t, k) for t, thread in enumerate(threads) for k in range(1, len(thread))]
    return types.SimpleNamespace(
        code=[[code(step) for step in thread] for thread in threads], registers=[(0,) * 6] * len(threads), memory=(0,) * len(LOCATIONS), gaps=lambda: places)


def left_by(test, model, gaps=()):
    """The registers that are loaded, and the locations, as that machine leaves them."""
    return {(tuple(registers[1:4] for registers in each), memory) for each, memory in machine.outcomes(test, model, gaps)}


def least_fences(test):
    """How many fences that program needs."""
    wanted, gaps = left_by(test, "sequential"), range(len(test.gaps()))
    return next(count for count in range(len(gaps) + 1) if any(left_by(test, "buffered", it) == wanted for it in itertools.combinations(gaps, count)))


def by_the_recipe(threads, model):
    """What the recipe leaves where no thread found the lock taken; None where something else is printed."""
    status, printed = run(["outcomes", "--model", model, "-"], source_of(threads))
    found = set()
    for line in printed.decode().splitlines():
        if line.startswith("outcome: "):
            values = {name: int(value) for name, value in re.findall(r"(\S+)=(\d+);", line)}
            if not any(values[f"{t}:EAX"] for t in range(len(threads))):
                registers = tuple(tuple(values.get(f"{t}:{name}", 0) for name in ("EBX", "ECX", "EDX")) for t in range(len(threads)))
                found.add((registers, tuple(values[name] for name in LOCATIONS)))
    return found if status == 0 else None


class Recipes(Cases):
    def test_compare_and_swap(self):
        """Random programs leave by the recipe what they leave by compare-and-swaps, on both machines, and need as many fences."""
        draw = random.Random(SEED)
        tell("the guide has the recipe", len(recipe()) == 9 and recipe()[-1] == "OUT: XCHG [l],EAX", recipe())
        for number in range(PROGRAMS):
            threads = drawn(draw)
            test = with_the_instruction(threads)
            for model in ("buffered", "sequential"):
                same(f"what program {number} leaves, {model}", by_the_recipe(threads, model), left_by(test, model))
            status, printed = run(["place", "-"], source_of(threads))
            same(f"the fences of program {number}", (status, printed.split(b" set")[0].decode()), (0, f"answer cost {least_fences(test)}"))
