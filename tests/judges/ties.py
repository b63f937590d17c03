"""The cheapest fences where some gaps go together, by the states of the machine alone: every union of ties is tried, the best first.

A tie is a set of gaps with one cost. A set serves where with its gaps fenced no run shows what no sequential run shows.
"""
import itertools
import re

from judges import conditions, documents, machine, made_certificates


def shown_by(test, canonical, kind):
    """What is shown of an outcome: all of it, the values that the condition and `locations` name, or the truth of the condition."""
    *others, condition = canonical.splitlines()
    if kind == "whole":
        return lambda outcome: outcome
    if kind == "condition":
        return lambda outcome: documents.meets(condition, conditions.named(test, outcome))
    listed = [line for line in others if line.startswith("locations [")]
    names = set(re.findall(r"(\d+:[A-Z]+|\w+)=\d+", condition)) | {name for line in listed for name in re.findall(r"([\w:]+);", line)}
    return lambda outcome: tuple(value for name, value in sorted(conditions.named(test, outcome).items()) if name in names)


def asker(test, shown):
    """A question to the machine: the gaps that a run with these fenced passes which shows what no sequential run shows; nothing where there is none."""
    sequential = {shown(outcome) for outcome in machine.outcomes(test, "sequential", ())}
    return lambda fenced: conditions.foreign_run(test, set(fenced), lambda outcome: shown(outcome) not in sequential)


def union(ties, chosen):
    """The gaps of the ties that are chosen, ascending."""
    return sorted(gap for number in chosen for gap in ties[number][0])


def by_preference(test, ties):
    """Every choice of ties: the cheaper first, and of choices of one cost the one with the least gap in which they differ."""
    there = test.gaps()

    def rank(chosen):
        gaps = union(ties, chosen)
        return sum(ties[number][1] for number in chosen), [gap not in gaps for gap in there]

    numbers = range(len(ties))
    return sorted(itertools.chain.from_iterable(itertools.combinations(numbers, size) for size in range(len(ties) + 1)), key=rank)


def best_set(test, ties, ask):
    """The cost and the gaps of the best union of ties that serves; no choice is asked about that a run which is known shows not to serve."""
    runs = []
    for chosen in by_preference(test, ties):
        gaps = union(ties, chosen)
        if all(passed & set(gaps) for passed in runs):
            passed = ask(gaps)
            if passed is None:
                return sum(ties[number][1] for number in chosen), gaps
            runs.append(passed)
    raise AssertionError("all gaps serve")


def hit(ties, runs, chosen, left, best):
    """The best choice of ties with a gap of each run, of those that have the ties of `chosen` and are better than `best`, a rank; or `best`."""
    rank = ranked(ties, chosen, left)
    if best is not None and rank[0] > best[0]:
        return best
    missed = next((passed for passed in runs if not passed & set(union(ties, chosen))), None)
    if missed is None:
        return rank if best is None or rank < best else best
    for number, (gaps, _) in enumerate(ties):
        if set(gaps) & missed:
            best = hit(ties, runs, chosen | {number}, left, best)
    return best


def ranked(ties, chosen, there):
    gaps = set(union(ties, chosen))
    return sum(ties[number][1] for number in chosen), [gap not in gaps for gap in there], sorted(gaps)


def best_hitting_set(test, ties, ask):
    """The cheapest union of ties that serves, where there are too many to list them: the best that has a gap of each run found so far is asked about."""
    runs = []
    while True:
        cost, _, gaps = hit(ties, runs, frozenset(), test.gaps(), None)
        passed = ask(gaps)
        if passed is None:
            return cost, gaps
        runs.append(passed)


def random_ties(draw, gaps):
    """A partition of gaps, each part with a cost; and as a cost file, where a gap of its own that costs 1 may have no line."""
    ties = []
    for gap in gaps:
        if ties and draw.random() < 0.4:
            draw.choice(ties)[0].append(gap)
        else:
            ties.append(([gap], draw.choice((1, 1, 1, 2, 3, 5))))
    return ties, cost_file(draw, ties)


def random_lines(draw, test):
    """The gaps of the threads that have the same number go together, as one line that the threads share; some lines are left out."""
    lines = {}
    for t, k in test.gaps():
        lines.setdefault(k if draw.random() < 0.9 else (t, k), []).append((t, k))
    ties = [(gaps, draw.choice((1, 1, 2, len(gaps)))) for gaps in lines.values()]
    return ties, cost_file(draw, ties)


def random_ring(draw):
    """The litmus text of a program whose threads run the same lines, each with a location of its own and that of the next thread."""
    threads, lines = draw.choice((2, 2, 3)), []
    names = "xyz"[:threads]
    for _ in range(draw.choice((2, 3)) if threads == 3 else draw.choice((2, 3, 4))):
        kind, whose, value = draw.random(), draw.randrange(2), draw.choice((1, 2))
        register = draw.choice(made_certificates.REGISTERS)
        lines.append(f"MOV [{{{whose}}}],${value}" if kind < 0.4 else f"MOV {register},[{{{whose}}}]" if kind < 0.85 else f"XCHG [{{{whose}}}],{register}")
    rows = [[line.format(names[t], names[(t + 1) % threads]) for t in range(threads)] for line in ["MOV [{0}],$1", *lines]]
    body = "".join(" | ".join(row) + " ;\n" for row in rows)
    head = " | ".join(f"P{t}" for t in range(threads))
    return f"X86 ring\n{{ }}\n{head} ;\n{body}{made_certificates.random_condition(draw, names, threads)}\n".encode()


def shape(instruction):
    """An instruction up to names of registers, locations and labels, and to numbers."""
    mnemonic, _, operands = instruction.partition(" ")
    kinds = ["place" if word.startswith("[") else "number" if word.startswith("$") else "register" for word in operands.split(",") if word]
    return mnemonic, (["label"] if mnemonic in ("JE", "JNE", "JMP") else kinds)


def shared_lines(listed):
    """A tie for each line of a text in which instructions of one shape stand, each at cost 1, from what `fencer gaps` lists."""
    lines = {}
    for place, line, instruction in re.findall(r"^(\d+:\d+) line (\d+) (.*)$", listed, re.M):
        lines.setdefault((line, str(shape(instruction))), []).append(tuple(int(number) for number in place.split(":")))
    return [(gaps, 1) for gaps in sorted(lines.values())]


def cost_file(draw, ties):
    rows = [(draw.sample(gaps, len(gaps)), cost) for gaps, cost in ties if len(gaps) > 1 or cost > 1 or draw.random() < 0.3]
    draw.shuffle(rows)
    return "".join(f"{' '.join(f'{t}:{k}' for t, k in gaps)} {cost}\n" for gaps, cost in rows).encode()
