"""The cheapest fences with which a condition's truth is the sequential one, by the states of the machine alone.

A set serves where with its gaps fenced no run ends in a truth that no sequential run has. Each such run passes some gaps, and no set without one of
them serves; so only sets are tried that have one of each run found so far.
"""
import itertools

from judges import documents, machine

SIGNS = ("/\\", "\\/")


def named(test, outcome):
    """The values of an outcome by the names of a condition's atoms."""
    registers, memory = outcome
    values = {f"{t}:{name.upper()}": value for t, own in enumerate(registers) for name, value in zip(machine.REGISTERS, own)}
    return {**values, **dict(zip(test.locations, memory))}


def foreign_run(test, fenced, is_foreign):
    """The gaps that a run with these fenced passes whose outcome is foreign; nothing where there is no such run."""
    first = machine.begun(test)
    before, to_walk = {first: None}, [first]
    while to_walk:
        state = to_walk.pop()
        if machine.has_ended(test, state) and is_foreign(machine.left(state)):
            passed = set()
            while before[state]:
                gap, state = before[state]
                passed |= {gap} - {None}
            return passed
        for gap, after in machine.steps(test, fenced, True, state):
            if after not in before:
                before[after] = gap, state
                to_walk.append(after)
    return None


def best_set(test, condition):
    """The cheapest set of gaps that serves for the condition's truth, where each gap costs 1, and of several the earliest."""
    return best_set_by(test, lambda outcome: documents.meets(condition, named(test, outcome)))


def best_whole_set(test):
    """The cheapest set of gaps that serves for whole outcomes."""
    return best_set_by(test, lambda outcome: outcome)


def best_set_by(test, truth):
    """The cheapest set of gaps with which nothing is shown of an outcome that no sequential run shows."""
    sequential = {truth(outcome) for outcome in machine.outcomes(test, "sequential", ())}
    gaps, runs = test.gaps(), []
    for size in range(len(gaps) + 1):
        for chosen in itertools.combinations(gaps, size):
            if all(passed & set(chosen) for passed in runs):
                passed = foreign_run(test, set(chosen), lambda outcome: truth(outcome) not in sequential)
                if passed is None:
                    return chosen
                runs.append(passed)
    raise AssertionError("all gaps serve")


def random_condition(draw, registers):
    def formula(depth):
        if depth and draw.random() < 0.7:
            return f"({formula(depth - 1)} {draw.choice(SIGNS)} {formula(depth - 1)})"
        place = draw.choice([*registers, "x", "y"])
        return draw.choice(("", "", "", "not ")) + f"{place}={draw.randrange(3)}"

    return f"{draw.choice(('exists', '~exists', 'forall'))} ({formula(2)})"


def random_program(draw):
    """A small program over x and y, with a condition that speaks of what it loads."""
    threads, registers = [], []
    for t in range(draw.choice((2, 2, 2, 3))):
        names, cells = ["EAX", "EBX", "ECX"], []
        for _ in range(draw.choice((2, 2, 3))):
            place = draw.choice("xy")
            kind = draw.random()
            if kind < 0.45:
                cells.append(f"MOV [{place}],${draw.choice((1, 2))}")
            elif kind < 0.9:
                register = names.pop(0)
                registers.append(f"{t}:{register}")
                cells.append(f"MOV {register},[{place}]")
            else:
                cells.append("MFENCE")
        threads.append(cells)
    rows = itertools.zip_longest(*threads, fillvalue="")
    head = " | ".join(f"P{t}" for t in range(len(threads)))
    body = "".join(" | ".join(row) + " ;\n" for row in rows)
    return f"X86 random\n{{ }}\n{head} ;\n{body}{random_condition(draw, registers)}\n".encode()
