"""Candidate executions of runs, worked out from the states of `machine`: the graphs that `fencer` writes are compared with them.

An event is named by the number of its step, or by the location of its initial write.
"""
import re

from judges import machine, traces

NODE = re.compile(r'^ +run\d+_(\w+) \[label="(.*?)"(?:, shape=plaintext)?\];$', re.M)
EDGE = re.compile(r'^ +run\d+_(\w+) -> run\d+_(\w+) \[label="(\w+)"(?:, constraint=false)?(, color=red, fontcolor=red)?\];$', re.M)


class Execution:
    """The events of each thread in program order, the number of each one's instruction, what each node says, and the edges, each with its relation."""

    def __init__(self, threads):
        self.threads = [[] for _ in range(threads)]
        self.places, self.nodes, self.edges, self.after = {}, {}, set(), {}

    def reaches_memory(self, last, location, event):
        """An event is the next write of a location in memory."""
        self.edges.add((last[location], event, "co"))
        self.after[last[location]] = last[location] = event

    def finished(self, sources, initial):
        """Adds what is known at the end: from a read to the write after its source, and the initial writes that have an edge."""
        for read, source in sources.items():
            self.edges.add((source, read, "rf"))
            if self.after.get(source, read) != read:
                self.edges.add((read, self.after[source], "fr"))
        begun = {edge[0] for edge in self.edges}
        self.nodes.update({event: text for event, text in initial.items() if event in begun})
        for events in self.threads:
            self.edges |= {(one, other, "po") for one, other in zip(events, events[1:])}
        return self


def execution(test, canonical, model, labels):
    """The candidate execution of a run's labels."""
    written, found = traces.instructions(canonical), Execution(len(test.code))
    threads, memory = tuple((0, False, first, ()) for first in test.registers), test.memory
    waiting, sources = [[] for _ in test.code], {}
    last = [f"init_{name}" for name in test.locations]
    initial = {event: f"W {name}={value}" for event, name, value in zip(last, test.locations, memory)}
    for number, label in enumerate(labels):
        t, event = int(label[1:]), f"step{number}"
        before = threads[t]
        if label[0] == "f":
            (location, value), *left = before[3]
            threads, memory = machine.put(threads, t, (*before[:3], tuple(left))), machine.put(memory, location, value)
            found.reaches_memory(last, *waiting[t].pop(0))
            continue
        name, words = test.code[t][before[0]]
        after, later = machine.executed((name, words), before, memory, model == "buffered")
        if name in machine.ACCESSES:
            words = words.split(", ")
            location = int(words[1 if name == "Load" else 0])
            said = [written[t][before[0]]]
            if name in ("Load", "Xchg"):
                own = [store for at, store in waiting[t] if at == location]
                sources[event] = own[-1] if own else last[location]
                said.append(f"R {test.locations[location]}={after[2][machine.REGISTERS.index(words[name == 'Xchg'])]}")
            if name != "Load":
                held = after[3][-1][1] if len(after[3]) > len(before[3]) else later[location]
                said.append(f"W {test.locations[location]}={held}")
                if len(after[3]) > len(before[3]):
                    waiting[t].append((location, event))
                else:
                    found.reaches_memory(last, location, event)
            found.threads[t].append(event)
            found.places[event] = before[0]
            found.nodes[event] = "\\n".join(said)
        threads, memory = machine.put(threads, t, after), later
    return found.finished(sources, initial)


def read(text):
    """The runs of a graph: the title of each, its events by thread, its nodes, its edges and those of them that are red."""
    head, *runs = re.split(r'^  subgraph cluster_run\d+ \{\n    label="(.*)";\n', text, flags=re.M)
    whole = head == "digraph {\n  node [shape=box];\n" and text.endswith("}\n")
    for title, body in zip(runs[::2], runs[1::2]):
        clusters = re.split(r'subgraph cluster_run\d+_P\d+ \{\n +label="P\d+";\n', body)[1:]
        threads = [[event for event, _ in NODE.findall(cluster.split("}")[0])] for cluster in clusters]
        edges = EDGE.findall(body)
        yield whole, title, threads, dict(NODE.findall(body)), {edge[:3] for edge in edges}, [edge[:2] for edge in edges if edge[3]]


def shortest(edges):
    """How many edges a shortest cycle has; 0 where there is none."""
    found = []
    for start in {edge[0] for edge in edges}:
        reached, length = {start}, 0
        while reached and length <= len(edges):
            reached, length = {b for a, b, _ in edges if a in reached}, length + 1
            if start in reached:
                found.append(length)
                break
    return min(found, default=0)


def edge_over(execution, gap):
    """The edge of program order that leads over a gap `t:k`; nothing where there is none."""
    t, k = map(int, gap.split(":"))
    for one, other in zip(execution.threads[t], execution.threads[t][1:]):
        if execution.places[one] < k <= execution.places[other]:
            return one, other
    return None


def steps_between(edges, start, end):
    """How many edges a shortest path has; more than there are where there is none."""
    reached, length = {start}, 0
    while end not in reached and length <= len(edges):
        reached, length = reached | {b for a, b, _ in edges if a in reached}, length + 1
    return length


def leads_over(red, execution, gap):
    """Whether the red edges lead over a gap, or no shortest cycle does."""
    over = edge_over(execution, gap)
    return not over or over in red or 1 + steps_between(execution.edges, over[1], over[0]) > shortest(execution.edges)


def is_cycle(edges):
    """Whether each of some edges ends where another begins, all in one round."""
    after, place = dict(edges), edges[0][0]
    for _ in edges:
        place = after.get(place)
    return len(after) == len(edges) and place == edges[0][0] and len({b for _, b in edges}) == len(edges)


def is_drawn(run, title, wanted):
    """Whether a run of a graph is this execution, with a shortest cycle in red."""
    whole, told, threads, nodes, edges, red = run
    right = whole and told == title and threads == wanted.threads and nodes == wanted.nodes and edges == wanted.edges
    return right and len(red) == shortest(wanted.edges) and (not red or is_cycle(red))
