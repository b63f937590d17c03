"""Damage to certificates: each kind takes one that is made and gives bytes, which mostly are no valid certificate any more.

What a kind cannot change it leaves as it is; the judge says of each what it is then.
"""
import re

from judges.certificate_texts import Node, written

LETTERS = b"0123456789 \nVSOCKPBslgef.x"
TREES = ("tree", "fenced", "gap_tree")
PAST = (b"00", b"128", b"256", b"1025", b"18446744073709551616")


def end_of_tree(nodes, place):
    """The place after the last node of the tree that begins here."""
    left = 1
    while left:
        left += nodes[place].count - 1
        place += 1
    return place


def places_of(nodes, letters):
    return [place for place, node in enumerate(nodes) if node.letter in letters]


def with_node(draw, made, names, letters, change):
    """The text with one node of these letters, in one of these trees, that is another."""
    trees = [name for name in names if places_of(getattr(made, name), letters)]
    if not trees:
        return written(made)
    name = draw.choice(trees)
    nodes = list(getattr(made, name))
    place = draw.choice(places_of(nodes, letters))
    nodes[place] = change(nodes[place])
    return written(made._replace(**{name: nodes}))


def random_access(draw):
    return draw.randrange(3), draw.randrange(4)


# of the text

def changed_byte(draw, made):
    text = bytearray(written(made))
    text[draw.randrange(len(text))] = draw.choice(LETTERS)
    return bytes(text)


def cut_text(draw, made):
    text = written(made)
    return text[:draw.randrange(len(text))]


def longer_text(draw, made):
    """More text after the last line."""
    text = written(made)
    return text + draw.choice((b"\n", b" ", b"gaps B 0\n", text))


def swapped_number(draw, made):
    """A number in place of another, or one that is past limits."""
    words = re.split(rb"([0-9]+)", written(made))
    place = draw.randrange(1, len(words), 2)
    words[place] = draw.choice((draw.choice(words[1::2]), draw.choice(PAST)))
    return b"".join(words)


def swapped_words(draw, made):
    """Two neighbouring words in the other order."""
    words = re.split(rb"([ \n])", written(made))
    place = draw.randrange(0, len(words) - 3, 2)
    words[place], words[place + 2] = words[place + 2], words[place]
    return b"".join(words)


def other_version(draw, made):
    """The certificate as one of another version."""
    version = draw.choice([it for it in (1, 2, 4) if it != made.version])
    return written(made._replace(version=version))


def other_header(draw, made):
    """Another version's number, and nothing else."""
    return written(made).replace(b"FENCECERT %d" % made.version, b"FENCECERT %d" % draw.randrange(6), 1)


def other_shown(draw, made):
    """Another line `shown`, or none."""
    others = ["all", "condition", [], [0], sorted(draw.sample(range(8), 3)), [0, 48], [48, 49]]
    return written(made._replace(shown=draw.choice(others)))


def other_bound_form(draw, made):
    """A bound without a number in version 4, and with one in another."""
    front, _, tree = written(made).rpartition(b"\ngaps ")
    bound = draw.choice(list(re.finditer(rb"B [0-9]+" if made.version == 4 else b"B", tree)))
    return front + b"\ngaps " + tree[:bound.start()] + (b"B" if made.version == 4 else b"B 0") + tree[bound.end():]


# of what the text spells

def other_set(draw, made):
    """A gap more or fewer, with its cost or without."""
    gaps = sorted(set(made.gaps) ^ {draw.randrange(6)})
    return written(made._replace(gaps=gaps, cost=draw.choice((made.cost, len(gaps)))))


def changed_run(draw, made):
    """A label more, fewer or another in a run, or a run in place of another."""
    name = draw.choice([it for it in ("seq", "runs") if getattr(made, it)])
    runs = [list(labels) for labels in getattr(made, name)]
    labels = draw.choice(runs)
    place = draw.randrange(len(labels))
    labels[place:place + draw.randrange(2)] = draw.choice(([], [draw.choice(("e0", "e1", "f0", "f1", "e9"))]))
    return written(made._replace(**{name: draw.choice((runs, runs[1:], [*runs, *made.seq[:1]]))}))


def dropped_tree(draw, made):
    """A node without one of its children, whose number may or may not say so."""
    name = draw.choice(TREES)
    nodes = list(getattr(made, name))
    parents = [place for place, node in enumerate(nodes) if node.count and node.letter in "VSP"]
    if not parents:
        return written(made)
    place = draw.choice(parents)
    child = place + 1
    for _ in range(draw.randrange(nodes[place].count)):
        child = end_of_tree(nodes, child)
    del nodes[child:end_of_tree(nodes, child)]
    if draw.random() < 0.8:
        nodes[place] = nodes[place]._replace(count=nodes[place].count - 1)
    return written(made._replace(**{name: nodes}))


def deep_tree(draw, made):
    """A tree below so many nodes with one child that it is as deep as it may be, or deeper."""
    name = draw.choice(TREES)
    node, most = (Node("P", (0,), 1), 129) if name == "gap_tree" else (Node("V", (0,), 1), 600)
    above = [node] * (most - draw.randrange(3))
    return written(made._replace(**{name: above + getattr(made, name)}))


def many_children(draw, made):
    """A node with as many children as one may have, or one more, of which most are missing."""
    return with_node(draw, made, TREES, "VSP", lambda node: node._replace(count=draw.choice((1024, 1025))))


def exchanged_trees(draw, made):
    """One tree of the certificate in place of another, or a part of one in place of a node."""
    if draw.random() < 0.3:
        return written(made._replace(tree=made.fenced, fenced=made.tree))
    name = draw.choice(TREES[:2])
    nodes = getattr(made, name)
    place, part = draw.randrange(len(nodes)), draw.randrange(len(nodes))
    return written(made._replace(**{name: [*nodes[:place], *nodes[part:end_of_tree(nodes, part)], *nodes[end_of_tree(nodes, place):]]}))


def other_order(draw, made):
    """An order, or a source, of accesses that may be no pair, or no read."""
    return with_node(draw, made, TREES[:2], "OS", lambda node: node._replace(about=(*node.about[1:], random_access(draw))))


def reversed_order(draw, made):
    """The two writes of an order in the other order, with the trees as they were."""
    return with_node(draw, made, TREES[:2], "O", lambda node: node._replace(about=node.about[::-1]))


def other_cycle(draw, made):
    """A cycle of another union, with an event more, fewer or another, or reversed."""
    def change(node):
        union, events = node.about
        place = draw.randrange(len(events))
        before, after = events[:place], events[place:]
        others = [*before, *after[1:]], [*before, random_access(draw), *after], events[::-1], [*events[1:], events[0]], events * 2
        return node._replace(about=draw.choice([(draw.choice("slg"), events), *((union, it) for it in others)]))

    return with_node(draw, made, TREES[:2], "C", change)


def other_leaf(draw, made):
    """Another outcome's number, or a cycle where an outcome is known."""
    def change(node):
        return draw.choice((node._replace(about=(draw.randrange(len(made.seq) + 1),)), Node("C", ("s", [random_access(draw), random_access(draw)]), 0)))

    return with_node(draw, made, TREES[:2], "K", change)


def other_split(draw, made):
    """Another run that splits a region."""
    return with_node(draw, made, TREES[2:], "P", lambda node: node._replace(about=(draw.randrange(len(made.runs) + 1),)))


def other_bound(draw, made):
    """A bound by other runs: one too few, one twice, one more, or random ones, which may share gaps or pass a gap of what the sets must have."""
    def change(node):
        runs = list(node.about)
        several = draw.sample(range(len(made.runs)), min(len(made.runs), draw.randrange(1, 4)))
        others = runs[1:], runs[:1] + runs, [*runs, draw.randrange(len(made.runs) + 1)], several
        return node._replace(about=tuple(draw.choice(others)))

    return with_node(draw, made, TREES[2:], "B", change)


def whole_bound(draw, made):
    """A bound in place of a part of the gap tree, or of all of it."""
    nodes = list(made.gap_tree)
    place = draw.choice((0, draw.randrange(len(nodes))))
    several = draw.sample(range(len(made.runs)), min(len(made.runs), draw.choice((0, 1, 1, 2, 3, 4))))
    nodes[place:end_of_tree(nodes, place)] = [Node("B", tuple(several), 0)]
    return written(made._replace(gap_tree=nodes))


KINDS = (
    changed_byte, cut_text, longer_text, swapped_number, swapped_words, other_version, other_header, other_shown, other_bound_form, other_set, changed_run,
    dropped_tree, deep_tree, many_children, exchanged_trees, other_order, reversed_order, other_cycle, other_leaf, other_split, other_bound, whole_bound,
    whole_bound,
)
