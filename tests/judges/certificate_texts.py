"""The text of a certificate, of version 1, 2 or 4, as docs/formats.md says it (*Certificates*): what it spells, or its first fault from left to right."""
import collections
import re

VERSIONS = (1, 2, 4)
FAULTS = {"Header": 1, "Token": 2, "Number": 3, "TooDeep": 4, "TooMany": 5, "Ended": 6, "Trailing": 7}
GREATEST, MOST = 18446744073709551615, 1024
MOST_DEEP = {"cover": 600, "gap": 129}
GAPS = [str(gap) for gap in range(128)]
# registers by thread and number, then locations, each by its place
SHOWN = [*(f"r{t}.{r}" for t in range(8) for r in range(6)), *(f"l{location}" for location in range(8))]
LOCATIONS_FROM = 48

# how a word is spelled, how one that the end of the bytes cuts is, and how great its numbers may be
Form = collections.namedtuple("Form", "whole cut most")
NUMBER = Form("([0-9]+)", "([0-9]*)", (GREATEST,))
GAP = NUMBER._replace(most=(127,))
NAME = Form(r"r([0-9]+)\.([0-9]+)|l([0-9]+)", r"r(?:([0-9]+)(?:\.([0-9]*))?)?|l([0-9]*)", (7, 5, 7))
THREAD = NUMBER._replace(most=(255,))
ACCESS = Form(r"([0-9]+)\.([0-9]+)", r"(?:([0-9]+)(?:\.([0-9]*))?)?", (255, 255))
LABEL = Form("[ef]([0-9]+)", "(?:[ef]([0-9]*))?", (255,))
UNION = Form("[slg]", "[slg]?", ())
LETTERS = {"cover": Form("[VSOCK]", "[VSOCK]?", ()), "gap": Form("[PB]", "[PB]?", ())}

# a node before its children: its letter, what it speaks of, and how many children it has
Node = collections.namedtuple("Node", "letter about count")
# what is shown is `all`, `condition` or places; a run is a list of labels, a tree a list of nodes
Certificate = collections.namedtuple("Certificate", "version shown gaps cost seq tree runs fenced gap_tree")


class Refused(Exception):
    """The first fault of a text: its name, and the byte where it is."""

    def __init__(self, name, offset):
        super().__init__(name, offset)
        self.line = f"refused certificate {FAULTS[name]} {name}" + ("" if name in ("Header", "Ended") else f" {offset}")


def is_past(number, most):
    """Whether digits have a leading zero, or make more than the limit."""
    return bool(number) and (number != str(int(number)) or int(number) > most)


def fault_of(word, spelling, form, most):
    """What is wrong with a word of this spelling, by its form, its numbers and how many may follow; nothing where it is right."""
    found = re.fullmatch(spelling, word)
    if not found:
        return "Token"
    if any(is_past(*pair) for pair in zip(found.groups(), form.most)):
        return "Number"
    return "TooMany" if form is NUMBER and word and int(word) > most else None


class Text:
    """The bytes of a certificate, read from left to right."""

    def __init__(self, text):
        self.text, self.place = text.decode("latin-1"), 0

    def refuse(self, name, place=None):
        raise Refused(name, self.place if place is None else place)

    # words, and what stands between them

    def ahead(self):
        """The next byte: a space, a LF or one of a word; the text has ended where there is none."""
        if self.place == len(self.text):
            self.refuse("Ended")
        return self.text[self.place]

    def mark(self, mark):
        if self.ahead() != mark:
            self.refuse("Token")
        self.place += 1

    def next_word(self):
        """Where the next word begins, the word, which may be empty, and whether the end of the bytes cuts it."""
        begin = self.place
        word = re.compile("[^ \n]*").match(self.text, begin)[0]
        self.place += len(word)
        return begin, word, self.place == len(self.text)

    def name(self, name):
        """The first word of a line."""
        begin, word, is_cut = self.next_word()
        if is_cut and name.startswith(word):
            self.refuse("Ended")
        if word != name:
            self.refuse("Token", begin)

    def word(self, form, most=GREATEST):
        """A word of a form, and its numbers. Where it is a count, it counts no more than so many."""
        begin, word, is_cut = self.next_word()
        if is_cut and not fault_of(word, form.cut, form, most):
            self.refuse("Ended")
        fault = fault_of(word, form.whole, form, most)
        if fault:
            self.refuse(fault, begin)
        return word, tuple(map(int, re.fullmatch(form.whole, word).groups()))

    def number(self, form=NUMBER, most=GREATEST):
        self.mark(" ")
        return self.word(form, most)[1][0]

    def access(self):
        self.mark(" ")
        return self.word(ACCESS)[1]

    def space_before(self, number, most, fault):
        """A space, and after it something that is one too many where there are `most` already."""
        self.mark(" ")
        if number >= most:
            self.refuse("Token" if self.ahead() in " \n" else fault)

    # lines

    def header(self):
        lines = {f"FENCECERT {version}\n": version for version in VERSIONS}
        for line, version in lines.items():
            if self.text.startswith(line):
                self.place = len(line)
                return version
        self.refuse("Ended" if any(line.startswith(self.text) for line in lines) else "Header")

    def ascending(self, listed, form, alone=()):
        """Words of a list up to the end of the line, each later in the list than the one before, as their places; or a word that stands alone."""
        found = []
        while self.ahead() == " ":
            self.mark(" ")
            begin, word, is_cut = self.next_word()
            least = found[-1] + 1 if found else 0
            if is_cut and any(it.startswith(word) for it in (*listed[least:], *(() if found else alone))):
                self.refuse("Ended")
            if word in alone and not found:
                found = word
                break
            if fault_of(word, form.cut if is_cut else form.whole, form, GREATEST) == "Number":
                self.refuse("Number", begin)
            if word not in listed[least:]:
                self.refuse("Token", begin if word or not is_cut else begin - 1)
            found.append(listed.index(word))
        self.mark("\n")
        return found

    def runs(self, name):
        self.name(name)
        count, found = self.number(), []
        self.mark("\n")
        while len(found) < count:
            self.name("run")
            labels = []
            while self.ahead() == " ":
                self.space_before(len(labels), MOST, "TooMany")
                labels.append(self.word(LABEL)[0])
            self.mark("\n")
            found.append(labels)
        return found

    # trees

    def tree(self, name, kind, version):
        """The nodes of a tree, each before its children."""
        self.name(name)
        nodes, left = [], [1]
        while left:
            if not left[-1]:
                left.pop()
                continue
            left[-1] -= 1
            self.space_before(len(left) - 1, MOST_DEEP[kind], "TooDeep")
            nodes.append(self.node(self.word(LETTERS[kind])[0], version))
            left.append(nodes[-1].count)
        self.mark("\n")
        return nodes

    def node(self, letter, version):
        """What a node says after its letter."""
        if letter == "V":
            return Node(letter, (self.number(THREAD),), self.number(most=MOST))
        if letter == "S":
            return Node(letter, (self.access(),), self.number(most=MOST))
        if letter == "O":
            return Node(letter, (self.access(), self.access()), 2)
        if letter == "C":
            self.mark(" ")
            union, count = self.word(UNION)[0], self.number(most=MOST)
            return Node(letter, (union, [self.access() for _ in range(count)]), 0)
        if letter == "P":
            return Node(letter, (self.number(),), self.number(most=MOST))
        if letter == "K":
            return Node(letter, (self.number(),), 0)
        return Node(letter, tuple(self.number() for _ in range(self.number(most=MOST))) if version == 4 else (), 0)

    def shown(self, version):
        if version == 1:
            return "all"
        self.name("shown")
        return self.ascending(SHOWN, NAME, ("condition",) if version == 2 else ("all", "condition"))

    def certificate(self):
        """What the whole text spells."""
        version = self.header()
        shown = self.shown(version)
        self.name("set")
        gaps = self.ascending(GAPS, GAP)
        self.name("cost")
        cost = self.number()
        self.mark("\n")
        seq, tree = self.runs("seq"), self.tree("tree", "cover", version)
        runs, fenced = self.runs("runs"), self.tree("fenced", "cover", version)
        gap_tree = self.tree("gaps", "gap", version)
        if self.place < len(self.text):
            self.refuse("Trailing")
        return Certificate(version, shown, gaps, cost, seq, tree, runs, fenced, gap_tree)


def read(text):
    """The certificate that some bytes spell; `Refused` is raised with the first fault of others."""
    return Text(text).certificate()


def node_words(node, version):
    """The words of a node."""
    about = [f"{it[0]}.{it[1]}" if isinstance(it, tuple) else it for it in node.about]
    if node.letter == "C":
        return ["C", node.about[0], len(node.about[1]), *(f"{t}.{i}" for t, i in node.about[1])]
    if node.letter == "B":
        return ["B", len(about), *about] if version == 4 else ["B"]
    return [node.letter, *about, *([node.count] if node.letter in "VSP" else [])]


def written(certificate):
    """The text of a certificate."""
    def line(*words):
        return " ".join(map(str, words))

    def tree(name, nodes):
        return line(name, *(word for node in nodes for word in node_words(node, certificate.version)))

    shown = [certificate.shown] if isinstance(certificate.shown, str) else [SHOWN[place] for place in certificate.shown]
    return "".join(it + "\n" for it in (
        f"FENCECERT {certificate.version}",
        *([] if certificate.version == 1 else [line("shown", *shown)]),
        line("set", *certificate.gaps), line("cost", certificate.cost),
        line("seq", len(certificate.seq)), *(line("run", *labels) for labels in certificate.seq), tree("tree", certificate.tree),
        line("runs", len(certificate.runs)), *(line("run", *labels) for labels in certificate.runs), tree("fenced", certificate.fenced),
        tree("gaps", certificate.gap_tree),
    )).encode()
