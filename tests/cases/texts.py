"""Litmus texts: what is read of them, what is refused and in which line, canonical texts, and texts at the limits."""
import itertools
import re
import resource
import string

from harness import LIMIT, Cases, bytes_of, example, expect, expect_call, in_data, lines, run, same, sources_of, tell, text_of
from judges.texts import fenced_text

OUTCOME = b"outcome: 0:EAX=0; 1:EAX=1; x=1; y=1;\npassed\n"


def hostile_texts():
    """Long texts of one kind, each within the limit on a file's bytes, with what is printed."""
    def text(cell, condition):
        return f"X86 hostile\n{{ }}\nP0 ;\n{cell} ;\nexists {condition}\n"

    is_read = "refused replay 5 NotEnded step 0"
    letters = string.ascii_lowercase
    names = ("".join(name) for name in itertools.product(letters, repeat=4))
    labels = "".join(f"{name}:" for name in itertools.islice(names, 150_000))
    yield "nested parentheses", text("MFENCE", "(" * 500_000 + "true" + ")" * 500_000), is_read
    yield "parentheses that stay open", text("MFENCE", "(" * 1_000_000), "refused litmus 10 Ended line 6"
    yield "negations", text("MFENCE", "not " * 250_000 + "true"), is_read
    yield "a chain of atoms", text("MFENCE", "/\\".join(["x=0"] * 140_000)), is_read
    yield "comments that stay open", text("(*" * 500_000, "true"), "refused litmus 10 Ended line 6"
    yield "nested comments", text("(*" * 250_000 + "*)" * 250_000 + "MFENCE", "true"), is_read
    yield "a long name", text(f"MOV [{'n' * 1_000_000}],1", "true"), is_read
    yield "many labels", text(labels + "MFENCE", "true"), is_read
    yield "one label twice among many", text(labels + "zzzz:" + labels[:5], "true"), "refused litmus 7 Label line 4"
    entries = "".join(f"n{number}=0;" for number in range(100_000))
    yield "many names", f"X86 hostile\n{{{entries}}}\nP0 ;\nexists true", "refused litmus 11 Program line 3 Locations"
    columns = " | ".join(f"P{number}" for number in range(100_000))
    yield "many columns", f"X86 hostile\n{{ }}\n{columns} ;\nexists true", "refused litmus 11 Program line 3 TooManyThreads"
    yield "many lines before the brace", "X86 hostile\n" + "a=\n" * 300_000, "refused litmus 10 Ended line 300002"


class Texts(Cases):
    def test_refusals(self):
        """Texts that are refused, by the line that is printed; for a text that is read, the first line of its empty run."""
        for spelled, line in lines("refusals.tsv"):
            expect(f"reading {spelled}", ["replay", "-"], 1, line.encode() + b"\n", text_of(spelled))

    def test_canonical(self):
        """Canonical texts of fenced programs, and that they are read back."""
        for texts, sources in (("fenced", "replays"), ("whole", "whole"), ("canonical", "canonical")):
            for case, gaps in lines(texts, "gaps.tsv"):
                right = bytes_of(in_data(texts, case + ".fenced"))
                for litmus in sources_of(sources, case):
                    same(f"the canonical text of {litmus}", fenced_text(litmus, gaps), right)
        expect_call("canonical 2 0 5", example("SB.litmus"), b"refused fence NoSuchGap(2)\n")

    def test_prefixes(self):
        """Each proper prefix of store buffering's text is refused, but for the one that lacks its last line feed alone, which is read."""
        text = example("SB.litmus")
        for length in range(len(text) - 1):
            status, found = run(["replay", "-"], text[:length])
            right = status == 1 and re.fullmatch(rb"refused litmus [0-9]+ [A-Za-z]+ line [0-9]+\n", found)
            tell(f"{length} bytes of SB.litmus", right, (status, found))
        expect("SB.litmus without its last line feed", ["replay", "-"], 1, b"refused replay 5 NotEnded step 0\n", text[:-1])

    def test_first_lines(self):
        """A command in the first line of standard input."""
        text = example("SB.litmus")
        expect("words amid spaces", [], 0, OUTCOME, b"  replay --model  sequential - e0 e0   e1 e1 \n" + text)
        expect("a label with a CR", [], 1, b"refused run 1 Token 4\n", b"replay - e0 e0 e1 e1 e\r\n" + text)

    def test_longest(self):
        """A text with as many bytes as one may have, and with one more."""
        text = example("SB.litmus")
        longest = text + b" " * (LIMIT - len(text))
        words = ["replay", "-", "e0", "f0", "e0", "e1", "f1", "e1"]
        too_long = b"refused file 3 TooLong\n"
        expect("a file of the longest size", words, 0, OUTCOME, longest)
        expect("one byte more", words, 1, too_long, longest + b" ")
        line = " ".join(words).encode()
        expect("a rest of the longest size", [], 0, OUTCOME, line + b"\n" + longest)
        expect("one byte more of the rest", [], 1, too_long, line + b"\n" + longest + b" ")

    def test_hostile(self):
        """Each is answered with 2 seconds of a processor, 256 MiB and a stack of 8 MiB."""
        def limits():
            resource.setrlimit(resource.RLIMIT_CPU, (2, 2))
            resource.setrlimit(resource.RLIMIT_AS, (256 << 20, 256 << 20))
            resource.setrlimit(resource.RLIMIT_STACK, (8 << 20, 8 << 20))

        for name, text, line in hostile_texts():
            given = text.encode()
            tell(f"{name}: within the limit on a file", len(given) <= LIMIT, f"{len(given)} bytes")
            same(name, run(["replay", "-"], given, preexec_fn=limits), (1, line.encode() + b"\n"))
