"""Calls: public calls of the libraries, in small cases that `test_calls` makes."""
from harness import Cases, expect_call, lines, text_of


class Calls(Cases):
    def test_table(self):
        """The calls of `calls.tsv`: of tokens, texts, sets and costs, programs, machines, formulas, certificates and sketches."""
        for call, text, right in lines("calls.tsv"):
            expect_call(call, text_of(text), text_of(right))

    def test_long_texts(self):
        """Formulas need no stack, however long; a thread with its fences has up to 127 instructions."""
        chain = "(" * 140_000 + "a" + "&a)" * 139_999 + "&c)"
        negated = "!" * 250_000 + "a"
        for text, alone, enclosed in (
            ("a&" * 140_000 + "c", chain, chain),
            ("(" * 400_000 + "a" + ")" * 400_000, "a", "(a)"),
            (negated, negated, f"({negated})"),
        ):
            right = f"holds true Forall true again true\n{alone}\n{enclosed}\n"
            expect_call("formula", text.encode(), right.encode())
        expect_call("formula", b"(" * 400_000, b"refused formula Refused(400000)\n")
        fences = f"Thread {{ code: Items {{ items: [{', '.join(['Fence'] * 127)}] }}, registers: [0, 0, 0, 0, 0, 0] }}"
        right = (
            f"name long\nthreads [{fences}]\nmemory []\nlocations\nregisters of 0\nlabels of 0\n"
            "observed []\nquantifier Exists\nformula [Const(true)]\n")
        text = "X86 long\n{ }\nP0 ;\n" + "MFENCE ;\n" * 127
        expect_call("read-fenced", (text + "exists true").encode(), right.encode())
        longer = (text + "MFENCE ;\nexists true").encode()
        expect_call("read-fenced", longer, b"refused litmus Program(3, TooLong(0))\n")
