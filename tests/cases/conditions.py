"""Conditions: the fences of `fencer place --condition`, by the states of the machine, and the head of its certificates."""
import random

from harness import Cases, bytes_of, certificate_of, example_files, in_data, judge, litmus_cases, run, same, tell
from judges import conditions
from judges.texts import canonical_of, test_of

RANDOM_PROGRAMS = 300
SEED = 43


def placed(name, source):
    """The set that is placed for a program's condition is the one that is found by the states of the machine."""
    chosen = conditions.best_set(test_of(source), canonical_of(source).splitlines()[-1])
    line = " ".join([f"answer condition cost {len(chosen)} set", *(f"{t}:{k}" for t, k in chosen)])
    status, text = run(["place", "--condition", "-"], source)
    same(f"the fences of the condition of {name}", (status, text.decode().split("\n")[0]), (0, line))


class Conditions(Cases):
    def test_examples(self):
        """The examples and the atlas."""
        for file in example_files():
            placed(file, bytes_of(file))

    def test_random(self):
        """Random programs, with conditions that speak of what they load."""
        draw = random.Random(SEED)
        for number in range(RANDOM_PROGRAMS):
            placed(f"random program {number}", conditions.random_program(draw))

    def test_heads(self):
        """Which kind a certificate is of, and heads that are misspelled."""
        for case in litmus_cases("condition"):
            litmus = in_data("condition", case + ".litmus")
            source = bytes_of(litmus)
            shown = certificate_of(litmus, ["--trees", "whole", "--condition"])
            head = b"FENCECERT 2\nshown condition\nset"
            tell(f"the head of the condition's certificate of {case}", shown.startswith(head), shown[:80], head)
            for word, line in (
                (b"shown conditions", "refused certificate 2 Token 18"), (b"shown Condition", "refused certificate 2 Token 18"),
                (b"shown condition l0", "refused certificate 2 Token 27"), (b"shown l0 condition", "refused certificate 2 Token 21"),
            ):
                judge(f"{word.decode()} in the certificate of {case}", source, shown.replace(b"shown condition", word), line)
