"""Random certificates: what `fencecheck` says of many small ones of each version, most of them damaged, is what `judges/certificates.py` says of them."""
import collections
import functools
import itertools
import os
import random
import tempfile
from concurrent.futures import ThreadPoolExecutor

from harness import FENCECHECK, Cases, answer_of, bytes_of, expect, in_data, lines, run, same, tell, text_of, write
from judges.certificate_texts import read, written
from judges.certificates import line_of
from judges.damage import KINDS
from judges.made_certificates import Maker, TooLong, random_source
from judges.texts import canonical_of, test_of

# so many certificates at least are of version 4, and so many of these undamaged; each that is made is damaged in so many ways
OF_VERSION_4, UNDAMAGED, DAMAGED, SEED = 2000, 300, 6, 55
# the versions and the rules by which cover trees are made; by `none` a read may take its source before it is settled
MADE = ((4, "early"), (4, "whole"), (4, "none"), (1, "whole"), (1, "early"))
# what the judge has to say of some of them, so that each fault is met
FAULTS = (*(f"refused certificate {number}" for number in range(1, 8)), *(f"refused check {number}" for number in (*range(1, 9), 10)))
SAID = ("accepted cost", "accepted observed", "accepted condition", *FAULTS)

# a certificate's text, whether it is damaged, and what the judge says of it; a program, and the line of the best set as the machine's states show it
Case = collections.namedtuple("Case", "name program text is_damaged line")
Program = collections.namedtuple("Program", "number source costs best")


@functools.cache
def program_of(litmus):
    """The program of a litmus file, and its canonical text."""
    return test_of(bytes_of(litmus)), canonical_of(bytes_of(litmus))


def costs_by(gaps, text):
    """What each gap costs by the text of a cost file."""
    told = dict(line.split() for line in text.decode().splitlines())
    return [int(told.get(f"{t}:{k}", 1)) for t, k in gaps]


def certificates_of(draw, maker):
    """Certificates of a program, as they are made and damaged, each with the name of what it is, its text, and whether it is damaged."""
    for version, rule in [MADE[0], *draw.sample(MADE[1:], 2)]:
        version = version if maker.question.shown == "all" or version == 4 else 2
        try:
            made = maker.certificate(version, rule)
        except TooLong:
            continue
        name = f"version {version} by the rule {rule}"
        yield name, written(made), False
        yield from ((f"{name}, {kind.__name__}", kind(draw, made), True) for kind in draw.sample(KINDS, DAMAGED))


def random_cases(draw):
    """Random programs, each with its certificates and what the judge says of them."""
    for number in itertools.count():
        source = random_source(draw)
        test, canonical = test_of(source), canonical_of(source)
        spelled = b"" if draw.random() < 0.4 else "".join(f"{t}:{k} {draw.choice((1, 1, 2, 5))}\n" for t, k in test.gaps()).encode()
        costs, asked = costs_by(test.gaps(), spelled), draw.choice(("all", "all", "all", "condition", "names"))
        maker = Maker(draw, test, canonical, [] if asked == "names" else asked, costs)
        if maker.set or draw.random() < 0.1:
            maker.find_more(5)
            program = Program(number, source, spelled, maker.line)
            for name, text, is_damaged in certificates_of(draw, maker):
                yield Case(f"random program {number}: {name}", program, text, is_damaged, line_of(test, canonical, costs, text))


def enough_cases(draw):
    """Random cases, until enough have a text of version 4 and enough of these are undamaged."""
    of_version_4 = undamaged = 0
    for case in random_cases(draw):
        yield case
        if case.text.startswith(b"FENCECERT 4\n"):
            of_version_4 += 1
            undamaged += not case.is_damaged
        if of_version_4 >= OF_VERSION_4 and undamaged >= UNDAMAGED:
            return


def files_of(folder, case, place):
    """The files of a case. Those of its program are written once, since other cases read them at the same time."""
    named = [(f"{case.program.number}.litmus", case.program.source), (f"{place}.cert", case.text), (f"{case.program.number}.costs", case.program.costs)]
    paths = [os.path.join(folder, name) for name, _ in named]
    for path, (_, text) in zip(paths, named):
        if not os.path.exists(path):
            write(path, text)
    return paths


def said_by(line):
    """What a line says, without its details."""
    return " ".join(line.split()[:3 if line.startswith("refused ") else 2])


class RandomCertificates(Cases):
    def test_tables(self):
        """What the judge says of the certificates of the tables, whose lines are those of an independent program or were written by hand."""
        for folder in ("certificates", "observed"):
            rows = [(litmus, bytes_of(in_data(folder, file)), costs, line, file) for litmus, file, costs, line in lines(folder, "cases.tsv")]
            for test, spelled, other, line in lines(folder, "changes.tsv"):
                shown = bytes_of(in_data(folder, test + ".cert")).replace(text_of(spelled), text_of(other))
                rows.append((test + ".litmus", shown, "-", line, f"{test}.cert with {other} for {spelled}"))
            rows += [("../../../examples/nothing.litmus", text_of(spelled), "-", line, spelled) for spelled, line in lines(folder, "cut.tsv")]
            for litmus, shown, costs, line, name in rows:
                test, canonical = program_of(in_data(folder, litmus))
                given = costs_by(test.gaps(), b"" if costs == "-" else bytes_of(in_data(folder, costs)))
                same(f"the judge of {folder}: {name}", line_of(test, canonical, given, shown), line)

    def test_damaged(self):
        """Certificates of random programs by each version and rule, as they are made and damaged: at least 2,000 texts of version 4, of them 300 undamaged."""
        draw = random.Random(SEED)
        with tempfile.TemporaryDirectory() as folder, ThreadPoolExecutor() as pool:
            found = []
            for case in enough_cases(draw):
                words = files_of(folder, case, len(found))
                found.append((case, words, pool.submit(run, words, b"", FENCECHECK)))
            for case, words, answer in found:
                if answer.result() == answer_of(case.line):
                    tell(case.name, True)
                else:
                    expect(case.name, words, *answer_of(case.line), program=FENCECHECK)
                if said_by(case.line) == said_by(case.program.best):
                    same(f"the set of {case.name}", case.line, case.program.best)
        said = collections.Counter(said_by(case.line) for case, _, _ in found)
        for line in SAID:
            tell(f"the judge says {line} of some random certificates", said[line], said)

    def test_made(self):
        """What is made by the rule of its version is accepted, and is read back."""
        draw = random.Random(SEED + 1)
        for number in range(20):
            source = random_source(draw)
            test, canonical = test_of(source), canonical_of(source)
            maker = Maker(draw, test, canonical, draw.choice(("all", "condition", [])), [1] * len(test.gaps()))
            for version, rule in ((4, "early"), (4, "whole"), (1 if maker.question.shown == "all" else 2, "whole")):
                try:
                    made = maker.certificate(version, rule)
                except TooLong:
                    continue
                line = line_of(test, canonical, maker.costs, written(made))
                tell(f"random program {number}: version {version} by the rule {rule}", line.startswith("accepted "), line, "accepted ..")
                same(f"random program {number}: version {version} by the rule {rule}, read", read(written(made)), made)
