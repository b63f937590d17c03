"""Memory: each allocation refused in turn, on command lines of the two programs and on scripts of `test_calls`.

An allocation is refused until a run meets no refusal. A script of `refused_calls.tsv` makes each call once more: a call that is refused has changed nothing, and succeeds then.
"""
import os
import re
from concurrent.futures import ThreadPoolExecutor

from cases.large import EXCHANGES
from cases.progress import reads
from harness import (
    EXAMPLES, FENCECHECK, FENCER, TEST_CALLS, PreloadedCases, accepting, bytes_of, called, example, failing_in_turn, in_data, lines, run, same, tell, watched,
    without_front, write,
)
from judges import documents

MOST_ALLOCATIONS = 50_000
MOST_REFUSED = 2_000
# of a large program's search each of the first allocations is refused, and after it each that is so much further off than the one before
FIRST_REFUSED = 200
FURTHER = 1.1
MOST_IN_LARGE = 10_000_000
# lines that report a refusal for lack of memory
REFUSED = r"(?:refused (?:memory|[a-z]+ (?:OutOfMemory|\S*\(.*OutOfMemory\)))|Err\(OutOfMemory\))"


def refused_allocations(library, name, words, given, right, lawful, program=FENCER, certified=None, costs=()):
    """Each allocation refused in turn, until a run meets no refusal; where there is an answer, the named certificate is accepted."""
    for nth in range(1, MOST_ALLOCATIONS):
        found, met = watched(library, nth, words, given, program)
        tell(f"{name}, allocation {nth} refused", found == right or (met and found in lawful), found, f"{right!r}, or a refusal for lack of memory")
        if certified and found == right:
            same(f"{name}, its certificate with allocation {nth} refused", run(["-", certified, *costs], given, FENCECHECK), accepting(right[1]))
            os.remove(certified)
        if not met:
            return
    tell(f"{name}: the refusals end", False)


def refused_by_number(library, name, words, numbers, given, right, lawful, folder=None):
    """What a command line by several threads answers where one of these allocations is refused, and whether it came; with a folder, also that the certificate
    of an answer is accepted. Which allocation has a number changes from run to run, so each is tried whatever a run met."""
    accepted = accepting(right[1])

    def tried(nth):
        certificate = os.path.join(folder, str(nth)) if folder else ""
        found, met = watched(library, nth, [*words, *(["--certificate", certificate] if folder else [])], given, FENCER)
        judged = run(["-", certificate], given, FENCECHECK) if folder and found == right else accepted
        if os.path.exists(certificate):
            os.remove(certificate)
        return nth, found, met, judged

    with ThreadPoolExecutor() as pool:
        tries = list(pool.map(tried, numbers))
    for nth, found, met, judged in tries:
        tell(f"{name}, allocation {nth} refused", found == right or (met and found in lawful), found, f"{right!r}, or a refusal for lack of memory")
        if folder:
            same(f"{name}, its certificate with allocation {nth} refused", judged, accepted)
    return [(found, met) for _, found, met, _ in tries]


def refused_to_threads(library, folder, test, workers, right, lawful):
    """So many allocations of a placement by several threads refused in turn."""
    name, words = f"the placement of {test} with {workers} workers", ["place", "--workers", str(workers), "-"]
    tries = refused_by_number(library, name, words, range(1, MOST_REFUSED + 1), example(test + ".litmus"), right, lawful, folder)
    tell(f"{name}: one is refused memory for its search", (1, b"refused place 5 OutOfMemory\n") in (found for found, _ in tries))


def refused_here_and_there(library, name, words, given, lawful, refusal, folder=None):
    """Allocations of a large program's search, refused in turn: each of the first, and then fewer."""
    right = run(words, given)
    tell(name, right[0] == 0, right)
    numbers = [*range(1, FIRST_REFUSED)]
    while numbers[-1] < MOST_IN_LARGE:
        numbers.append(int(numbers[-1] * FURTHER) + 1)
    tries = refused_by_number(library, name, words, numbers, given, right, lawful, folder)
    answers = {met: {found for found, its in tries if its == met} for met in (True, False)}
    tell(f"{name}: a refusal that ends it", (1, refusal) in answers[True])
    same(f"{name}: the refusals end", answers[False], {right})


def large_refused(library, folder):
    """Lists of outcomes of both models, and placements with their certificates, of large programs."""
    given = reads(5, 5, 4).encode()
    for words in (["outcomes", "--runs", "-"], ["outcomes", "--model", "sequential", "-"]):
        refused_here_and_there(library, f"{' '.join(words)} of a large program", words, given, lawful_lines("solve 2 OutOfMemory"), b"refused solve 2 OutOfMemory\n")
    for options in ([], ["--trees", "whole"]):
        name, words = f"a placement {' '.join(options)} of a large program", ["place", *options, "-"]
        refused_here_and_there(library, name, words, EXCHANGES.encode(), PLACED_LAWFULLY, b"refused place 5 OutOfMemory\n", folder)


def lawful_lines(*told):
    """What a program may answer where memory is refused: nothing, or one of these lines."""
    return [(1, b""), *((1, f"refused {line}\n".encode()) for line in ("file 1 Read", "litmus 12 OutOfMemory", *told))]


class RefusalDocuments:
    """What a program may answer with `--json` where memory is refused: nothing, or the document of one of these lines."""

    def __init__(self, lawful):
        self.lawful = lawful

    def __contains__(self, found):
        status, text = found
        document = documents.read(text)
        line = f"refused {document['refused']}\n".encode() if document and "refused" in document else text
        return (status, line) in self.lawful


class SurveyTexts:
    """What a survey of files with these blocks and rows may print where memory is refused, with status 1: a block for each file, of which some are refusals, and
    their table; or the first of these blocks alone."""

    def __init__(self, heading, files, *told):
        self.heading, self.files, self.lawful = heading, files, lawful_lines("place 5 OutOfMemory", *told)

    def __contains__(self, found):
        status, text = found
        table = self.heading
        for name, block, row in self.files:
            refusal = f"file {name}\n".encode()
            lines = [refusal + line for _, line in self.lawful if line and text.startswith(refusal + line)]
            if not lines and not text.startswith(block):
                break
            text = text[len(lines[0] if lines else block):]
            table += f"row refused {name}\n".encode() if lines else row
        return status == 1 and text in (b"", table)


def surveys_refused(library):
    """A survey of two files, without ties and with them."""
    given, other = example("SB.litmus"), os.path.join(EXAMPLES, "n6.litmus")
    for options, told in (([], []), (["--ties"], ["costs 5 OutOfMemory"])):
        words = ["survey", *options, "-", other]
        name, right = " ".join([*words[:-2], "of two files"]), run(words, given)
        tell(name, right[0] == 3, right)
        blocks, heading, *rows = re.split(rb"^(table .*\n|row .*\n)", right[1], flags=re.M)
        first, second = re.fullmatch(rb"(file -\n.*)(file .*)", blocks, re.S).groups()
        rows = [row for row in rows if row]
        refused_allocations(library, name, words, given, right, SurveyTexts(heading, [("-", first, rows[0]), (other, second, rows[1])], *told))


def replays_refused(library):
    """A replay, its table, a replay that is refused, lists of outcomes, and runs that are sought."""
    lawful = lawful_lines("run 2 OutOfMemory", "replay 6 OutOfMemory")
    given, labels = example("SB.litmus"), ["-", "e0", "e1", "e0", "e1", "f0", "f1"]
    right = (0, b"outcome: 0:EAX=0; 1:EAX=0; x=1; y=1;\npassed 0:1 1:1\n")
    refused_allocations(library, "store buffering", ["replay", *labels], given, right, lawful)
    refused_allocations(library, "the table of store buffering", ["trace", *labels], given, run(["trace", *labels], given), lawful)
    right = (1, b"refused replay 2 AtEnd step 2\n")
    refused_allocations(library, "a refusal", ["replay", "-", "e0", "e0", "e0"], given, right, lawful)
    lawful = lawful_lines("solve 2 OutOfMemory")
    for test, words in (
        ("SB", ["outcomes", "-"]), ("n6", ["outcomes", "--observed", "-"]), ("SB", ["outcomes", "--progress", "-"]),
        ("SB", ["outcomes", "--runs", "-"]), ("n6", ["outcomes", "--runs", "--json", "--observed", "-"]),
        ("SB", ["outcomes", "--fences", "0:1", "-"]), ("n6", ["outcomes", "--json", "--fences", "0:1,1:1", "-"]),
    ):
        given = example(test + ".litmus")
        right = run(words, given)
        tell(f"the outcomes of {test}", right[0] == 0, right)
        refused_allocations(library, f"the outcomes of {test}", words, given, right, RefusalDocuments(lawful) if "--json" in words else lawful)
    for test, options in (("SB", ["--fences", "0:1"]), ("SB", ["--fences", "0:1,1:1"]), ("n6", ["--not"]), ("SB", ["--progress"])):
        given, words = example(test + ".litmus"), ["witness", *options, "-"]
        right = run(words, given)
        tell(f"a run of {test} that is sought", right[0] == 0, right)
        refused_allocations(library, f"a run of {test} that is sought, {options}", words, given, right, lawful)
    given, right = example("SB.litmus"), (1, b"refused fences 1 NoSuchGap 0:2\n")
    for command in ("witness", "outcomes"):
        refused_allocations(library, f"a fence of {command} at no gap", [command, "--fences", "0:2", "-"], given, right, lawful)


EARLY = ["--trees", "early"]
PLACED_LAWFULLY = lawful_lines("costs 5 OutOfMemory", "place 5 OutOfMemory", "file 2 Write")


def placements_refused(library, folder):
    """Placements, with costs too, and the reasons of an answer."""
    certificate = os.path.join(folder, "certificate")
    for test, options in (("SB", []), ("n6", []), ("n6", ["--observed"]), ("SB", ["--condition"]), ("SB", ["--progress"]), ("SB", EARLY), ("n6", EARLY)):
        given = example(test + ".litmus")
        right = run(["place", *options, "-"], given)
        tell(f"the placement of {test}", right[0] == 0, right)
        words = ["place", *options, "--certificate", certificate, "-"]
        refused_allocations(library, f"the placement of {test}", words, given, right, PLACED_LAWFULLY, certified=certificate)
        refused_allocations(library, f"the placement of {test} without a certificate", ["place", *options, "-"], given, right, PLACED_LAWFULLY)
        for workers in () if options else (2, 8):
            refused_to_threads(library, folder, test, workers, right, PLACED_LAWFULLY)
    for file, costs, line in (
        ("../../examples/n6.litmus", "litmus/n6.costs", b"answer cost 1 set 0:2\n"),
        ("canonical/jump-over-a-fence.litmus", "litmus/jump-over-a-fence.costs", b"answer cost 2 set 0:3 1:1\n"),
    ):
        given, costs = bytes_of(in_data(file)), in_data(costs)
        right = run(["place", "--costs", costs, "-"], given)
        tell(f"the placement of {file} with costs", right[0] == 0 and right[1].startswith(line), right)
        words = ["place", "--costs", costs, "--certificate", certificate, "-"]
        refused_allocations(library, f"the placement of {file} with costs", words, given, right, PLACED_LAWFULLY, certified=certificate, costs=[costs])
    given, text = example("SB.litmus"), os.path.join(folder, "text")
    refused_allocations(library, "a text with its fences", ["place", "--insert", text, "-"], given, run(["place", "-"], given), PLACED_LAWFULLY)
    same("a text with its fences, which is written", bytes_of(text).count(b"MFENCE"), 2)
    for test, options in (("n6", []), ("R", ["--condition"]), ("SB", ["--progress"])):
        given, words = example(test + ".litmus"), ["why", *options, "-"]
        right = run(words, given)
        tell(f"the reasons of {test}", right[0] == 0, right)
        refused_allocations(library, f"the reasons of {test}", words, given, right, PLACED_LAWFULLY)


def certificates_refused(library, folder):
    """Certificates of each version that are accepted, and one that is refused after its costs are read."""
    lawful = lawful_lines("certificate 8 OutOfMemory", "costs 5 OutOfMemory", "check 9 OutOfMemory")
    for test, kind, line in (
        ("SB", "", b"accepted cost 2 set 0:1 1:1\n"), ("nothing", "", b"accepted cost 0 set\n"),
        ("n6-observed", "", b"accepted observed cost 0 set\n"), ("Two-looks", "-condition", b"accepted condition cost 2 set 0:1 1:1\n"),
    ):
        given = example(test + ".litmus") + example(f"{test}{kind}.cert")
        refused_allocations(library, f"the certificate of {test}{kind}", [], given, (0, line), lawful, FENCECHECK)
    for test, line in (("bounds", b"accepted cost 2 set 0:1 1:1\n"), ("own-store", b"accepted cost 0 set\n")):
        words = [in_data("certificates", test + end) for end in (".litmus", ".cert")]
        refused_allocations(library, f"the certificate of version 4 of {test}", words, b"", (0, line), lawful, FENCECHECK)
    costs = os.path.join(folder, "costs")
    write(costs, b"0:1 5\n1:1 2\n")
    words = [os.path.join(EXAMPLES, file) for file in ("SB.litmus", "SB.cert")]
    right = (1, b"refused check 2 Cost\n")
    refused_allocations(library, "files with costs", [*words, costs], b"", right, lawful, FENCECHECK)


def pattern(text):
    """What a text of `refused_calls.tsv` stands for."""
    def of_line(line):
        if line == "*":
            return REFUSED
        told = re.escape(without_front(line, "?")).replace(r"\#", "[0-9]+")
        return rf"(?:{told}|(?:run )?{REFUSED})" if line.startswith("?") else told

    return "".join(of_line(line) + "\n" for line in text.split("\\n")[:-1])


def refused_script(library, name, given, texts, told):
    """A call or a script of calls with each allocation refused in turn; some refusal leads to the line that is named."""
    right, *others = map(pattern, texts)
    lawful, found_told = "|".join((right, *others, REFUSED + "\n")), False
    for nth, (status, text), met in failing_in_turn(library, [], given, TEST_CALLS):
        text = text.decode()
        is_lawful = re.fullmatch(lawful, text) if status == 0 else text == ""
        tell(f"{name}, allocation {nth} refused", is_lawful if met else status == 0 and re.fullmatch(right, text), (status, text))
        found_told = found_told or told in text.split("\n")
    tell(f"{name}: a refusal leads to {told}", found_told)


def scripts_refused(library):
    for call, file, told, *texts in lines("refused_calls.tsv"):
        given = call.encode() + b"\n" + bytes_of(in_data(file))
        refused_script(library, f"{call} of {file}", given, texts, told)


def texts_refused(library):
    """Texts that are read and written by one call."""
    for call, file in (
        ("read", "../../examples/SB.litmus"), ("read", "../../examples/n6.litmus"),
        ("read", "litmus/jump-over-the-load.litmus"), ("read", "canonical/jump-over-a-fence.litmus"),
        ("read-fenced", "canonical/end-of-a-jump.fenced"), ("read-fenced", "canonical/jump-over-a-fence.fenced"),
        ("canonical 0 1", "../../examples/SB.litmus"), ("canonical 0", "../../examples/n6.litmus"),
        ("canonical 2 3", "litmus/jump-over-the-load.litmus"), ("canonical 2 3", "canonical/jump-over-a-fence.litmus"),
        ("certificate", "../../examples/SB.cert"), ("certificate", "../../examples/n6-observed.cert"),
    ):
        text = bytes_of(in_data(file))
        right = called(call, text).decode()
        tell(f"{call} of {file}", right and not right.startswith("refused "), right)
        kind = "certificate" if call == "certificate" else "litmus"
        refused_script(library, f"{call} of {file}", call.encode() + b"\n" + text, [right.replace("\n", "\\n")], f"refused {kind} OutOfMemory")
    refused_script(library, "a run text", b"run\ne0 e1 f255 f0", ["[Exec(0), Exec(1), Flush(255), Flush(0)]\\ne0 e1 f255 f0\\n"], "refused run OutOfMemory")


class Memory(PreloadedCases):
    source = "fail_nth.c"

    def test_replays(self):
        """Replays, their tables, lists of outcomes, and runs that are sought."""
        replays_refused(self.library)

    def test_surveys(self):
        """A survey of two files, without ties and with them."""
        surveys_refused(self.library)

    def test_large(self):
        """Large programs: lists of both models, and placements with their certificates."""
        large_refused(self.library, self.folder)

    def test_placements(self):
        """Placements by one worker and by several, and reasons."""
        placements_refused(self.library, self.folder)

    def test_certificates(self):
        """Certificates, and their costs."""
        certificates_refused(self.library, self.folder)

    def test_scripts(self):
        """The scripts of `refused_calls.tsv`."""
        scripts_refused(self.library)

    def test_texts(self):
        """Texts that are read and written by one call."""
        texts_refused(self.library)
