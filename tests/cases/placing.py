"""Placing: the sets that `fencer place` answers, that its certificates are accepted, and what it reads and writes."""
import os
import tempfile
from concurrent.futures import ThreadPoolExecutor

from cases.progress import reads
from harness import (
    FENCECHECK, LIMIT, Cases, accepting, bytes_of, called, certificate_of, example, in_data, judge, lines, run, same, sources_of, tell, without_end, write,
)
from judges import candidates
from judges.texts import fenced_text, test_of

WORKERS = ([], ["--workers", "2"], ["--workers", "8"], ["--workers", "32"])
# a certificate of more bytes than this is long
LONG = 5_000
# options, and the version that a certificate then has: by the rule of its trees and what is compared, whatever the program's size
VERSIONS = (
    (["--trees", "whole"], 1), (["--trees", "whole", "--observed"], 2), (["--trees", "whole", "--condition"], 2),
    (["--trees", "early"], 4), (["--trees", "early", "--observed"], 4), (["--trees", "early", "--condition"], 4),
)
# where programs stand, where their answers do, with which options, and how the files of the answers end
ANSWERED = (
    ("replays", "places", [], "place"), ("whole", "whole", [], "place"), ("observed", "observed", [], "place"), ("large", "large", [], "place"),
    ("observed", "observed", ["--observed"], "observed-place"), ("condition", "condition", ["--observed"], "observed-place"),
    ("condition", "condition", ["--condition"], "condition-place"),
)


def placed(name, litmus, options, printed, costs=None):
    """What is placed, and that the checker accepts its certificate with the same set and cost; the certificate."""
    with tempfile.TemporaryDirectory() as folder:
        certificate = os.path.join(folder, "certificate")
        words = [*options, *(["--costs", costs] if costs else []), "--certificate", certificate]
        same(f"{name}: {' '.join(options)}", run(["place", *words, litmus]), (0, printed))
        if not os.path.exists(certificate):
            return b""
        same(f"the certificate of {name}", run([litmus, certificate, *([costs] if costs else [])], program=FENCECHECK), accepting(printed))
        return bytes_of(certificate)


def trees_compared(name, litmus, certificate):
    """On each sketch that the solver's trees in a certificate go through, a cycle is found exactly where a plain search of its edges finds one."""
    source = bytes_of(litmus)
    test = test_of(source)
    fields = dict(line.partition(" ")[::2] for line in certificate.decode().splitlines())
    for tree, mode, unions in (("tree", "sequential", "s"), ("fenced", fields["set"].replace(" ", ",") or "-", "lg")):
        def call(script):
            return called(f"sketch {mode} {script}", source).decode()

        fault = None
        try:
            candidates.compare_tree(call, test.code, len(test.memory), fields[tree], unions)
        except candidates.Refused as refused:
            fault = refused
        tell(f"the cycles on the way through the {tree} of the certificate of {name}", fault is None, fault)


def worked_examples():
    """The placements of `placed.tsv`: the name, the litmus file, the options, the cost file or None, the gaps that are fenced, and the answer line."""
    for name, file, costs, options, gaps, line in lines("placed.tsv"):
        yield name, in_data(file), options.split(), in_data(costs) if costs else None, gaps, line.encode() + b"\n"


class Placing(Cases):
    def test_worked(self):
        """The worked examples with 1, 2, 8 and 32 workers, from standard input too, and the sketches of their trees."""
        for name, litmus, options, costs, gaps, line in worked_examples():
            text = line + fenced_text(litmus, gaps)
            shown = [placed(name, litmus, [*options, *workers], text, costs) for workers in WORKERS]
            words = ["place", *options, *(["--costs", costs] if costs else []), "-"]
            same(f"{name}, from standard input", run(words, bytes_of(litmus)), (0, text))
            if shown[0]:
                trees_compared(name, litmus, certificate_of(litmus, [*options, "--trees", "whole"], costs))

    def test_cut_certificates(self):
        """Each proper prefix of the certificate of a worked example has ended; of a long one every other."""
        cut = []
        for name, litmus, options, costs, _, _ in worked_examples():
            shown = certificate_of(litmus, options, costs)
            lengths = range(0, len(shown), 2 if len(shown) > LONG else 1)
            cut.extend((name, litmus, shown[:length]) for length in lengths)
        with tempfile.TemporaryDirectory() as folder, ThreadPoolExecutor() as pool:
            def judged(it):
                number, (_, litmus, shown) = it
                file = os.path.join(folder, str(number))
                write(file, shown)
                return run([litmus, file], program=FENCECHECK)

            for (name, _, shown), answer in zip(cut, pool.map(judged, enumerate(cut))):
                same(f"{len(shown)} bytes of the certificate of {name}", answer, (1, b"refused certificate 6 Ended\n"))

    def test_again(self):
        """One answer each time, whatever the threads do first; two store bufferings have the most nodes."""
        for name, file, costs, gaps, line in (
            ("n6", "../../examples/n6.litmus", None, "0", "answer cost 1 set 0:1"),
            ("n6 with a dear gap", "../../examples/n6.litmus", "litmus/n6.costs", "1", "answer cost 1 set 0:2"),
            ("two store bufferings", "litmus/two-store-bufferings.litmus", None, "0 1 2 3", "answer cost 4 set 0:1 1:1 2:1 3:1"),
        ):
            litmus = in_data(file)
            text, costs = line.encode() + b"\n" + fenced_text(litmus, gaps), costs and in_data(costs)
            for _ in range(100):
                placed(f"{name} once more", litmus, ["--workers", "8"], text, costs)

    def test_independent(self):
        """What is placed in programs of every kind, as an independent program prints it: plainly, with costs, and as far as a test names outcomes."""
        for sources, folder, options, kind in ANSWERED:
            for case in sorted(without_end(file, "." + kind) for file in os.listdir(in_data(folder)) if file.endswith("." + kind)):
                named = in_data(folder, case)
                for litmus in sources_of(sources, case):
                    placed(f"{kind} of {litmus}", litmus, options, bytes_of(f"{named}.{kind}"))
                if kind == "place" and os.path.exists(named + ".costs"):
                    litmus = in_data(sources, case + ".litmus")
                    placed(f"{kind} of {litmus} with costs", litmus, options, bytes_of(named + ".place-costs"), named + ".costs")

    def test_limits(self):
        """A program with as many accesses as one may have, and one with as many gaps: the answer, and the set in the certificate."""
        for name, gaps, line in (
            ("thirty-two-loads", "", "answer cost 0 set"),
            ("thirty-two-stores", "", "answer cost 0 set"),
            ("most-gaps", "126 127", "answer cost 2 set 2:1 3:1"),
        ):
            litmus = in_data("litmus", name + ".litmus")
            shown = placed(name, litmus, [], line.encode() + b"\n" + fenced_text(litmus, gaps))
            same(f"the set of the certificate of {name}", shown.split(b"\n")[1:2], [f"set {gaps}".strip().encode()])

    def test_versions(self):
        """The version of a certificate where a rule of its trees is asked for, of a small program and of a large one."""
        for name, source in (("store buffering", example("SB.litmus")), ("many reads", reads(5, 5).encode())):
            with tempfile.TemporaryDirectory() as folder:
                litmus = os.path.join(folder, "litmus")
                write(litmus, source)
                for options, version in VERSIONS:
                    first = certificate_of(litmus, options).split(b"\n")[0]
                    same(f"the version of a certificate of {name} by {' '.join(options)}", first, b"FENCECERT %d" % version)

    def test_certificate_files(self):
        """Certificate files that can't be written, that are replaced, and of the name -."""
        source, right, unwritten = example("SB.litmus"), (0, bytes_of(in_data("canonical", "SB.placed"))), (1, b"refused file 2 Write\n")
        with tempfile.TemporaryDirectory() as folder:
            write(os.path.join(folder, "cert"), b"old" * 1_000)
            for name, file, wanted in (
                ("a certificate file that is a folder", folder, unwritten),
                ("a certificate file on a full device", "/dev/full", unwritten),
                ("a certificate file in a folder that is not there", "none/cert", unwritten),
                ("a certificate file that is replaced", "cert", right),
                ("a certificate file of the name -", "-", right),
            ):
                same(name, run(["place", "--certificate", file, "-"], source, cwd=folder), wanted)
            judge("the certificate that replaced it", source, bytes_of(os.path.join(folder, "cert")), "accepted cost 2 set 0:1 1:1")
            tell("a certificate file of the name - is written", os.path.exists(os.path.join(folder, "-")))

    def test_first_faults(self):
        """What is read first and judged first, and that no certificate is made where nothing is placed."""
        source, right = example("SB.litmus"), (0, bytes_of(in_data("canonical", "SB.placed")))
        unread, too_long = (1, b"refused file 1 Read\n"), (1, b"refused file 3 TooLong\n")
        with tempfile.TemporaryDirectory() as folder:
            for name, costs, given, wanted in (
                ("costs that are damaged", b"0:1 1\n0:1 five\n", source, (1, b"refused costs 1 Line line 2\n")),
                ("a cost that is nothing", b"0:1 0\n", source, (1, b"refused costs 4 Cost line 1 Zero 0\n")),
                ("a cost file that is not there", None, source, unread),
                ("a litmus text that is damaged, before the costs", b"-", b"X87\n", (1, b"refused litmus 2 Header line 1\n")),
                ("a cost file that is not there, before the text is judged", None, b"X87\n", unread),
                ("a cost file of the longest size", b" " * LIMIT, source, right),
                ("one byte more of it", b" " * (LIMIT + 1), source, too_long),
            ):
                if costs is not None:
                    write(os.path.join(folder, "costs"), costs)
                words = ["--costs", "none" if costs is None else "costs", *(["--certificate", "new"] if wanted[0] else [])]
                same(name, run(["place", *words, "-"], given, cwd=folder), wanted)
            tell("no certificate file is made where nothing is placed", not os.path.exists(os.path.join(folder, "new")))
