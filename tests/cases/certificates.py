"""Certificates: what `fencecheck` says of them, whole, changed and cut short, of cost files, and of how they are given."""
import os
import re
import resource
import subprocess
import tempfile

from harness import FENCECHECK, LIMIT, Cases, answer_of, bytes_of, example, expect, expect_call, in_data, judge, lines, run, same, tell, text_of, write

MOST_GAPS = 128
FOLDERS = ("certificates", "observed")
ACCEPTED = (0, b"accepted cost 2 set 0:1 1:1\n")
ENDED = (1, b"refused certificate 6 Ended\n")
TOO_LONG = (1, b"refused file 3 TooLong\n")
THREE_GAPS = b"X86 fences\n{ }\nP0 | P1 ;\nMFENCE | MFENCE ;\nMFENCE | MFENCE ;\nMFENCE | ;\nexists (true)\n"


def two_seconds():
    """A call may take 2 seconds of a processor."""
    resource.setrlimit(resource.RLIMIT_CPU, (2, 2))


def little():
    """A call may take 2 seconds of a processor, and 256 MiB."""
    two_seconds()
    resource.setrlimit(resource.RLIMIT_AS, (256 << 20, 256 << 20))


class Certificates(Cases):
    def test_independent(self):
        """Certificates and what an independent program says of them: as files, and after the litmus text on standard input."""
        for folder in FOLDERS:
            for litmus, certificate, costs, line in lines(folder, "cases.tsv"):
                status, text = answer_of(line)
                files = [in_data(folder, file) for file in (litmus, certificate, costs) if file != "-"]
                name = f"{litmus} {certificate}"
                expect(name, files, status, text, program=FENCECHECK)
                source, shown = bytes_of(files[0]), bytes_of(files[1])
                expect(name + ", the litmus text from standard input", ["-", *files[1:]], status, text, source, FENCECHECK)
                if costs == "-" and shown.startswith(b"FENCECERT "):
                    expect(name + ", with no words", [], status, text, source + shown, FENCECHECK)

    def test_changed(self):
        """Certificates with one part replaced by another."""
        for folder in FOLDERS:
            for test, spelled, other, line in lines(folder, "changes.tsv"):
                named = in_data(folder, test)
                shown, part = bytes_of(named + ".cert"), text_of(spelled)
                name = f"{os.path.basename(test)}.cert with {other} for {spelled}"
                same(f"{name}: the part stands once", shown.count(part), 1)
                judge(name, bytes_of(named + ".litmus"), shown.replace(part, text_of(other)), line)

    def test_cut(self):
        """Texts that stop before their certificate ends, within a word too."""
        for folder in FOLDERS:
            for spelled, line in lines(folder, "cut.tsv"):
                judge(f"the certificate {spelled}", example("nothing.litmus"), text_of(spelled), line)

    def test_copied(self):
        """Certificates that are read: their trees are copied, and the same text is written."""
        for folder in FOLDERS:
            for _, certificate, _, line in lines(folder, "cases.tsv"):
                if not line.startswith("refused certificate "):
                    text = bytes_of(in_data(folder, certificate))
                    expect_call("certificate", text, text)

    def test_prefixes(self):
        """Each proper prefix of a certificate has ended."""
        for test in ("SB", "nothing", "n6-observed"):
            litmus, shown = example(test + ".litmus"), example(test + ".cert")
            for length in range(len(shown)):
                judge(f"{length} bytes of {test}.cert", litmus, shown[:length], "refused certificate 6 Ended")

    def test_limits(self):
        """The certificate of nothing with a tree of the greatest depth and a run of the greatest length, and with one more."""
        litmus, shown = example("nothing.litmus"), example("nothing.cert").decode()
        for part, other, line in (
            ("gaps B", "gaps " + "P 0 1 " * 128 + "B", "refused check 8 GapTree /"),
            ("gaps B", "gaps " + "P 0 1 " * 129 + "B", "refused certificate 4 TooDeep 839"),
            ("tree K 0", "tree " + "V 0 1 " * 599 + "K 0", "refused check 4 SequentialTree /"),
            ("tree K 0", "tree " + "V 0 1 " * 600 + "K 0", "refused certificate 4 TooDeep 3638"),
            ("set\n", "set " + " ".join(map(str, range(MOST_GAPS))) + "\n", "refused check 1 Set"),
            ("set\n", "set 128\n", "refused certificate 3 Number 16"),
            ("run\n", "run" + " e0" * 1024 + "\n", "refused check 3 SequentialRun 0"),
            ("run\n", "run" + " e0" * 1025 + "\n", "refused certificate 5 TooMany 3105"),
        ):
            judge(f"a limit: {line}", litmus, shown.replace(part, other).encode(), line)

    def test_cut_gap_numbers(self):
        """A text that stops after some digits of a gap number: it has ended exactly where they can become a number past the one before."""
        litmus = example("nothing.litmus")
        for before in (None, 0, 5, 8, 9, 11, 12, 62, 63, 89, 98, 99, 109, 118, 119, 125, 126, 127):
            front = "FENCECERT 1\nset " + ("" if before is None else f"{before} ")
            least = 0 if before is None else before + 1
            for digits in (*map(str, range(141)), "199", "200", "999", "1000", "1270", "00", "01", "012", "0127"):
                can_go_on = any(str(gap).startswith(digits) for gap in range(least, MOST_GAPS))
                is_number = str(int(digits)) == digits and int(digits) < MOST_GAPS
                fault = "Ended" if can_go_on else f"{'Token' if is_number else 'Number'} {len(front)}"
                number = {"Token": 2, "Number": 3, "Ended": 6}[fault.split()[0]]
                judge(f"the certificate {front}{digits}", litmus, (front + digits).encode(), f"refused certificate {number} {fault}")

    def test_exchanged_words(self):
        """In store buffering's certificate each word replaced by each other of its words: refused, or accepted with the same set and cost."""
        source, words = example("SB.litmus"), re.split(rb"([ \n])", example("SB.cert"))
        tokens = sorted(set(words[::2]) - {b""})
        for place in range(0, len(words) - 1, 2):
            for token in tokens:
                if token != words[place]:
                    given = source + b"".join([*words[:place], token, *words[place + 1:]])
                    found = run([], given, FENCECHECK)
                    refused = found[0] == 1 and re.fullmatch(rb"refused [^\n]*\n", found[1])
                    tell(f"word {place // 2} of store buffering's certificate replaced by {token!r}", found == ACCEPTED or refused, found, f"{ACCEPTED}, or a refusal")

    def test_costs(self):
        """Cost texts of a program with the gaps 0:1, 0:2 and 1:1; what is read shows in the cost of the set of each gap alone."""
        for spelled, wanted in lines("costs.tsv"):
            is_read = not wanted.startswith("refused ")
            for gap, cost in enumerate(wanted.split() if is_read else ["1"]):
                shown = f"FENCECERT 1\nset {gap}\ncost {cost}\nseq 0\ntree K 0\nruns 0\nfenced K 0\ngaps B\n"
                line = "refused check 4 SequentialTree /" if is_read else wanted
                with tempfile.NamedTemporaryFile() as costs, tempfile.NamedTemporaryFile() as certificate:
                    for file, text in ((costs, text_of(spelled)), (certificate, shown.encode())):
                        file.write(text)
                        file.flush()
                    words = ["-", certificate.name, costs.name]
                    expect(f"the costs {spelled}, of gap {gap}", words, 1, line.encode() + b"\n", THREE_GAPS, FENCECHECK)

    def test_arguments(self):
        """Too few words and too many, and inputs and files that are not there."""
        for count in (1, 4):
            status, text = run(["-"] * count, program=FENCECHECK)
            lines_right = status == 2 and text.startswith(b"usage: fencecheck LITMUS CERTIFICATE [COSTS]\n") and text.count(b"\n") == 7
            tell(f"{count} words", lines_right, (status, text), "the usage, with status 2")
        source = example("SB.litmus")
        expect("no certificate", [], 1, ENDED[1], source, FENCECHECK)
        expect("no input", [], 1, b"refused litmus 10 Ended line 1\n", b"", FENCECHECK)
        for test, litmus in (("SB", source), ("no litmus text", b"X86 ")):
            missing = in_data("certificates", "not-there.cert")
            expect(f"{test}: a file that is not there", ["-", missing], 1, b"refused file 1 Read\n", litmus, FENCECHECK)

    def test_files(self):
        """What is judged first, and that only the litmus file's name `-` is standard input."""
        source, shown, blanks = example("SB.litmus"), example("SB.cert"), b" " * LIMIT
        dear = shown.replace(b"cost 2", b"cost 3")
        with tempfile.TemporaryDirectory() as folder:
            for name, wanted, given, files in (
                ("a certificate file of the name -", ACCEPTED, source, {"-": shown}),
                ("a cost file of the name -", ACCEPTED, source, {"cert": shown, "-": b"0:1 1\n"}),
                ("the litmus text before the certificate", (1, b"refused litmus 2 Header line 1\n"), b"X87\n", {"cert": b"", "costs": b"-"}),
                ("the certificate's text before the costs", ENDED, source, {"cert": shown[:-1], "costs": b"-"}),
                ("the costs before the certificate", (1, b"refused costs 1 Line line 1\n"), source, {"cert": dear, "costs": b"-"}),
                ("the certificate last", (1, b"refused check 2 Cost\n"), source, {"cert": dear, "costs": b""}),
                ("a gap that the program has not", (1, b"refused costs 2 NoSuchGap line 2\n"), source, {"cert": shown, "costs": b"\n0:2 1\n"}),
                ("a cost file of the longest size", ACCEPTED, source, {"cert": shown, "costs": blanks}),
                ("one byte more of it", TOO_LONG, source, {"cert": shown, "costs": blanks + b" "}),
            ):
                for file, text in files.items():
                    write(os.path.join(folder, file), text)
                same(name, run(["-", *files], given, FENCECHECK, cwd=folder), wanted)
            write(os.path.join(folder, "litmus"), source + b" " * (LIMIT + 1 - len(source)))
            same("one byte more of the litmus file", run(["litmus", "cert"], b"", FENCECHECK, cwd=folder), TOO_LONG)

    def test_one_input(self):
        """A litmus text and a certificate in one input: each has its own limit."""
        source, shown = example("SB.litmus"), example("SB.cert")
        longest = source + b" " * (LIMIT - len(source) - 1) + b"\n"
        same("the longest litmus text", len(longest), LIMIT)
        for name, given, wanted in (
            ("a litmus text of the longest size", longest + shown, ACCEPTED),
            ("one byte more of the litmus text", b" " + longest + shown, TOO_LONG),
            ("the longest litmus text and a certificate", longest + shown, ACCEPTED),
            ("one byte more and a certificate", longest[:-1] + b" \n" + shown, TOO_LONG),
            ("the longest litmus text and `FENCECERT `", longest + b"FENCECERT ", ENDED),
            ("the longest litmus text and less than that", longest + b"FENCECERT", TOO_LONG),
            ("the longest litmus text alone", longest, ENDED),
            ("one byte more alone", longest + b" ", TOO_LONG),
        ):
            expect(name, [], *wanted, given, FENCECHECK)

    def test_open_input(self):
        """Of an input without an end, or that stays open, no more is read than shows that its limit is passed."""
        source = example("SB.litmus")
        longest = source + b" " * (LIMIT - len(source) - 1) + b"\n"
        with open("/dev/zero", "rb") as zeros:
            ran = subprocess.run([FENCECHECK], stdin=zeros, capture_output=True, preexec_fn=little)
        same("an input without an end", (ran.returncode, ran.stdout), TOO_LONG)
        with subprocess.Popen([FENCECHECK], stdin=subprocess.PIPE, stdout=subprocess.PIPE, stderr=subprocess.DEVNULL) as asked:
            asked.stdin.write(longest + b"FENCECERT.")
            asked.stdin.flush()
            try:
                found = asked.wait(120), asked.stdout.read()
            except subprocess.TimeoutExpired:
                asked.kill()
                found = "still running after 120 seconds"
            same("an input that stays open past the limit", found, TOO_LONG)

    def test_repeated_runs(self):
        """Store buffering's certificate with its first run of each kind again and again: judged with 2 seconds of a processor."""
        shown = example("SB.cert").decode()
        for head, run_line in (("seq 3\n", "run e0 e0 e1 e1\n"), ("runs 3\n", "run e0 e1 e0 e1 f0 f1\n")):
            same(f"a run stands after {head!r}", shown.count(head + run_line), 1)
            shown = shown.replace(head, head.replace("3", "30003") + run_line * 30_000)
        # the trees name the sequential runs by their numbers, which the repeated ones come before
        for kind in ("tree", "fenced"):
            line = next(it for it in shown.split("\n") if it.startswith(kind + " "))
            shown = shown.replace(line, re.sub(r"\bK ([0-2])\b", lambda leaf: f"K {int(leaf[1]) + 30_000}", line))
        gaps = next(it for it in shown.split("\n") if it.startswith("gaps "))
        same("the gap tree of store buffering names three runs", gaps, "gaps P 0 2 P 1 1 B P 2 0")
        shown = shown.replace(gaps, "gaps P 30000 2 P 30001 1 B P 30002 0")
        same("60,000 repeated runs", run([], example("SB.litmus") + shown.encode(), FENCECHECK, preexec_fn=two_seconds), ACCEPTED)
