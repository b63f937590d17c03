"""Surveys: what `fencer survey` says of each file, by an independent search of the states of the machines."""
import json
import os
import random
import re
import subprocess
import tempfile
import threading

from cases.messages import NOTES
from cases.progress import MINUTES, WARNED, easy, made, read_program, reads
from harness import EXAMPLES, FENCER, Cases, bytes_of, example_files, in_data, run, said_by, same, tell, write
from judges import documents, surveys
from judges.texts import canonical_of, instruction_lines, test_of

# a lock after Dekker whose second thread looks at its own flag in place of the other's, so that it never enters
OWN_FLAG = b"""X86 Own-flag
{ }
P0          | P1          ;
MOV [f0],$1 | MOV [f1],$1 ;
MOV EAX,[f1] | MOV EAX,[f1] ;
CMP EAX,$0  | CMP EAX,$0  ;
JNE out0    | JNE out1    ;
MOV ECX,[c] | MOV ECX,[c] ;
MOV [c],$1  | MOV [c],$2  ;
MOV EDX,[c] | MOV EDX,[c] ;
out0: MOV [f0],$0 | out1: MOV [f1],$0 ;
~exists (0:EDX=2 \\/ 1:EDX=1)
"""
# a back-off that is never taken, since nobody writes the location that it waits for
BACK_OFF = b"""X86 Back-off
{ }
P0           | P1           ;
MOV [x],$1   | MOV [y],$1   ;
MOV EBX,[b]  | MOV EAX,[x]  ;
CMP EBX,$1   |              ;
JNE on       |              ;
MOV [x],$2   |              ;
MOV [x],$1   |              ;
on: MOV EAX,[y] |           ;
~exists (0:EAX=0 /\\ 1:EAX=0)
"""
# an instruction that is jumped over, at the end of its thread
JUMPED = b"""X86 Jumped
{ }
P0         | P1          ;
JMP end    | MOV EAX,[x] ;
MOV [x],$1 |             ;
end:       |             ;
exists (1:EAX=0)
"""
ONE_INSTRUCTION = b"X86 One\n{ }\nP0 ;\nMOV [x],$1 ;\nforall (x=1)\n"
FAILS = b"X86 Fails\n{ }\nP0 ;\nMOV [x],$1 ;\n~exists (x=1)\n"
IDLE = b"X86 Idle\n{ }\nP0 ;\nMOV [x],$1 ;\n~exists (cs=3)\n"
TEXTS = (("own-flag", OWN_FLAG), ("back-off", BACK_OFF), ("jumped", JUMPED), ("one", ONE_INSTRUCTION), ("fails", FAILS))
# jumped over here and there: two stretches of a thread, a whole thread, and a condition that more runs could not change
STRETCHES = b"""X86 Stretches
{ }
P0          | P1          | P2          ;
JMP a       | JMP b       | MOV EAX,[x] ;
MOV [x],$1  | MOV [x],$3  | CMP EAX,$9  ;
a: JMP c    |             | JNE d       ;
MOV [y],$1  |             |             ;

MOV [y],$2  |             |             ;
MOV [y],$3  |             | MOV [z],$1  ;
c:          | b:          | d:          ;
exists (2:EAX=0)
"""
WORDS = (
    ("own-flag", OWN_FLAG, "lines 8 to 10 of P1 (its instructions 4 to 6): the condition may hold for that reason alone"),
    ("back-off", BACK_OFF, "lines 8 and 9 of P0 (its instructions 4 and 5): the condition may hold for that reason alone"),
    ("one-jump", JUMPED, "line 5 of P0 (its instruction 1)"),
    ("never", JUMPED.replace(b"1:EAX=0", b"1:EAX=1"), "line 5 of P0 (its instruction 1): the condition may fail for that reason alone"),
    ("stretches", STRETCHES, "line 5 of P0 (its instruction 1), lines 7 to 10 of P0 (its instructions 3 to 5), line 5 of P1 (its instruction 1) and line 10 of P2 (its instruction 3)"),
    ("one", ONE_INSTRUCTION, ""),
)
REFUSED = (
    ("no-litmus", b"X87 A\n", "refused litmus 2 Header line 1"),
    ("arithmetic", b"X86 A\n{ }\nP0 ;\nINC EAX ;\nexists (true)\n", "refused litmus 5 Instruction line 4"),
    ("empty", b"", "refused litmus 10 Ended line 1"),
)


# how long a file took, and this or how large its program is, as it is said of each file
MILLIS = re.compile(r"\b\d{1,3}(,\d{3})* ms$")
EXTENT = re.compile(r"fencer: .*: (combinations of traces: [\d,]+( or more)?|\d{1,3}(,\d{3})* ms)")
# seven threads that each store, in line 7, and load what the next one stores, in line 8, with an instruction that no sequential run executes
RING = in_data("litmus", "ring-of-seven.litmus")
RING_GAPS = [f"{t}:2" for t in range(7)]
RING_FENCES = [f"fence {gap} line 8, before MOV EAX,[{location}]" for gap, location in zip(RING_GAPS, "bcdefga")]
RING_LINES = [
    "sequential condition holds", "buffered condition fails", "unexecuted 6:5 line 11 MOV [g],$2",
    " ".join(["answer condition cost 7 set", *RING_GAPS]), *RING_FENCES, " ".join(["answer cost 7 set", *RING_GAPS]), *RING_FENCES,
]
RANDOM_PROGRAMS = 300
SEED = 71

HEADING = b"table sequential buffered unexecuted condition answer file\n"


def interleaved(threads, stores):
    """So many threads with so many stores each, where the first one jumps over one more at its end: (stores + 1) ** (threads - 1) * (stores + 2) states."""
    rows = [" | ".join(f"MOV [a{t}],${k}" for t in range(threads)) for k in range(1, stores + 1)]
    more = " |" * (threads - 1)
    names = " | ".join(f"P{t}" for t in range(threads))
    return f"X86 Interleaved\n{{ }}\n{names} ;\n{''.join(row + ' ;' + chr(10) for row in rows)}JMP end{more} ;\nMOV [z],$1{more} ;\nend:{more} ;\n~exists (z=1)\n".encode()


# 19,208 states, and 54,432, which are more than a placement goes through
MANY_STATES = (
    ("nineteen-thousand", interleaved(5, 6), "line 11 of P0 (its instruction 7): the condition may hold for that reason alone"),
    ("fifty-four-thousand", interleaved(6, 5), ""),
)


def block_of(name, source, allowed=False):
    """The block of a file, its row and its status, as they must be."""
    lines, row, status = surveys.block(test_of(source), canonical_of(source), instruction_lines(source.decode()), allowed)
    return "".join(line + "\n" for line in [f"file {name}", *lines]).encode(), f"row {row} {name}\n".encode(), status


def survey_of(blocks):
    """The status of several files, which is the worst of them, and what is printed of them."""
    statuses = [status for _, _, status in blocks]
    table = [HEADING, *(row for _, row, _ in blocks)] if len(blocks) > 1 else []
    return 1 if 1 in statuses else max(statuses), b"".join([*(block for block, _, _ in blocks), *table])


class Surveys(Cases):
    def test_examples(self):
        """Each example and each program of the atlas alone, and all of them in one call, as lines and as documents."""
        blocks, files = [], [(file, bytes_of(file), None) for file in example_files()]
        for file, source, refused in files:
            blocks.append(block_of(file, source))
            same(f"survey of {file}", run(["survey", file]), survey_of(blocks[-1:]))
            self.documented([(file, source, refused)])
        same("survey of all examples", run(["survey", *example_files()]), survey_of(blocks))
        self.documented(files)

    def test_programs(self):
        """Locks with an instruction that no sequential run executes, and other small programs; from the input too, and with workers."""
        for name, source in TEXTS:
            wanted = survey_of([block_of("-", source)])
            for words in (["survey", "-"], ["survey", "--workers", "2", "-"]):
                same(f"{' '.join(words)} of {name}", run(words, source), wanted)

    def test_random(self):
        """Random programs with moves, compares and jumps: which instructions no sequential run executes, by all states of these runs."""
        draw, dead = random.Random(SEED), 0
        for number in range(RANDOM_PROGRAMS):
            source = surveys.random_program(draw)
            test = test_of(source)
            executed = surveys.executed_instructions(test)
            wanted = [f"{t}:{k}" for t, code in enumerate(test.code) for k in range(len(code)) if (t, k) not in executed]
            printed = run(["survey", "-"], source)[1].decode()
            found = [line.split()[1] for line in printed.splitlines() if line.startswith("unexecuted ")]
            tell(f"what is unexecuted in random program {number}", found == wanted, f"{found}\n  {source!r}", wanted)
            dead += bool(wanted)
        tell("many random programs have an instruction that no sequential run executes", dead > RANDOM_PROGRAMS / 4, dead)

    def test_long_walk(self):
        """Seven threads with an instruction that no sequential run executes, most of whose steps read and write no location."""
        same("survey of a ring of seven", run(["survey", RING]), (3, "".join(line + "\n" for line in [f"file {RING}", *RING_LINES]).encode()))

    def test_allowed(self):
        """Programs where an instruction that no sequential run executes is allowed: the status alone is another."""
        for name, source in TEXTS:
            same(f"survey --allow-unexecuted of {name}", run(["survey", "--allow-unexecuted", "-"], source), survey_of([block_of("-", source, True)]))
        statuses = [block_of("-", source, True)[2] for _, source in TEXTS]
        tell("a condition that fails is not allowed", 3 in statuses and 0 in statuses, statuses)

    def test_refused(self):
        """Files that are refused among good ones: the others go on."""
        with tempfile.TemporaryDirectory() as folder:
            for name, source in [*TEXTS, *((name, source) for name, source, _ in REFUSED)]:
                write(os.path.join(folder, name), source)
            refused = {name: line for name, _, line in (*REFUSED, ("none", b"", "refused file 1 Read"))}
            blocks = {name: (f"file {name}\n{line}\n".encode(), f"row refused {name}\n".encode(), 1) for name, line in refused.items()}
            blocks.update({name: block_of(name, source) for name, source in TEXTS})
            for name in refused:
                for names in ([name], [name, "one"], ["one", name], ["own-flag", name, "one"], [name, name]):
                    same(f"survey of {' '.join(names)}", run(["survey", *names], cwd=folder), survey_of([blocks[it] for it in names]))

    def test_in_turn(self):
        """The block of a file is printed before the next file is read."""
        first = example_files()[0]
        blocks = [block_of(first, bytes_of(first)), block_of("-", ONE_INSTRUCTION)]
        with subprocess.Popen([FENCER, "survey", first, "-"], stdin=subprocess.PIPE, stdout=subprocess.PIPE, stderr=subprocess.DEVNULL) as ran:
            late = threading.Timer(60, ran.kill)
            late.start()
            begun = ran.stdout.read(len(blocks[0][0]))
            rest = ran.communicate(ONE_INSTRUCTION)[0]
            late.cancel()
        same("the first block, before the second file is read", begun, blocks[0][0])
        same("what is printed in all", (ran.returncode, begun + rest), survey_of(blocks))

    def test_statuses(self):
        """The status of several files, the worst of each."""
        with tempfile.TemporaryDirectory() as folder:
            for name, source in TEXTS:
                write(os.path.join(folder, name), source)
            for names, status in ((["one"], 0), (["one", "one"], 0), (["one", "fails"], 3), (["fails", "one"], 3), (["one", "jumped", "one"], 3), (["none", "fails"], 1), (["fails", "none"], 1)):
                same(f"status of a survey of {' '.join(names)}", run(["survey", *names], cwd=folder)[0], status)

    def documented(self, files):
        """The documents of files, by name and source, one line each, are held against what they must say; those that are refused give the reason of the line."""
        names = [name for name, _, _ in files]
        status, printed = run(["survey", "--json", *names])
        same(f"the status of the documents of {names}", status, run(["survey", *names])[0])
        found = printed.splitlines(keepends=True)
        same(f"how many documents {names} have", len(found), len(names))
        for (name, source, refused), document in zip(files, found):
            if refused:
                wrong = documents.refusal_differs(document, refused + "\n") or json.loads(document)["file"] != name
            else:
                wrong = surveys.document_differs(document, name, test_of(source), canonical_of(source), instruction_lines(source.decode()))
                notes = json.loads(run(["place", "--condition", "--json", name])[1]).get("notes", [])
                same(f"the notes of {name}", json.loads(document).get("notes", []), notes)
            tell(f"the document of {name}", not wrong, document)

    def test_documents(self):
        """The documents of programs that have instructions which no sequential run executes, among files that are refused."""
        with tempfile.TemporaryDirectory() as folder:
            files = []
            for name, source, refused in [*((name, source, None) for name, source, _ in WORDS), *((name, source, None) for name, source in TEXTS), *REFUSED]:
                file = os.path.join(folder, name)
                write(file, source)
                files += [(file, source, refused), (f"{file}.none", b"", "refused file 1 Read")]
            self.documented(files)

    def test_words(self):
        """Which instructions no sequential run executes is said on standard error in plain words, unless it is allowed."""
        with tempfile.TemporaryDirectory() as folder:
            for name, source, said in WORDS:
                file = os.path.join(folder, name)
                write(file, source)
                for options, wanted in (([], f"fencer: {file}: no sequential run executes {said}\n" if said else ""), (["--allow-unexecuted"], "")):
                    found = [line for line in said_by(["survey", *options, file]).splitlines(keepends=True) if "no sequential run executes" in line]
                    same(f"what a survey {' '.join(options)} of {name} says", "".join(found), wanted)

    def test_words_of_answers(self):
        """`place` and `why` say it too where the condition's truth is compared, and nothing where more states would have to be followed than they follow."""
        with tempfile.TemporaryDirectory() as folder:
            for name, source, said in (*WORDS, *MANY_STATES):
                file = os.path.join(folder, name)
                write(file, source)
                for words in ("place --condition", "place --condition --json", "why --condition", "place", "why --observed"):
                    wanted = f"fencer: {file}: no sequential run executes {said}\n" if said and "--condition" in words else ""
                    found = [line for line in said_by([*words.split(), file]).splitlines(keepends=True) if "no sequential run executes" in line]
                    same(f"what {words} of {name} says", "".join(found), wanted)

    def test_verdicts(self):
        """That no fence mends a condition is said on standard error, and nothing of one that no sequential run decides."""
        for name, source, said in (("fails", FAILS, "what must not happen (x=1) happens without store buffers too: no fence mends it"), ("one", ONE_INSTRUCTION, "")):
            with tempfile.NamedTemporaryFile() as file:
                write(file.name, source)
                found = [line for line in said_by(["survey", file.name]).splitlines(keepends=True) if "store buffers" in line]
                same(f"what a survey of {name} says of its condition", "".join(found), f"fencer: {file.name}: {said}\n" if said else "")

    def test_names(self):
        """A file's name with a LF and an ESC: it stands on standard output as it is given, and each line of standard error has `\\xHH` for these bytes."""
        with tempfile.TemporaryDirectory() as folder:
            name = os.fsencode(os.path.join(folder, "a\nb\x1bc"))
            shown = name.replace(b"\n", b"\\x0a").replace(b"\x1b", b"\\x1b")
            for kind, source, count in (("fails", FAILS, 3), ("jumped", JUMPED, 4), ("refused", b"X87 A\n", 1)):
                write(name, source)
                ran = subprocess.run([FENCER, "survey", name], capture_output=True)
                lines = ran.stderr.split(b"\n")
                same(f"how many lines about a file that {kind} name it", sum(shown in line for line in lines), count)
                tell(f"no line about a file that {kind} has a control byte", all(byte >= 32 for line in lines for byte in line), ran.stderr)
                tell(f"the block of a file that {kind} names it as it is given", ran.stdout.startswith(b"file " + name + b"\n"), ran.stdout)

    def test_ties(self):
        """With --ties the answers are those of `place` with the cost file of `gaps --ties --tries`, and all else is as without; standard error says where the
        gaps of each tie stand, and the document has the ties."""
        tied = 0
        with tempfile.TemporaryDirectory() as folder:
            costs = os.path.join(folder, "costs")
            for file in example_files():
                with open(costs, "wb") as out:
                    listed = subprocess.run([FENCER, "gaps", "--ties", "--tries", file], stdout=out, stderr=subprocess.PIPE).stderr.decode()
                ran = subprocess.run([FENCER, "survey", "--ties", file], capture_output=True)
                plain = run(["survey", file])
                wanted = {option: run(["place", *option, "--costs", costs, file])[1].splitlines()[0] for option in ((), ("--condition",))}
                found = ran.stdout.splitlines()
                same(f"the answers of survey --ties of {file}", [line for line in found if line.startswith(b"answer ")], [wanted[("--condition",)], wanted[()]])
                same(f"the fences of survey --ties of {file}", [line.split()[1] for line in found if line.startswith(b"fence ")],
                     [gap for option in (("--condition",), ()) for gap in wanted[option].partition(b" set")[2].split()])
                others = [[line for line in lines if not line.startswith((b"answer ", b"fence "))] for lines in (found, plain[1].splitlines())]
                same(f"what else survey --ties of {file} says", (ran.returncode, others[0]), (plain[0], others[1]))
                told = [line for line in ran.stderr.decode().splitlines(keepends=True) if " before line " in line]
                same(f"where the ties of {file} stand", "".join(told), listed)
                document = json.loads(run(["survey", "--ties", "--json", file])[1])
                ties = [line.split()[:-1] for line in bytes_of(costs).decode().splitlines() if len(line.split()) > 2]
                same(f"the ties in the document of {file}", document.get("ties", []), ties)
                tied += bool(ties)
        tell("some examples have ties", tied > 5, tied)

    def test_slips(self):
        """What may be a slip of a text is named on standard error, as `outcomes` names it; of a text without one nothing but its size and its time."""
        for name, source, words in (("one", dict(TEXTS)["one"], None), ("idle", IDLE, "the condition names cs, which no instruction reads or writes")):
            with tempfile.NamedTemporaryFile() as file:
                write(file.name, source)
                said = [said_by([command, file.name]) for command in ("survey", "outcomes")]
            others = [line for line in said[0].splitlines(keepends=True) if not line.startswith("fencer: ")]
            same(f"the slips that a survey of {name} names", "".join(others), said[1])
            tell(f"the slip of {name}", words is None or words in said[1], said)

    def test_notes(self):
        """A document has the notes of its text, of each kind, and standard error says them with the file's name."""
        text = bytes_of(os.path.join(EXAMPLES, "SB.litmus")).decode()
        for kinds, old, new, condition in NOTES:
            given = (text.replace(old, new) if old else text).replace("exists (0:EAX=0 /\\ 1:EAX=0)", condition).encode()
            ran = subprocess.run([FENCER, "survey", "--json", "-"], input=given, capture_output=True)
            found = [note["kind"] for note in json.loads(ran.stdout).get("notes", [])]
            same(f"the notes of a survey of {condition!r} with {new!r}", found, kinds.split())
            said = [line for line in ran.stderr.decode().splitlines() if not EXTENT.fullmatch(line) and "no sequential run executes" not in line]
            wanted = documents.noted(ran.stdout, "<stdin>", "fencer: <stdin>: ").decode()
            same(f"what standard error has of the notes of {condition!r} with {new!r}", sorted(said), sorted(wanted.splitlines()))

    def test_extent(self):
        """Standard error says first of each file how many combinations of traces its program has, and last how long it took, and names the file; of a file that
        is refused it says neither."""
        with tempfile.TemporaryDirectory() as folder:
            files = {name: os.path.join(folder, name) for name, _ in (*TEXTS, ("refused", b""))}
            for name, source in (*TEXTS, ("refused", b"X87 A\n")):
                write(files[name], source)
            for name, file in files.items():
                for options in ([], ["--json"], ["--allow-unexecuted"]):
                    said = [line for line in said_by(["survey", *options, file]).splitlines() if EXTENT.fullmatch(line)]
                    wanted = [] if name == "refused" else [f"fencer: {file}: combinations of traces: {read_program(file).combinations():,}", f"fencer: {file}: N ms"]
                    same(f"what a survey {' '.join(options)} of {name} says of its extent", [MILLIS.sub("N ms", line) for line in said], wanted)
            said = said_by(["survey", files["one"], files["refused"], files["fails"]]).splitlines()
            ends = [f"fencer: {files[name]}: {end}" for name in ("one", "fails") for end in ("combinations of traces: 1", "N ms")]
            same("what a survey of three files says first and last, and of the extent of each", [MILLIS.sub("N ms", line) for line in (said[0], *filter(EXTENT.fullmatch, said), said[-1])], [ends[0], *ends, ends[-1]])

    def test_warnings(self):
        """It is said once of a file, before its searches, that they may take minutes; and never that an answer may be wanting, since a survey asks for no
        whole trees."""
        with tempfile.TemporaryDirectory() as folder:
            for name, text, warned in (("minutes", easy(*WARNED[0]), [MINUTES.format(*WARNED[0])]), ("many", reads(14, 14), [])):
                path = made(folder, text)
                said = said_by(["survey", path]).splitlines()
                count = read_program(path).combinations()
                same(f"what a survey of {name} says before it ends", [line for line in said[:-1] if "store buffers" not in line], [f"fencer: {path}: combinations of traces: {count:,}", *warned])
