"""Commands: whole command lines, options, what `clap` says of bad ones, and what holds of every example.

In `commands.tsv` `@place`, `@outcomes` and `@witness` stand for what the command prints without the option that it tries, `@program` for the program
that `place` prints, `@source` for the litmus file, `@certificate` for a certificate that `fencecheck` accepts, `@clash` and `@error` for an error of the
command line.
"""
import os
import shutil
import subprocess
import tempfile

from harness import (
    EXAMPLES, FENCECHECK, FENCER, PROGRAMS, Cases, bytes_of, example_files, expect, in_data, lines, printed, run, same, schemas, tell, write,
)
from judges import traces
from judges.texts import canonical_of, instruction_lines

CLASH = "error: a file that is written must not be one that is read, nor be written twice"
TRIED = ("--check", "--output", "--insert", "--certificate", "--workers")
# bad command lines: a name, the arguments, standard input, and how the text of the error begins
FAULTS = (
    ("an unknown command", ["search", "-"], b"", b"error: unrecognized subcommand 'search'\n"),
    ("an unknown model", ["replay", "--model", "other", "-"], b"", b"error: invalid value 'other' for '--model <MODEL>'\n"),
    ("no litmus file", ["replay"], b"", b"error: the following required arguments were not provided:\n  <LITMUS>\n"),
    ("an unknown option", ["replay", "--fast"], b"", b"error: unexpected argument '--fast' found\n"),
    ("an option of another command", ["replay", "--observed", "-"], b"", b"error: unexpected argument '--observed' found\n"),
    ("one option twice", ["outcomes", "--observed", "--observed", "-"], b"", b"error: the argument '--observed' cannot be used multiple times\n"),
    ("a value of an option that has none", ["outcomes", "--observed=x", "-"], b"", b"error: unexpected value 'x' for '--observed' found; no more were expected\n"),
    ("labels of outcomes", ["outcomes", "-", "e0"], b"", b"error: unexpected argument 'e0' found\n"),
    ("no litmus file of outcomes", ["outcomes"], b"", b"error: the following required arguments were not provided:\n  <LITMUS>\n"),
    ("two comparisons of outcomes", ["place", "--observed", "--condition", "-"], b"", b"error: --observed and --condition cannot both be given\n"),
    ("two comparisons of outcomes by why", ["why", "--condition", "--observed", "-"], b"", b"error: --observed and --condition cannot both be given\n"),
    ("a condition of outcomes", ["outcomes", "--condition", "-"], b"", b"error: unexpected argument '--condition' found\n"),
    ("runs of reasons", ["why", "--runs", "-"], b"", b"error: unexpected argument '--runs' found\n"),
    ("an unknown command in the first line", [], b"search -\n", b"error: unrecognized subcommand 'search'\n"),
    ("no litmus file to place", ["place"], b"", b"error: the following required arguments were not provided:\n  <LITMUS>\n"),
    ("no workers", ["place", "--workers", "0", "-"], b"", b"error: invalid value '0' for '--workers <"),
    ("more than 32 workers", ["place", "--workers", "33", "-"], b"", b"error: invalid value '33' for '--workers <"),
    ("no workers of outcomes", ["outcomes", "--workers", "0", "-"], b"", b"error: invalid value '0' for '--workers <"),
    ("more than 32 workers of outcomes", ["outcomes", "--workers", "33", "-"], b"", b"error: invalid value '33' for '--workers <"),
    ("workers that are no number", ["place", "--workers", "two", "-"], b"", b"error: invalid value 'two' for '--workers <"),
    ("costs twice", ["place", "--costs", "a", "--costs", "b", "-"], b"", b"error: the argument '--costs <"),
    ("a certificate without its file", ["place", "-", "--certificate"], b"", b"error: a value is required for '--certificate <"),
    ("a model of a placement", ["place", "--model", "buffered", "-"], b"", b"error: unexpected argument '--model' found\n"),
    ("two litmus files", ["place", "-", "-"], b"", b"error: unexpected argument '-' found\n"),
    ("a call for the help of place", ["place", "--help"], b"", b""),
    ("no litmus file to trace", ["trace"], b"", b"error: the following required arguments were not provided:\n  <LITMUS>\n"),
    ("a certificate of why", ["why", "--certificate", "a", "-"], b"", b"error: unexpected argument '--certificate' found\n"),
    ("a model of why", ["why", "--model", "buffered", "-"], b"", b"error: unexpected argument '--model' found\n"),
    ("a call for the help of trace", ["trace", "--help"], b"", b""),
    ("a call for the help of why", ["why", "--help"], b"", b""),
    ("a call for help", ["--help"], b"", b""),
    ("a call for the help of replay", ["replay", "--help"], b"", b""),
    ("a call for the help of outcomes", ["outcomes", "--help"], b"", b""),
    ("a call for the help of witness", ["witness", "--help"], b"", b""),
    ("no litmus file of a witness", ["witness"], b"", b"error: the following required arguments were not provided:\n  <LITMUS>\n"),
    ("fences twice", ["witness", "--fences", "0:1", "--fences", "1:1", "-"], b"", b"error: the argument '--fences <"),
    ("fences of the sequential machine", ["witness", "--model", "sequential", "--fences", "0:1", "-"], b"", b"error: --fences and --model sequential cannot both be given: no fence matters there\n"),
    ("the input twice", ["survey", "-", "-"], b"", b"error: `-` cannot be given twice: standard input is read once\n"),
    ("the input twice among files", ["survey", "-", "SB.litmus", "-"], b"", b"error: `-` cannot be given twice: standard input is read once\n"),
    ("workers of a witness", ["witness", "--workers", "2", "-"], b"", b"error: unexpected argument '--workers' found\n"),
)
NO_FENCES = (
    "", ",", "0", "0:", ":1", "0:1,", ",0:1", "0:1,,1:1", "0:1:1", "00:1", "0:01", "+0:1", "0:-1", " 0:1", "0:1 ", "0:1, 1:1", "0:256", "256:1", "x:1",
    "0;1", "0:1,1:1,0:1",
)
FENCED = "witness", "outcomes"
BAD_FENCES = b"error: --fences takes gaps with commas between them, each once, as 0:1,1:1\n"


class Folder:
    """A folder with the files that the cases name, in which a program runs."""

    def __init__(self, path):
        self.path = path
        for file in ("SB.litmus", "n6.litmus", "n6-observed.litmus", "nothing.litmus"):
            shutil.copy(os.path.join(EXAMPLES, file), path)
        for file in ("labels.litmus", "SB.costs"):
            shutil.copy(in_data("commands", file), path)
        self.before = self.files()

    def files(self):
        return {file: bytes_of(os.path.join(self.path, file)) for file in sorted(os.listdir(self.path))}

    def run(self, program, words):
        ran = subprocess.run([PROGRAMS[program], *words], cwd=self.path, capture_output=True, timeout=120)
        schemas.hold(words, ran.stdout)
        return ran.returncode, ran.stdout

    def written(self):
        """The files that are new or changed."""
        return {file: text for file, text in self.files().items() if self.before.get(file) != text}


def without_options(words):
    """The arguments without options that must not change what is printed: those that write files or check, and the workers."""
    left, words = [], list(words)
    while words:
        word = words.pop(0)
        if word not in TRIED:
            left.append(word)
        elif word != "--check":
            words.pop(0)
    return left


def is_printed(folder, words, wanted, found):
    if wanted in ("@place", "@outcomes", "@witness"):
        return (0, found) == folder.run("fencer", without_options(words))
    if wanted == "@clash":
        return found.decode().startswith(CLASH)
    if wanted == "@error":
        return found.startswith(b"error: ")
    return found == wanted.replace("\\n", "\n").encode()


def is_written(folder, words, wanted, text):
    if wanted == "@program":
        return text == folder.run("fencer", without_options(words))[1].split(b"\n", 1)[1]
    if wanted == "@source":
        return text == folder.before[words[-1]]
    if not wanted.startswith("@"):
        return text == wanted.replace("\\n", "\n").encode()
    with tempfile.NamedTemporaryFile() as file:
        file.write(text)
        file.flush()
        return folder.run("fencecheck", [words[-1], file.name])[0] == 0


def list_of(text, instructions, costs=None):
    """The list of the gaps: where each lies, the line of its instruction, the instruction, and its cost."""
    printed, gap = [], 0
    for t, (numbers, codes) in enumerate(zip(instruction_lines(text), instructions)):
        for k in range(1, len(numbers)):
            printed.append(f"{t}:{k} line {numbers[k]} {codes[k]}" + (f" cost {costs[gap]}" if costs else "") + "\n")
            gap += 1
    return "".join(printed).encode()


def example_gaps(litmus):
    """The list of an example's gaps, and its cost file, with which `place` answers what it does without."""
    text, instructions = bytes_of(litmus).decode(), traces.instructions(canonical_of(bytes_of(litmus)))
    wanted = list_of(text, instructions)
    same(f"gaps of {litmus}", run(["gaps", litmus]), (0, wanted))
    status, costs = run(["gaps", "--template", litmus])
    same(f"cost file of {litmus}", (status, costs), (0, b"".join(line.split(b" ")[0] + b" 1\n" for line in wanted.splitlines())))
    with tempfile.TemporaryDirectory() as path:
        file, fenced = os.path.join(path, "costs"), os.path.join(path, "fenced.litmus")
        dear = b"".join(b"%s %d\n" % (line.split(b" ")[0], 2 + index) for index, line in enumerate(costs.splitlines()))
        write(file, dear)
        same(f"cost file of {litmus} with costs", run(["gaps", "--template", "--costs", file, litmus]), (0, dear))
        wanted = list_of(text, instructions, [2 + index for index in range(len(costs.splitlines()))])
        same(f"gaps of {litmus} with costs", run(["gaps", "--costs", file, litmus]), (0, wanted))
        status, answer = run(["place", "--output", fenced, litmus])
        same(f"output of {litmus}", (status, bytes_of(fenced)), (0, answer.split(b"\n", 1)[1]))
        again = run(["place", "--check", fenced])
        tell(f"{litmus} fenced needs no fence", again[0] == 0 and again[1].startswith(b"answer cost 0 set\n"), again, "answer cost 0 set")


class Commands(Cases):
    def test_whole(self):
        """Command lines of `cases.tsv`, from a file, from standard input, and in the first line of it."""
        for name, litmus, words, status, text in lines("cases.tsv"):
            path = in_data(litmus)
            named = [path if word == "{}" else word for word in words.split()]
            expect(name, named, int(status), printed(text))
            if os.path.exists(path):
                given = bytes_of(path)
                piped = ["-" if word == "{}" else word for word in words.split()]
                expect(name + ", from standard input", piped, int(status), printed(text), given)
                expect(name + ", with no words", [], int(status), printed(text), " ".join(piped).encode() + b"\n" + given)

    def test_options(self):
        """Commands and options of `commands.tsv`, each in a folder of its own, and the files that they write."""
        for name, program, arguments, status, text, *wanted in lines("commands.tsv"):
            words = arguments.split()
            with tempfile.TemporaryDirectory() as path:
                folder = Folder(path)
                found, answer = folder.run(program, words)
                written = folder.written()
                tell(name, found == int(status) and is_printed(folder, words, text, answer), f"{found} {answer!r}", f"{status} {text!r}")
                files = dict(it.split("=", 1) for it in wanted)
                same(f"{name}: the files", sorted(written), sorted(files))
                for file in files.keys() & written.keys():
                    tell(f"{name}: {file}", is_written(folder, words, files[file], written[file]), written[file], files[file])

    def test_examples(self):
        """The gaps of each example, its cost file, and that its fenced program needs no more fences."""
        for litmus in example_files():
            example_gaps(litmus)

    def test_faults(self):
        """Bad command lines: what `clap` says of them begins so, and ends with one line feed."""
        fences = [(f"fences of {command} at {text!r}", [command, "--fences", text, "-"], b"", BAD_FENCES) for command in FENCED for text in NO_FENCES]
        for name, words, given, front in [*FAULTS, *fences, ("no first line", [], b"", b"")]:
            status, text = run(words, given)
            one_end = text.endswith(b"\n") and not text.endswith(b"\n\n")
            usage = b"Usage: " in text or front.startswith((b"error: invalid value", b"error: a value is required"))
            right = status == 2 and text.startswith(front) and one_end and usage
            tell(name, right, f"status {status}, {text!r}", f"status 2, and a text that begins with {front!r}")
        for command in FENCED:
            same(f"the usage of {command} with fences that are no gaps", b"\nUsage: fencer %b [OPTIONS] <LITMUS>\n" % command.encode() in run([command, "--fences", "0.1", "-"], b"")[1], True)

    def test_bytes(self):
        """Words that are not UTF-8."""
        no_text = b"error: the command line is not UTF-8\n"
        expect("a first line that is not UTF-8", [], 2, no_text, b"replay \xff\n")
        for program in (FENCER, FENCECHECK):
            expect(f"words that are not UTF-8: {program}", [b"replay", b"\xff"], 2, no_text, program=program)
