"""What a case reports: whether it passed, and of a failure what was expected, what came, and the commands that repeat it."""
import os
import re
import shlex
import shutil
import tempfile

from harness import programs
from harness.programs import FENCECHECK, FENCER, TEST_CALLS, TESTS, TOP

KEPT = os.path.join(TESTS, "out", "failed")
counts = {"passed": 0, "failed": 0}


class Reported:
    """Which cases are reported now: those of one group, with these parts in their names; all of them where no part is given. The names that came."""

    group, parts, names = "", (), set()


def begin(group, parts):
    """The cases that follow are those of a group, and of these the ones whose names have one of these parts."""
    Reported.group, Reported.parts, Reported.names = group, parts, set()


def short(name):
    """A case's name, with paths from the top of the repository."""
    return name.replace(TOP + os.sep, "")


def is_wanted(name):
    return not Reported.parts or any(part in short(name) for part in Reported.parts)


def tell(name, right, came="", expected="what the name says"):
    """Counts a case. Of one that fails it prints what was expected, what came, and how to repeat it."""
    call, programs.last.call = getattr(programs.last, "call", None), None
    if not is_wanted(name):
        return
    counts["passed" if right else "failed"] += 1
    name = short(name)
    Reported.names.add(name)
    if right:
        return
    print(f"failed: {name}\n  expected: {expected}\n  came:     {came}")
    print(f"  repeat:   tests/run --only {shlex.quote(f'{Reported.group}: {name}')}")
    if call:
        print(f"  the call: {command_of(call)}")


def same(name, came, expected):
    """A case in which this has to come."""
    tell(name, came == expected, repr(came), repr(expected))


def command_of(call):
    """The command line of a call, and of what it read: temporary files are kept beside its standard input, in tests/out."""
    kept = os.path.join(KEPT, f"{Reported.group}-{counts['failed']}")
    shutil.rmtree(kept, ignore_errors=True)
    os.makedirs(kept)
    temporary = tempfile.gettempdir() + os.sep

    def lasting(path):
        if not path.startswith(temporary):
            return path
        there = os.path.join(kept, os.path.basename(path))
        if os.path.isdir(path):
            shutil.copytree(path, there)
        elif os.path.isfile(path):
            shutil.copy(path, there)
        return there

    words = [os.fsdecode(word) for word in call.words]
    line = shlex.join([call.program, *map(lasting, words)])
    if call.folder:
        line = f"cd {shlex.quote(lasting(os.path.abspath(call.folder)))} && {line}"
    with open(os.path.join(kept, "standard-input"), "wb") as file:
        file.write(call.given)
    return f"{line} <{shlex.quote(file.name)}"


def expect(name, words, status, printed, given=b"", program=FENCER):
    """A call of a program that has to end with this status and print this."""
    if is_wanted(name):
        same(name, programs.run(words, given, program), (status, printed))


def called(call, text):
    """What one public call prints; a call that does not end with status 0 is a failure."""
    status, found = programs.run([], call.encode() + b"\n" + text, TEST_CALLS)
    if status != 0:
        tell(f"{call} {text[:80]!r}", False, f"status {status}, {found!r}", "status 0")
    return found


def expect_call(call, text, right, name=""):
    """What one public call answers; a refusal is an answer too."""
    expect(name or f"{call} {text[:80]!r}", [], 0, right, call.encode() + b"\n" + text, TEST_CALLS)


def answer_of(line):
    """The status and the text with which `fencecheck` prints a line."""
    return 0 if line.startswith("accepted ") else 1, line.encode() + b"\n"


def accepting(printed):
    """The status and the text with which `fencecheck` accepts the certificate of an answer that `fencer place` prints."""
    return 0, re.sub(rb"^answer ", b"accepted ", printed.split(b"\n")[0]) + b"\n"


def judge(name, litmus, shown, line):
    """What the checker says of a certificate: in a file, and on standard input after the litmus text."""
    status, text = answer_of(line)
    with tempfile.NamedTemporaryFile() as file:
        file.write(shown)
        file.flush()
        expect(name, ["-", file.name], status, text, litmus, FENCECHECK)
    if shown.startswith(b"FENCECERT "):
        expect(name + ", with no words", [], status, text, litmus + shown, FENCECHECK)
