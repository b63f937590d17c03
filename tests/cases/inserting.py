"""Inserting: the litmus text that `fencer place --insert` writes, which is the source with rows of MFENCE put in."""
import os
import re
import tempfile

from harness import Cases, bytes_of, called, example, example_files, in_data, litmus_cases, run, same, tell, write
from judges.texts import fenced_reading

FOLDER = "inserted"
ROW = re.compile(rb"[ \t|]*(MFENCE[ \t|]*)+;\r?\n")
SPLIT = re.compile(rb"MFENCE[ \t|]*;\r?\n")
BLANK = re.compile(rb"[ \t|]*")
UNWRITTEN = (1, b"refused file 2 Write\n")


def inserted(litmus, *options):
    """What is printed with `--insert`, and what its file holds; nothing where there is no file."""
    with tempfile.TemporaryDirectory() as folder:
        file = os.path.join(folder, "inserted")
        answer = run(["place", *options, "--insert", file, litmus])
        return answer, bytes_of(file) if os.path.exists(file) else b""


def without_rows(text, source):
    """The text without what is put in: whole lines that are rows of MFENCE alone, and the part from an MFENCE after labels to where the row goes on below.
    The source says which lines are its own."""
    kept, left = [], source.splitlines(keepends=True)
    lines = text.splitlines(keepends=True)
    while lines:
        line = lines.pop(0)
        while left and line != left[0] and not ROW.fullmatch(line):
            begin = next((at for at in range(len(line)) if left[0].startswith(line[:at]) and SPLIT.fullmatch(line[at:])), None)
            if begin is None or not lines:
                break
            below = lines.pop(0)
            line = line[:begin] + below[BLANK.match(below).end():]
        if left and line == left[0]:
            left.pop(0)
            kept.append(line)
        elif not ROW.fullmatch(line):
            kept.append(line)
    return b"".join(kept)


def judged(name, litmus, *options):
    """The file is the source with rows of MFENCE put in, and is read as the printed program, which needs no fence."""
    source, (status, printed) = bytes_of(litmus), run(["place", *options, litmus])
    answer, text = inserted(litmus, *options)
    same(f"{name}: what is printed beside it", answer, (status, printed))
    same(f"{name}: the source is left without its rows", without_rows(text, source), source)
    head, program = printed.split(b"\n", 1)
    gaps = head.split(b" set")[1].split()
    same(f"{name}: as many MFENCE more as gaps", text.count(b"MFENCE"), source.count(b"MFENCE") + len(gaps))
    with tempfile.TemporaryDirectory() as folder:
        file, other = os.path.join(folder, "text"), os.path.join(folder, "printed")
        write(file, text)
        write(other, program)
        same(f"{name}: it needs no fence", run(["place", *options, file]), (0, re.sub(rb"cost .*", b"cost 0 set", head) + b"\n" + program))
        same(f"{name}: it has the outcomes of what is printed", run(["outcomes", file]), run(["outcomes", other]))
    return text


class Inserting(Cases):
    def test_layouts(self):
        """Texts of one line, of several rows a line, with tabs and CR, with labels and comments anywhere: what is put in, byte for byte."""
        for name in litmus_cases(FOLDER):
            litmus = in_data(FOLDER, name + ".litmus")
            answer, text = inserted(litmus)
            same(f"{name}: the text", text, bytes_of(in_data(FOLDER, name + ".inserted")))
            same(f"{name}: what is printed", answer, run(["place", litmus]))
            with tempfile.TemporaryDirectory() as folder:
                file = os.path.join(folder, "text")
                write(file, text)
                program = answer[1].split(b"\n", 1)[1]
                same(f"{name}: it is the printed program", run(["place", file]), (0, b"answer cost 0 set\n" + program))

    def test_examples(self):
        """Each example and each text of the atlas, for all outcomes and for the condition."""
        for litmus in example_files():
            for options in ([], ["--condition"]):
                judged(" ".join([os.path.basename(litmus), *options]), litmus, *options)

    def test_limits(self):
        """A thread as long as one may be: with its fence it is read as a fenced program alone."""
        filler = b"MOV EBX,$1 | ;\n" * 62
        source = b"X86 longest\n{ }\nP0 | P1 ;\nMOV [x],$1 | MOV [y],$1 ;\nMOV EAX,[y] | MOV EAX,[x] ;\n" + filler + b"exists (0:EAX=0 /\\ 1:EAX=0)\n"
        with tempfile.TemporaryDirectory() as folder:
            litmus = os.path.join(folder, "longest.litmus")
            write(litmus, source)
            (status, printed), text = inserted(litmus)
            same("the longest thread: the answer", (status, printed.split(b"\n")[0]), (0, b"answer cost 2 set 0:1 1:1"))
            same("the longest thread: the text", text, source.replace(b"MOV EAX", b"MFENCE      | MFENCE      ;\nMOV EAX", 1))
            same("the longest thread, read again", called("read-fenced", text).decode(), fenced_reading(source, "0:1 1:1"))

    def test_files(self):
        """Files that can't be written, that are replaced, and of the name -; nothing else is written where this one can't be."""
        source, right = example("SB.litmus"), run(["place", "-"], example("SB.litmus"))
        with tempfile.TemporaryDirectory() as folder:
            write(os.path.join(folder, "text"), b"old" * 1_000)
            for name, file, wanted in (
                ("a file that is a folder", folder, UNWRITTEN), ("a file on a full device", "/dev/full", UNWRITTEN),
                ("a file in a folder that is not there", "none/text", UNWRITTEN), ("a file that is replaced", "text", right), ("a file of the name -", "-", right),
            ):
                words = ["place", "--insert", file, "--output", "output", "--certificate", "certificate", "-"]
                same(name, run(words, source, cwd=folder), wanted)
                for other in ("output", "certificate"):
                    path = os.path.join(folder, other)
                    same(f"{name}: whether {other} is written", os.path.exists(path), wanted == right)
                    if os.path.exists(path):
                        os.remove(path)
            tell("a file of the name - is written", bytes_of(os.path.join(folder, "-")) == bytes_of(os.path.join(folder, "text")))
            same("a refused text", run(["place", "--insert", "new", "-"], b"X86 x\n", cwd=folder)[0], 1)
            tell("nothing is written of it", not os.path.exists(os.path.join(folder, "new")))
