"""The data of the cases: tables with a case in each line, and folders of litmus files with what is printed of them."""
import os
import re

from harness.programs import TESTS, TOP

DATA = os.path.join(TESTS, "data")
EXAMPLES = os.path.join(TOP, "examples")
MODELS = ("sequential", "buffered")


def in_data(*parts):
    """A file under tests/data; a table names it from its own folder."""
    return os.path.normpath(os.path.join(DATA, *parts))


def lines(*parts):
    """The cells of each line of a table under tests/data, but for the lines that begin with #."""
    with open(in_data(*parts), encoding="utf-8") as file:
        return [line.rstrip("\n").split("\t") for line in file if not line.startswith("#")]


def bytes_of(path):
    with open(path, "rb") as file:
        return file.read()


def write(path, text):
    """Writes bytes to a file."""
    with open(path, "wb") as file:
        file.write(text)


def example(name):
    return bytes_of(os.path.join(EXAMPLES, name))


def printed(text):
    """The lines that a cell of a table spells."""
    return text.replace("\\n", "\n").encode()


def text_of(spelled):
    """The bytes of a text on one line: \\n, \\t, \\r, \\xHH and \\\\ stand for bytes."""
    known = {"n": b"\n", "t": b"\t", "r": b"\r", "\\": b"\\"}
    parts = re.split(r"\\(x[0-9a-f]{2}|.)", spelled)
    marks = [known[it] if it in known else bytes.fromhex(it[1:]) for it in parts[1::2]]
    return b"".join(part.encode() + mark for part, mark in zip(parts[::2], [*marks, b""]))


def without_end(text, end):
    """A text without this end, where it has it."""
    return text[:len(text) - len(end)] if end and text.endswith(end) else text


def without_front(text, front):
    """A text without this front, where it has it."""
    return text[len(front):] if text.startswith(front) else text


def sources_of(folder, case):
    """The litmus file of a case, and the same test written in another way where there is one."""
    named = in_data(folder, case)
    other = [named + ".wild"] if os.path.exists(named + ".wild") else []
    return [named + ".litmus", *other]


def litmus_cases(folder):
    """The names of the litmus files of a folder under tests/data."""
    return sorted(without_end(file, ".litmus") for file in os.listdir(in_data(folder)) if file.endswith(".litmus"))


def example_files():
    """The litmus files of the examples and of the atlas."""
    folders = [EXAMPLES, os.path.join(EXAMPLES, "atlas")]
    return [os.path.join(folder, file) for folder in folders for file in sorted(os.listdir(folder)) if file.endswith(".litmus")]


def worked_files():
    """The litmus files of the worked examples."""
    return [in_data("outcomes", file) for (file,) in lines("outcomes", "worked.tsv")]


def outcomes_in(printed_text):
    """The lines of outcomes in what a program prints."""
    return b"".join(line for line in printed_text.splitlines(keepends=True) if line.startswith(b"outcome:"))
