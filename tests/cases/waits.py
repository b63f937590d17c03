"""Waits: how many functions of each crate take a handle for waiting, and so are not proved to end, as crates.txt counts them and docs/promises.md names the crates.

Functions are counted as the prover counts them: those with the bound `Wait`, which the signature or the block around it writes, and the `main` of a program
that has such functions. `rt verdict` refuses a crate whose line of crates.txt has another number; `rt ci` does not ask.
"""
import glob
import os
import re

from harness import TOP, Cases, bytes_of, same

# the head of a block, its end, or the signature of a function, up to its first brace
HEAD = re.compile(r"^(?:pub(?:\([^)]*\))? )?(?:impl|trait)\b[^{;]*|^\}|\bfn \w+[^{;]*", re.M)
WAIT = re.compile(r"\bWait\b")


def waiting_in(text):
    """The functions of a source that have the bound; `main` where it has a handle for all."""
    found, block = [], False
    for head in HEAD.findall(re.sub(r"//.*", "", text)):
        if not head.startswith("fn "):
            block = bool(WAIT.search(head))
        elif block or WAIT.search(head) or re.match(r"fn main\b.*\bHostRuntime\b", head, re.S):
            found.append(re.match(r"fn (\w+)", head)[1])
    return found


def waiting_of(crate):
    """How many functions of a crate have the bound. A `main` has it where what it calls has."""
    sources = glob.glob(os.path.join(TOP, "crates", crate, "src", "**", "*.rt"), recursive=True)
    found = [name for path in sources for name in waiting_in(bytes_of(path).decode())]
    return 0 if found == ["main"] else len(found)


def listed():
    """The crates of crates.txt, each with the number there; those of the tests apart."""
    parts = bytes_of(os.path.join(TOP, "crates.txt")).decode().partition("\n# tests\n")
    for text in parts[::2]:
        rows = [line.partition(":")[0].split() for line in text.splitlines() if not line.startswith("#")]
        yield {crate: int((re.findall(r"^may_wait=(\d+)$", " ".join(counts)) or ["0"])[0]) for crate, *counts in filter(None, rows)}


class Waits(Cases):
    needs_programs = False

    def test_counts(self):
        """crates.txt has the number of each crate."""
        for crates in listed():
            for crate, number in crates.items():
                same(f"how many functions of {crate} take a handle for waiting", number, waiting_of(crate))

    def test_promises(self):
        """docs/promises.md names the crates that have such functions, and no others."""
        page = bytes_of(os.path.join(TOP, "docs", "promises.md")).decode()
        named = page.partition("but for functions of ")[2].partition("that take a handle for waiting")[0]
        own, of_tests = ([crate for crate in crates if waiting_of(crate)] for crates in listed())
        same("docs/promises.md names the crates with functions that wait", re.findall(r"`(\w+)`", named), own + of_tests)
