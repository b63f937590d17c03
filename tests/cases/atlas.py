"""The atlas: each row of the tables of docs/atlas.md, and its certificates in examples/atlas and examples/large."""
import os
import re
import tempfile

from harness import EXAMPLES, FENCECHECK, MODELS, TOP, Cases, bytes_of, expect, lines, outcomes_in, run, same, tell, write
from judges import machine
from judges.texts import test_of

FOLDER = os.path.join(EXAMPLES, "atlas")
LARGE = os.path.join(EXAMPLES, "large")
PAGE = os.path.join(TOP, "docs", "atlas.md")
CELL = r"(`cost \d+ set[ \d:]*`|-)"
ROW = re.compile(
    rf"^\| (\S+) \| (\d+) \| (\d+) \| (may happen|never) \| {CELL} \| {CELL} \| {CELL} \| [^|]* \| [^|]* "
    r"\| (\d+ \+ \d+ \+ \d+) \| (-|\d+ of \d+, \d+ of \d+) \|$", re.M)
RUN = re.compile(r"^\| (\S+) \| `((?:[ef]\d ?)+)` \|$", re.M)
LARGE_ROW = re.compile(rf"^\| (\S+) \| (\d+) \| (\d+) \| (\d+) \| (may happen|never) \| {CELL} \| {CELL} \| (\d+\.\d kB), (\d+\.\d kB) \|$", re.M)
TIED_ROW = re.compile(rf"^\| (\S+) \| ((?:\d, |\d; )+\d) \| (\d+) \| {CELL} \| {CELL} \|$", re.M)
LARGEST = 200_000
NODES = ("V", "S", "O", "C", "K", "P", "B")


def atlas_row(row):
    """One program of the atlas: its size, what its condition says in both machines, and the certificate of each answer. The names of its files."""
    name, accesses, gaps, without, *answers, nodes, seen = row
    named = os.path.join(FOLDER, name)
    same(f"the size of {name}", sizes_of(named + ".litmus")[1:], [accesses, gaps])
    condition_of(name, named + ".litmus", without)
    files = [name + ".litmus"]
    for answer, kind, words in zip(answers, ("", "-observed", "-costs"), ("", "observed ", "")):
        if answer != "-":
            costs = [named + ".costs"] if kind == "-costs" else []
            accepted = f"accepted {words}{answer.strip('`')}\n".encode()
            expect(f"{name}{kind}.cert", [named + ".litmus", f"{named}{kind}.cert", *costs], 0, accepted, program=FENCECHECK)
            files += [f"{name}{kind}.cert", *(name + ".costs" for _ in costs)]
    found = run(["place", "--condition", named + ".litmus"])[1].decode().split("\n")[0]
    same(f"the condition's fences of {name}", found, f"answer condition {answers[1].strip('`')}")
    same(f"the nodes of {name}", nodes_of(bytes_of(named + ".cert").decode()), nodes)
    seen_of(name, seen, named + ".litmus", answers[0])
    return files


def sizes_of(litmus):
    """How many threads, accesses and gaps a program has, as the page says it."""
    test = test_of(bytes_of(litmus))
    return [str(it) for it in (len(test.code), sum(it[0] in machine.ACCESSES for thread in test.code for it in thread), len(test.gaps()))]


def condition_of(name, litmus, without):
    """What the condition of a program says in both machines."""
    for model, holds in (("sequential", True), ("buffered", without == "never")):
        told = run(["outcomes", "--model", model, litmus])[1].splitlines()[-1:]
        same(f"the {model} condition of {name}", told, [b"condition holds" if holds else b"condition fails"])


def large_row(row, independent):
    """One large program: its size, what its condition says in both machines, both answers, which are those of an independent program, and their
    certificates. The names of its files."""
    name, threads, accesses, gaps, without, *cells = row
    named = os.path.join(LARGE, name)
    litmus = named + ".litmus"
    same(f"the size of {name}", sizes_of(litmus), [threads, accesses, gaps])
    condition_of(name, litmus, without)
    files = [name + ".litmus"]
    for answer, other, size, kind in zip(cells[:2], independent, cells[2:], ([], ["--condition"])):
        what = "".join(f" {it.strip('-')}" for it in kind)
        tell(f"the{what} answer for {name} is the independent one", other in ("-", answer.strip("`")), answer, other)
        found = run(["place", *kind, litmus])[1].decode().split("\n")[0]
        same(f"the{what} answer for {name}", found, f"answer{what} {answer.strip('`')}")
        certificate = f"{named}{''.join(it[1:] for it in kind)}.cert"
        if os.path.exists(certificate):
            expect(os.path.basename(certificate), [litmus, certificate], 0, f"{found.replace('answer', 'accepted', 1)}\n".encode(), program=FENCECHECK)
            same(f"the size of {os.path.basename(certificate)}", f"{os.path.getsize(certificate) / 1000:.1f} kB", size)
            files.append(os.path.basename(certificate))
        else:
            tell(f"{os.path.basename(certificate)} is too large to be kept", float(size.split()[0]) * 1000 > LARGEST, size)
    return files


def tied_row(name, threads, count, alone, tied):
    """The condition's answer in single gaps and in whole lines, of threads that are found to be alike, or that are said to run the same code."""
    litmus = next(path for path in (os.path.join(folder, name + ".litmus") for folder in (FOLDER, LARGE)) if os.path.exists(path))
    named = [["--same", threads.replace(" ", "")]] if ";" not in threads else []
    files = [run(["gaps", "--ties", "--tries", *same_code, litmus])[1] for same_code in ([], *named)]
    costs = next((file for file in files if file.count(b"\n") == int(count)), b"")
    tell(f"the lines of {name}", costs, files, count)
    with tempfile.TemporaryDirectory() as folder:
        costs_file, certificate = os.path.join(folder, "costs"), os.path.join(folder, "certificate")
        write(costs_file, costs)
        for words, answer in (([], alone), (["--costs", costs_file, "--certificate", certificate], tied)):
            found = run(["place", "--condition", *words, litmus])[1].decode().split("\n")[0]
            same(f"the condition's answer for {name}{' in whole lines' if words else ''}", found, f"answer condition {answer.strip('`')}")
        accepted = f"accepted condition {tied.strip('`')}\n".encode()
        expect(f"the certificate of {name} in whole lines", [litmus, certificate, costs_file], 0, accepted, program=FENCECHECK)


def nodes_of(certificate):
    """How many nodes each tree of a certificate has, as the page says it."""
    trees = [line.split()[1:] for line in certificate.splitlines() if line.startswith(("tree ", "fenced ", "gaps "))]
    return " + ".join(str(sum(word in NODES for word in tree)) for tree in trees)


def seen_of(name, seen, litmus, answer):
    """What the atlas says was seen on a processor: of as many outcomes as are not sequential, and of as many fences as the answer has."""
    sequential, buffered = (set(outcomes_in(run(["outcomes", "--model", model, litmus])[1]).splitlines()) for model in MODELS)
    relaxed, fences = len(buffered - sequential), len(answer.strip("`").split(" set")[1].split())
    shown, outcomes, back, left_out = map(int, re.findall(r"\d+", seen) or [0] * 4)
    right = (outcomes, left_out) == (relaxed, fences) and shown <= outcomes and back <= left_out
    tell(f"what was seen of {name}", right and (seen == "-") == (relaxed == 0), f"{seen}, of {relaxed} and {fences}")


class Atlas(Cases):
    def test_answers(self):
        """The checker accepts each answer of the table, and there are no other files than those of its rows."""
        rows = ROW.findall(bytes_of(PAGE).decode())
        same("the files of the atlas are those of its table", sorted(os.listdir(FOLDER)), sorted(file for row in rows for file in atlas_row(row)))

    def test_large(self):
        """Each answer of the table of large programs is given again, and by an independent program; the checker accepts its certificate."""
        rows = LARGE_ROW.findall(bytes_of(PAGE).decode())
        independent = {name: answers for name, *answers in lines("large_answers.tsv")}
        same("the large programs are those of the independent answers", sorted(row[0] for row in rows), sorted(independent))
        files = [file for row in rows for file in large_row(row, independent[row[0]])]
        same("the files of the large programs are those of their table", sorted(os.listdir(LARGE)), sorted(files))

    def test_tied(self):
        """Each answer of the table of ties is given again; the checker accepts its certificate for the same ties."""
        rows = TIED_ROW.findall(bytes_of(PAGE).decode())
        tell("the atlas has a table of ties", rows)
        for row in rows:
            tied_row(*row)

    def test_runs(self):
        """A run of each program that needs fences, to what must not happen."""
        page = bytes_of(PAGE).decode()
        runs = dict(RUN.findall(page))
        same("the atlas has a run of each program that needs fences", sorted(runs), sorted(row[0] for row in ROW.findall(page) if row[3] == "may happen"))
        for name, labels in runs.items():
            line = run(["witness", os.path.join(FOLDER, name + ".litmus")])[1].split(b"\n")[0].decode()
            same(f"the run of {name}", line, "run " + labels)
