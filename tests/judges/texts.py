"""What is read of a litmus text and written of it, by the public calls of the libraries (`test_calls`), for the judges that start from it."""
import re

from harness import bytes_of, called, same
from judges import graphs, machine, traces


def test_of(source):
    """The program of a litmus text, for the machines of `machine`."""
    return machine.Test(called("read", source).decode())


def canonical_of(source):
    """The canonical text of a litmus text without fences."""
    return called("canonical ", source).decode()


def drawn(litmus, model, labels, marked=None):
    """The table of a run of a litmus file, as `traces` draws it."""
    source = bytes_of(litmus)
    return traces.table(test_of(source), canonical_of(source), model, labels, marked).encode()


def execution_of(litmus, model, labels):
    """The candidate execution of a run of a litmus file, as `graphs` works it out."""
    source = bytes_of(litmus)
    return graphs.execution(test_of(source), canonical_of(source), model, labels)


def fenced_text(litmus, gaps):
    """The canonical text of a litmus file's program with these gaps fenced, which are numbers or places; it is read back as the same test."""
    source = bytes_of(litmus)
    text = called(f"canonical {gaps}", source)
    same(f"the canonical text of {litmus} with {gaps}, read back", called("read-fenced", text).decode(), fenced_reading(source, gaps))
    return text


def fenced_reading(source, gaps):
    """What is read of a test with some gaps fenced: what is read of its source, with the fenced program, and each label after the fences before it."""
    read = called("read", source).decode()
    there = machine.Test(read).gaps()
    places = {tuple(int(part) for part in word.split(":")) if ":" in word else there[int(word)] for word in gaps.split()}
    numbers = ",".join(str(gap) for gap, place in enumerate(there) if place in places)
    fenced = called(f"fenced {numbers or '-'}", source).decode()

    def moved(line):
        return re.sub(r":(\d+)", lambda at: f":{int(at[1]) + sum(t == int(line[1]) and k < int(at[1]) for t, k in places)}", line[0])

    read = re.sub(r"^threads .*\nmemory .*\n", lambda _: fenced, read, flags=re.M)
    return re.sub(r"^labels of (\d+).*$", moved, read, flags=re.M)


def instruction_lines(text):
    """The lines of each thread's instructions, read from the text by its marks alone."""
    def blank(found):
        return re.sub(r"[^\n]", " ", found[0])
    body = re.sub(r"\(\*.*?\*\)", blank, text, flags=re.S)
    start = re.search(r"^[ \t]*P0[^;]*;", body, flags=re.M)
    end = re.search(r"^\s*(exists|forall|locations|~)", body, flags=re.M)
    threads = [[] for _ in start[0].split("|")]
    place = start.end()
    for row in body[place:end.start()].split(";")[:-1]:
        at = place
        for thread, cell in enumerate(row.split("|")):
            code = re.search(r"[^\s].*", re.sub(r"\w+\s*:", blank, cell), flags=re.S)
            if code:
                threads[thread].append(1 + body[:at + code.start()].count("\n"))
            at += len(cell) + 1
        place += len(row) + 1
    return threads
