"""Progress: what is reported of a long search on standard error, with `--progress` or on a terminal, and that nothing else changes by it.

The combinations of traces are worked out here alone, from the program that a document of `fencer outcomes --json` has.
"""
import functools
import json
import math
import os
import re
import subprocess
import tempfile

from harness import EXAMPLES, FENCER, Cases, Terminal, same, schemas, tell

REGISTERS = ("EAX", "EBX", "ECX", "EDX", "ESI", "EDI")
MOST_COUNTED = 100_000
MOST_SEARCHED = 6
MOST_CERTIFIED = 100_000_000
WARNING = "fencer: warning: with more than 100,000,000 combinations the search may end without an answer or a certificate"
# threads, accesses and exchanges of programs that are warned of, and of those that are not
WARNED = ((4, 29, 1), (4, 28, 4), (8, 32, 9))
UNWARNED = ((3, 29, 1), (4, 29, 0), (4, 28, 3), (3, 28, 4), (4, 27, 4))
MINUTES = "fencer: {} threads, {} accesses, {} exchanges: this may take minutes, and more than 1 GiB (docs/performance.md)"
ASKED = re.compile(r"fencer: sets asked: ([\d,]+)(?:; the answer costs at least ([\d,]+))?")
TIMED = re.compile(
    r"fencer: after ([\d,]+) s: (?:(?:sets asked: [\d,]+; )?([\d,]+) of ([\d,]+) parts of the (?:last question|search for outcomes) are done(, about [\d,]+ s left)?"
    r"|sets asked: [\d,]+|outcomes are searched for|what is found is judged|(the states of the sequential machine are gone through))"
)
# so many lines of a long search are read for those of its parts, on a busy machine too
MOST_LINES = 40
# what is said beside an answer of what sequential runs decide, which is no progress
VERDICT = re.compile(r"fencer: (what (the condition asks about|must not happen|must always hold) .* without store buffers too(: no fence mends it)?|`fencer witness --model sequential .* shows such a run, .*)")
# threads whose traces have unlike lengths, so that a value of one read leaves more combinations than another
JUMPS = """X86 jumps
{ }
 P0          | P1          | P2          ;
 MOV [x],$1  | MOV [y],$1  | MOV [x],$2  ;
 MOV EAX,[y] | MOV EAX,[x] | MOV EAX,[y] ;
 CMP EAX,$1  | CMP EAX,$2  | MOV EBX,[x] ;
 JE end      | JE end      | MOV [y],$2  ;
 MOV EBX,[x] | MOV EBX,[y] | MOV ECX,[x] ;
 MOV ECX,[y] | MOV ECX,[x] |             ;
 end:        | end:        |             ;
exists (x=1)
"""
# stores of one location, each of another value, and an instruction that no run executes: the sequential machine has millions of states
STORES = "X86 stores\n{ }\n" + " | ".join(f"P{t}" for t in range(8)) + " ;\nCMP EAX,$1 | | | | | | | ;\nJNE on | | | | | | | ;\nMOV EBX,$1 | | | | | | | ;\n" + "".join(
    " | ".join("on: " * (t + place == 0) + f"MOV [x],${4 * t + place + 1}" for t in range(8)) + " ;\n" for place in range(4)
) + "exists (x=1)\n"
# exchanges of one location, so many that no search ends before it is ended here
TURNS = "X86 turns\n{ 0:EAX=1; 1:EAX=2; 2:EAX=3; 3:EAX=4 }\nP0 | P1 | P2 | P3 ;\n" + 8 * "XCHG [x],EAX | XCHG [x],EAX | XCHG [x],EAX | XCHG [x],EAX ;\n" + (
    "exists (0:EAX=1 /\\ 1:EAX=1)\n"
)
FILES = [os.path.join(EXAMPLES, name + ".litmus") for name in ("SB", "MP", "R", "2+2W", "n6", "n6-observed", "nothing")]
SEARCHED = (
    ["outcomes"], ["outcomes", "--observed", "--check", "--json"], ["outcomes", "--workers", "4"],
    ["witness"], ["witness", "--not", "--json", "--check"], ["place"], ["place", "--workers", "4"], ["place", "--json", "--check"], ["why"],
)
# commands that search for outcomes alone
LISTING = ("outcomes", "witness")
WHOLE = (
    ["place", "--trees", "whole"], ["place", "--observed", "--trees", "whole"], ["place", "--observed", "--workers", "3", "--trees", "whole"],
    ["place", "--condition", "--trees", "whole"],
)
PLACED = (*WHOLE, ["place"], ["place", "--observed", "--workers", "2"], ["why"], ["why", "--condition"])
PROPOSED = (
    ["place"], ["place", "--observed"], ["place", "--condition", "--workers", "2"], ["why"], ["why", "--condition"],
    ["outcomes"], ["outcomes", "--observed"], ["outcomes", "--model", "sequential", "--runs"], ["witness"], ["witness", "--not", "--model", "sequential"],
)


class Program:
    """Instructions as (name, first operand, second operand), first values and labels, of a document's program."""

    def __init__(self, document):
        self.locations, self.memory = document["locations"], document["initial"]["memory"]
        self.code = [[split(cell["text"]) for cell in thread["instructions"]] for thread in document["threads"]]
        self.labels = [labels_of(thread) for thread in document["threads"]]
        self.registers = [registers_of(names, first) for names, first in zip(document["registers"], document["initial"]["registers"])]

    def values(self, location):
        """What a location may hold."""
        every = [instruction for code in self.code for instruction in code]
        stored = {int(second[1:]) for name, first, second in every if name == "MOV" and first == location and second[0] == "$"}
        values = stored | {self.memory[self.locations.index(location[1:-1])]}
        if any(first == location and second in REGISTERS for name, first, second in every if name in ("MOV", "XCHG")):
            numbers = {int(word[1:]) for _, *words in every for word in words if word[:1] == "$"}
            values |= numbers | {0} | set(self.memory) | {value for first in self.registers for value in first}
        return values

    def traces(self, t):
        """How many traces thread t has."""
        code = self.code[t]

        @functools.lru_cache(maxsize=None)
        def count(place, registers, flag):
            if place == len(code):
                return 1
            name, first, second = code[place]

            def value(word):
                return registers[REGISTERS.index(word)] if word in REGISTERS else int(word[1:])

            def loaded(register, number):
                index = REGISTERS.index(register)
                return (*registers[:index], number, *registers[index + 1:])

            if name in ("JMP", "JE", "JNE"):
                taken = {"JMP": True, "JE": flag, "JNE": not flag}[name]
                return count(self.labels[t][first] if taken else place + 1, registers, flag)
            if name == "CMP":
                return count(place + 1, registers, value(first) == value(second))
            if name == "XCHG" or name == "MOV" and second[0] == "[":
                register, location = (second, first) if name == "XCHG" else (first, second)
                return sum(count(place + 1, loaded(register, number), flag) for number in self.values(location))
            if name == "MOV" and first in REGISTERS:
                return count(place + 1, loaded(first, value(second)), flag)
            return count(place + 1, registers, flag)

        return count(0, self.registers[t], False)

    def extent(self):
        """How many threads, accesses and exchanges there are."""
        every = [instruction for code in self.code for instruction in code]
        return len(self.code), sum("[" in first + second for _, first, second in every), sum(name == "XCHG" for name, _, _ in every)

    def combinations(self):
        """How many combinations of traces there are."""
        return math.prod(self.traces(t) for t in range(len(self.code)))

    def counted(self):
        """How many combinations of traces are counted, and whether there may be more: of all threads so many traces are counted, and one of each thread."""
        product, left, more = 1, MOST_COUNTED, False
        for t in range(len(self.code)):
            traces = min(self.traces(t), left + 1)
            product, left, more = product * traces, left - (traces - 1), more or traces > left
        return product, more


def labels_of(thread):
    """The place of each label of a thread."""
    cells = [*thread["instructions"], {"labels": thread["end"]}]
    return {label: place for place, cell in enumerate(cells) for label in cell["labels"]}


def registers_of(names, first):
    """The first value of each register."""
    values = dict(zip(names, first))
    return tuple(values.get(register, 0) for register in REGISTERS)


def split(text):
    """The name and the two operands of an instruction."""
    name, _, operands = text.partition(" ")
    return (name, *(operands.split(",") + ["", ""])[:2])


def ahead(program):
    """The lines before a search."""
    count, more = program.counted()
    return [f"fencer: combinations of traces: {count:,}{' or more' * more}", *([WARNING] if more or count > MOST_CERTIFIED else [])]


def reported(said):
    """The lines on standard error, but for what sequential runs decide."""
    return [line for line in said.decode().splitlines() if not VERDICT.fullmatch(line)]


def ran(words, **more):
    """The status of a call, what it prints, and the lines on standard error."""
    call = subprocess.run([FENCER, *words], stdout=subprocess.PIPE, stderr=more.pop("stderr", subprocess.PIPE), timeout=120, **more)
    schemas.hold(words, call.stdout)
    return (call.returncode, call.stdout), reported(call.stderr or b"")


def count_outcomes(path, *options):
    """How many outcomes a program has."""
    return int(ran(["outcomes", *options, path])[0][1].split()[1])


def sequential_outcomes(path, command):
    """How many sequential outcomes a command finds, as far as they are shown. Of a condition's truth there are as many as runs show, which the observation
    says."""
    if "--condition" in command:
        observation = re.search(rb"observation (\w+)", ran(["outcomes", "--model", "sequential", path])[0][1])[1]
        return 2 if observation == b"Sometimes" else 1
    return count_outcomes(path, "--model", "sequential", *(option for option in command if option == "--observed"))


def read_program(path):
    return Program(json.loads(ran(["outcomes", "--json", path])[0][1]))


def number(text):
    """The number of digits in groups of three."""
    return int(text.replace(",", ""))


def untimed(said):
    """The lines that do not come by time."""
    return [line for line in said if not TIMED.fullmatch(line)]


def check_search(said, sequential, cost, bounded):
    """Whether the lines of a search are right, after those before it."""
    asked = [ASKED.fullmatch(line) for line in said[1:]]
    if said[:1] != [f"fencer: sequential outcomes: {sequential:,}"] or not all(asked):
        return False
    bounds = [number(line[2]) for line in asked if line[2]]
    doubled = [number(line[1]) for line in asked] == [2**i for i in range(len(asked))]
    return doubled and bounds == sorted(bounds) and len(bounds) == (len(asked) if bounded else 0) and all(bound <= cost for bound in bounds)


def searched(name, path, command):
    """What is reported of a search over whole trees for a file, by one command."""
    lines = [] if command[0] in LISTING else ahead(read_program(path))
    plain, silent = ran([*command, path])
    found, said = ran([*command, "--progress", path])
    said = untimed(said)
    what = f"progress of {' '.join(command)} {name}"
    same(f"{what}: the answer is the same", (found, silent), (plain, []))
    same(f"{what}: what lies ahead", said[:len(lines)], lines)
    rest = said[len(lines):]
    if command[0] in LISTING:
        same(f"{what}: nothing else", rest, [])
    elif "--json" not in command:
        cost = int(re.match(rb"answer (?:\w+ )?cost (\d+)", plain[1])[1])
        tell(f"{what}: the search", check_search(rest, sequential_outcomes(path, command), cost, "--workers" not in command), rest)


def on_terminal(words, is_enough=lambda lines: False):
    """What a call prints, and says on a terminal; it is ended once its whole lines are enough."""
    terminal, said = Terminal(), b""
    with subprocess.Popen([FENCER, *words], stdout=subprocess.PIPE, stderr=terminal.end) as call:
        for part in terminal.parts():
            said += part
            if is_enough(reported(said[:said.rfind(b"\n") + 1])):
                call.kill()
        printed = call.stdout.read()
    return printed, reported(said[:said.rfind(b"\n") + 1])


def of_parts(lines):
    """Of the lines by time those that say how many parts of the search for outcomes are done."""
    return [line for line in map(TIMED.fullmatch, lines) if line and "the search for outcomes" in line[0]]


def walked(line):
    """Whether the line says by time that states are gone through."""
    found = TIMED.fullmatch(line)
    return found and found[5]


def reads(*threads):
    """A program whose threads read a location with two values so often."""
    cells = [["MOV [x],$1"] * (t == 0) + ["MOV EAX,[x]"] * count for t, count in enumerate(threads)]
    rows = "".join(" | ".join(cell[i] if i < len(cell) else "" for cell in cells) + " ;\n" for i in range(max(map(len, cells))))
    return "X86 reads\n{ }\n" + " | ".join(f"P{t}" for t in range(len(threads))) + " ;\n" + rows + "exists (x=1)\n"


def long(count):
    """A program of one thread of 64 instructions that reads a location with two values so often, and then goes on within the thread."""
    code = ["MOV [x],$1", *["MOV EAX,[x]"] * count]
    code += ["MOV EBX,$1"] * (64 - len(code))
    return "X86 long\n{ }\nP0 ;\n" + "".join(f"{instruction} ;\n" for instruction in code) + "exists (x=1)\n"


def easy(threads, accesses, exchanges):
    """A program with so many threads, accesses and exchanges, of which each execution is alike. Nothing writes y but its first value."""
    lengths = [accesses // threads + (t < accesses % threads) for t in range(threads)]
    cells = [["XCHG [x],EAX" if place * threads + t < exchanges else "MOV EBX,[y]" for place in range(length)] for t, length in enumerate(lengths)]
    lines = "".join(" | ".join(cell[i] if i < len(cell) else "" for cell in cells) + " ;\n" for i in range(max(lengths)))
    return "X86 easy\n{ y=0 }\n" + " | ".join(f"P{t}" for t in range(threads)) + " ;\n" + lines + "exists (y=1)\n"


def made(folder, text):
    """A file of this text."""
    path = os.path.join(folder, "made.litmus")
    with open(path, "w", encoding="ascii") as file:
        file.write(text)
    return path


class Progress(Cases):
    def test_searches(self):
        """What is reported of each command's search, in examples and in algorithms of the atlas that are not large."""
        for path in [*FILES, *(os.path.join(EXAMPLES, "atlas", name + ".litmus") for name in ("Cilk-THE", "Wake-up", "RCU-flag"))]:
            for command in SEARCHED:
                searched(os.path.basename(path), path, command)

    def test_whole(self):
        """What is reported of large programs where trees are whole: where that is asked for, or of at most 1,000 combinations."""
        for name, text, commands in (
            ("jumps", JUMPS, WHOLE), ("reads", reads(5, 5, 5), WHOLE), ("one thread", reads(12), WHOLE), ("few reads", reads(5, 4), PLACED),
        ):
            with tempfile.TemporaryDirectory() as folder:
                path = made(folder, text)
                for command in commands:
                    searched(name, path, command)

    def test_proposed(self):
        """Where early trees are proposed the sequential outcomes alone are reported, with `--progress`, of a list or a run nothing, and nothing on a terminal but what a
        run is in the condition's words."""
        with tempfile.TemporaryDirectory() as folder:
            path = made(folder, JUMPS)
            for command in PROPOSED:
                plain, silent = ran([*command, path])
                found, said = ran([*command, "--progress", path])
                wanted = [] if command[0] in LISTING else [f"fencer: sequential outcomes: {sequential_outcomes(path, command):,}"]
                same(f"progress of {' '.join(command)} where an answer is proposed", (found, silent, said), (plain, [], wanted))
            for command in ("outcomes", "witness", "why"):
                printed, said = on_terminal([command, path])
                wanted = [f"fencer: {json.loads(ran([command, '--json', path])[0][1])['says']}"] if command == "witness" else []
                same(f"{command} on a terminal where an answer is proposed", (said, printed), (wanted, ran([command, path])[0][1]))

    def test_accepted(self):
        """What is proposed for large programs of the atlas is accepted: no set is asked about by the proved search."""
        atlas = os.path.join(EXAMPLES, "atlas")
        for name in sorted(file for file in os.listdir(atlas) if file.endswith(".litmus")):
            path = os.path.join(atlas, name)
            if read_program(path).combinations() <= MOST_SEARCHED:
                continue
            for options in ([], ["--observed"], ["--condition"]):
                said = ran(["place", "--progress", *options, path])[1]
                asked = [line for line in said if ASKED.fullmatch(line) or "minutes" in line]
                same(f"sets that are asked about for {name} {options}, and warnings", asked, [])

    def test_lost(self):
        """Standard error that is closed, or that takes nothing."""
        path = FILES[0]
        for command in ("outcomes", "witness", "place", "why"):
            plain = ran([command, path])[0]
            closed = ran([command, "--progress", path], stderr=None, preexec_fn=lambda: os.close(2))[0]
            with open("/dev/full", "wb") as full:
                unwritten = ran([command, "--progress", path], stderr=full)[0]
            tell(f"progress of {command} that can't be written", plain == closed == unwritten, (closed, unwritten))

    def test_terminals(self):
        """On a terminal a search says nothing for a second, but for warnings, and short ones are reported with `--progress` alone."""
        short = FILES[0]
        same("a short search says nothing on a terminal", on_terminal(["outcomes", short])[1], [])
        tell("a short search is reported on a terminal where that is asked for", on_terminal(["place", "--progress", short])[1][:1] == ahead(read_program(short)))

    def test_time(self):
        """A long search has lines by time, which say how many parts of it are done, on a terminal too."""
        with tempfile.TemporaryDirectory() as folder:
            lines = on_terminal(["place", "--trees", "whole", made(folder, reads(14, 14))], lambda lines: len(of_parts(lines)) >= 2 or len(lines) >= MOST_LINES)[1]
            tell("a warning comes first on a terminal", WARNING in lines[:2], lines)
            found = [line for line in map(TIMED.fullmatch, lines) if line]
            tell("a long search is reported by time", len(found) >= 2, lines)
            times, done = [0, *(number(line[1]) for line in found)], [(number(line[2]), number(line[3])) for line in of_parts(lines)]
            tell("at most five seconds pass between two lines", all(0 < after - before <= 5 for before, after in zip(times, times[1:])), times)
            cut = {parts for _, parts in done}
            tell("how many parts are done", done and done == sorted(done) and all(some <= parts for some, parts in done) and len(cut) <= 1, done)
            tell("how long it takes is estimated once a part is done", all(bool(line[4]) == (number(line[2]) > 0) for line in of_parts(lines)), lines)

    def test_walk(self):
        """A long walk over the states of the sequential machine has lines by time on a terminal."""
        with tempfile.TemporaryDirectory() as folder:
            lines = on_terminal(["survey", made(folder, STORES)], lambda lines: any(map(walked, lines)) or len(lines) >= MOST_LINES)[1]
        tell("a long walk is reported by time", any(map(walked, lines)), lines)

    def test_witness(self):
        """A long search for a run has lines by time on a terminal, after a warning. Exchanges of one location take turns with four values, of which no two
        threads have the same one in the end."""
        with tempfile.TemporaryDirectory() as folder:
            lines = on_terminal(["witness", made(folder, TURNS)], lambda lines: len(lines) >= 3)[1]
        same("a warning comes before a long search for a run", lines[:1], [MINUTES.format(4, 32, 32)])
        found = [line for line in map(TIMED.fullmatch, lines[1:]) if line]
        tell("a long search for a run is reported by time", len(found) == len(lines[1:]) >= 2, lines)

    def test_minutes(self):
        """Before a search that may take minutes there is a warning, with how many threads, accesses and exchanges there are, and none before others."""
        with tempfile.TemporaryDirectory() as folder:
            for counts in (*WARNED, *UNWARNED):
                path = made(folder, easy(*counts))
                same(f"the threads, accesses and exchanges of {counts}", read_program(path).extent(), counts)
                wanted = [MINUTES.format(*counts)] if counts in WARNED else []
                for command in ("place", "why", "outcomes", "witness"):
                    said = ran([command, "--progress", path])[1]
                    same(f"the warning of {command} before {counts}", [line for line in said if "minutes" in line], wanted)
                same(f"the warning on a terminal before {counts}", on_terminal(["place", path])[1][:1], wanted)
                same(f"the warning where nothing is reported before {counts}", ran(["place", path])[1], [])

    def test_endless(self):
        """Threads of more traces than are counted: what lies ahead is said before the search, which is ended here."""
        many, few = MOST_COUNTED + 1, 8 * (MOST_COUNTED + 1 - 7)
        for name, text, counted in (
            ("a thread of 24 reads", reads(24), f"{many:,} or more"), ("threads of 24 and 3 reads", reads(24, 3), f"{many:,} or more"),
            ("threads of 3 and 24 reads", reads(3, 24), f"{few:,} or more"), ("threads of 13 and 14 reads", reads(13, 14), f"{2 ** 27:,}"),
            ("threads of 64 instructions", long(24), f"{many:,} or more"),
        ):
            with tempfile.TemporaryDirectory() as folder:
                path = made(folder, text)
                wanted = [f"fencer: combinations of traces: {counted}", WARNING]
                with subprocess.Popen([FENCER, *WHOLE[0], "--progress", path], stdout=subprocess.DEVNULL, stderr=subprocess.PIPE) as call:
                    said = [call.stderr.readline().decode().rstrip("\n") for _ in wanted]
                    call.kill()
                same(f"what lies ahead of {name}", said, wanted)
