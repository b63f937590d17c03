"""Documentation: what a reader of the documents does first, the commands that they show, the inputs that get a refusal, and what is made of the sources.

The scripts in docs/ make the map of the crates with their table, the drawings, and the links between documents; one compares the page of promises with the
contracts. The drawings are made of texts. Where such a text says `of: LITMUS WHAT`, it has a line of the certificate that `fencer place` makes, or a run of
`fencer why`.
"""
import fnmatch
import functools
import glob
import os
import re
import shutil
import subprocess
import tempfile

from harness import EXAMPLES, PROGRAMS, TOP, Cases, bytes_of, certificate_of, run, same, tell, write

PRINTED = ("answer ", "accepted ", "refused ", "outcome: ", "outcomes ", "passed", "without ", "run ", "Every ", "No ", "observation ", "condition ", "usage: ", "error: ")
MAKERS = ("make-map", "make-drawings", "make-links")
# claims that the page of promises does not make, each in place of one that it makes, and what is said of it
FALSE_CLAIMS = (
    ("`Costs::new` (`value`, `refused`)", "`Costs::new` (`value`, `never_refused`)", "gap_sets: Costs::new has no clause never_refused"),
    ("`Costs::total` (`value`)", "`Costs::sum` (`value`)", "gap_sets: no contract of Costs::sum"),
    ("Each call of `GapSet`", "Each call of `GapList`", "gap_sets: no GapList"),
    ("- `gap_sets`: ", "- `gap_lists`: ", "gap_sets: it has no entry"),
    ("| `gap_sets` | `GapSet::has`", "| `gap_list` | `GapSet::has`", "gap_sets: no row names its contracts"),
)
# what the checker does without: what says so of each, and the line of code that begins it
APART = (
    ("rows of bits", "pub struct Relation"), ("a search for cycles", "pub fn find_cycle"), ("a writer of canonical texts", "pub fn write_litmus"),
    ("a search for trees", "pub struct Search"), ("a maker of runs", "pub fn make_run"), ("an oracle", "pub trait Oracle"),
)
MOST_WORDS = 120
MOST_LINES = 120
MOST_WORDS_OF_A_CRATE = 60
# in a document's text: a file or a folder from the top, a name in a file, any file of these kinds
FROM_TOP = re.compile(r"`(?:\./)?((?:tests|bench|docs|examples|crates|\.ci)/[\w./-]+)[ `]")
IN_FILE = re.compile(r"`((?:\w+::)*\w+)` (?:in |\()`([\w/]+/[\w.]+\.(?:rt|antt|py))`")
OF_A_KIND = re.compile(r"`([\w+-][\w.+-]*(?:/[\w.+-]+)+\.(?:rt|antt|py|tsv|md|txt|js|litmus|cert|svg))`")


def documents():
    folders = [TOP, os.path.join(TOP, "docs"), EXAMPLES]
    return [os.path.join(folder, file) for folder in folders for file in sorted(os.listdir(folder)) if file.endswith(".md")]


def all_documents():
    """Those documents and the pages of docs' folders, of the tests, and of measurements."""
    pages = glob.glob(os.path.join(TOP, "docs", "*", "**", "*.md"), recursive=True)
    return sorted([*documents(), *pages, *(os.path.join(TOP, folder, "README.md") for folder in ("tests", "bench"))])


def lines_of(path):
    with open(path, encoding="utf-8") as file:
        return file.read().split("\n")


def shown_commands(path):
    """The lines of a document that show a command, each with the lines that it prints."""
    text = "\n".join(lines_of(path))
    blocks = re.findall(r"^    \$ (.*)\n((?:    (?!\$ ).*\n|\n(?=    (?!\$ )))*)", text, flags=re.M)
    return [(command, [line[4:] for line in printed.split("\n")[:-1]]) for command, printed in blocks]


def spans(line):
    """The quoted texts of a line, with the bars that a table's row escapes."""
    return [span.replace("\\|", "|") for span in re.findall(r"`([^`]*)`", line)]


def programs_in(folder):
    """A folder with the examples, and the built programs by their names."""
    shutil.copytree(EXAMPLES, os.path.join(folder, "examples"))
    for name, program in PROGRAMS.items():
        shutil.copy(program, os.path.join(folder, name))


def printed_by(command, folder):
    ran = subprocess.run(["bash", "-c", command], cwd=folder, stdin=subprocess.DEVNULL, capture_output=True, timeout=120)
    return ran.stdout.decode().split("\n")[:-1]


def part(spelled):
    """A part of a text as a document spells it: \\n stands for a LF, \\xff for a byte."""
    return spelled.encode().replace(b"\\n", b"\n").replace(b"\\xff", b"\xff")


def lost_files(path):
    """The files that a document names and that are not there. A name begins at the top, or at `crates`, inside some crate, or beside the document."""
    text = bytes_of(path).decode()
    from_top = {it for it in FROM_TOP.findall(text) if not re.search("CRATE|NAME", it)}
    places = [TOP, *(os.path.join(TOP, "crates", *inside) for inside in ((), ("*",), ("*", "src"))), os.path.dirname(path)]
    elsewhere = {it for it in OF_A_KIND.findall(text) if not any(glob.glob(os.path.join(place, it)) for place in places)}
    return sorted(elsewhere | {it for it in from_top if not os.path.exists(os.path.join(TOP, it))})


@functools.cache
def words_of(crate):
    """The words of a crate's code and definitions."""
    paths = [path for folder in ("src", "specs") for path in glob.glob(os.path.join(crate, folder, "**"), recursive=True) if os.path.isfile(path)]
    return {word for path in paths for word in re.findall(r"\w+", bytes_of(path).decode())}


def has_name(document, file, name):
    """Whether the file of this name, at the top, under `crates` or beside the document, has each word of the name. A file that is elsewhere is not looked at."""
    places = [os.path.join(folder, file) for folder in (TOP, os.path.join(TOP, "crates"), os.path.dirname(document))]
    found = next((place for place in places if os.path.isfile(place)), None)
    return found is None or set(name.split("::")) <= set(re.findall(r"\w+", bytes_of(found).decode()))


def long_paragraphs(path):
    """How the paragraphs, entries and cells of a document begin that have too many words."""
    texts = re.split(r"\n(?=\n|\||\s*(?:-|\d+\.) )|(?<=[^|]) \| ", bytes_of(path).decode())
    return [text.strip()[:60] for text in texts if len(text.split()) > MOST_WORDS and not text.strip("\n").startswith("    ")]


def lost_at_ends(text):
    """The files at the ends of a document's entries and of its rows that are not there. A name alone is in the folder of the one before."""
    ends = re.findall(r"\(((?:`[\w./-]+`(?:, | in )?)+)\)$", text, re.M) + re.findall(r"^\|.*\| ((?:`[\w./-]+`(?:, )?)+) \|$", text, re.M)
    for end in ends:
        folder = TOP
        for file in re.findall(r"`([\w-]*[./][\w./-]*)`", end):
            places = [os.path.join(it, file) for it in (TOP, os.path.join(TOP, "crates"), folder)]
            found = next((it for it in places if os.path.exists(it)), None)
            if found is None:
                yield file
            folder = os.path.dirname(found or TOP)


def lost_names(root):
    """The names with which the head of a crate says to begin, and that its code has not."""
    texts = [bytes_of(path).decode() for path in [root, *glob.glob(os.path.join(os.path.dirname(root), "*.rt"))]]
    head = " ".join(line.removeprefix("//!").strip() for line in texts[0].splitlines() if line.startswith("//!"))
    begin = re.search(r"Begin with (.*?)\. [A-Z]", head)
    if not begin:
        return ["Begin with"]
    names = re.findall(r"`(?:\w+::)?(\w+)`", begin[1])
    code = "\n".join(line for text in texts for line in text.splitlines() if not line.startswith("//!"))
    return [name for name in names if not re.search(rf"\b{name}\b", code)]


def drawn_line(name, panel):
    """The line of a certificate that a drawn tree has: the words of its nodes, a node before its children."""
    nodes = [line.partition(" | ")[0].strip().rpartition(": ")[2] for line in panel.splitlines()[1:] if line.strip()]
    return " ".join([name, *nodes])


def certified(litmus, name):
    """The line of the certificate that begins with this word."""
    return next(line for line in certificate_of(litmus).decode().splitlines() if line.split(" ")[0] == name)


def drawn_run(panel):
    """The steps of a drawn run, and the gaps that it passes."""
    return [line.split() for line in panel.splitlines() if re.match(r"[ef]\d+ |passed", line)]


def run_without(litmus, what):
    """The steps of the run that `fencer why` prints after this line, and the gaps that it passes."""
    printed = run(["why", litmus])[1].decode()
    plain = re.sub(r"  <- \d+:\d+$", "", printed, flags=re.M)
    return drawn_run(re.split(r"^without", plain.partition(what + "\n")[2], flags=re.M)[0])


class Sources(Cases):
    needs_programs = False

    def test_made(self):
        """What the makers in docs/ make is committed: the map, the drawings, the links between documents."""
        for maker in MAKERS:
            ran = subprocess.run([os.path.join(TOP, "docs", maker), "--check"], capture_output=True, text=True, timeout=120)
            tell(f"what docs/{maker} makes is committed", ran.returncode == 0, ran.stdout + ran.stderr)

    def test_promises(self):
        """docs/promises.md names no function and no clause that its crate lacks, and each crate; a page that does is found."""
        page, script = (os.path.join(TOP, "docs", it) for it in ("promises.md", "make-promises"))
        ran = subprocess.run([script, "--check"], capture_output=True, text=True, timeout=120)
        same("what docs/promises.md names is there", (ran.returncode, ran.stdout, ran.stderr), (0, "", ""))
        text = bytes_of(page).decode()
        for claim, other, said in FALSE_CLAIMS:
            with tempfile.NamedTemporaryFile(suffix=".md") as changed:
                write(changed.name, text.replace(claim, other).encode())
                ran = subprocess.run([script, "--check", changed.name], capture_output=True, text=True, timeout=120)
            found = text.count(claim) == 1 and ran.returncode == 1 and f"{changed.name}, {said}" in ran.stdout.splitlines()
            tell(f"a page with {other} is found", found, (ran.returncode, ran.stdout, ran.stderr), said)

    def test_toolchain(self):
        """README.md alone names the releases of the toolchain with which the gate has passed."""
        naming = [os.path.relpath(path, TOP) for path in all_documents() if "rattle-kit" in bytes_of(path).decode()]
        same("the documents that name the toolchain's releases", naming, ["README.md"])

    def test_checker(self):
        """fencecheck is built over nothing that searches, and over nothing that writes a litmus text, as docs/trust.md says."""
        ran = subprocess.run([os.path.join(TOP, "docs", "make-map"), "--below", "fencecheck"], capture_output=True, text=True, timeout=120)
        paths = [path for crate in ran.stdout.split() for path in glob.glob(os.path.join(TOP, "crates", crate, "src", "**", "*.rt"), recursive=True)]
        tell("the crates below fencecheck are found", ran.returncode == 0 and len(paths) > 50, ran.stdout + ran.stderr)
        everywhere = glob.glob(os.path.join(TOP, "crates", "*", "src", "**", "*.rt"), recursive=True)
        for what, code in APART:
            begun = [path for path in everywhere if re.search(rf"^ *{code}\b", bytes_of(path).decode(), re.M)]
            found = [os.path.relpath(path, TOP) for path in begun if path in paths]
            tell(f"fencecheck is built over no {what.removeprefix('a ').removeprefix('an ')}", begun and not found, found or "it is nowhere")

    def test_definitions(self):
        """docs/trust.md counts the definitions as docs/list-definitions does."""
        text, all_lines = bytes_of(os.path.join(TOP, "docs", "trust.md")).decode(), 0
        for names in re.findall(r"`docs/list-definitions ([\w. ]+)`", text):
            ran = subprocess.run([os.path.join(TOP, "docs", "list-definitions"), *names.split()], capture_output=True, text=True, timeout=120)
            counts = re.search(r"^(\d+) definitions, (\d+) lines$", ran.stdout, re.M)
            definitions, lines_of = map(int, counts.groups()) if counts else (0, 0)
            if " " in names:
                counted = f"These are {lines_of - all_lines} lines of definitions" in text
            else:
                counted, all_lines = f"{definitions} definitions* | | *{lines_of}*" in text, max(all_lines, lines_of)
            tell(f"docs/trust.md counts what {names} rests on", ran.returncode == 0 and counted, (definitions, lines_of, ran.stderr))

    def test_lengths(self):
        """Paragraphs, entries and cells of documents are short, and so is what is promised of each crate."""
        for path in all_documents():
            long = long_paragraphs(path)
            tell(f"{os.path.relpath(path, TOP)} has no paragraph of more than {MOST_WORDS} words", not long, long)
        promises = bytes_of(os.path.join(TOP, "docs", "promises.md")).decode()
        crates = re.findall(r"^- `(\w+)`: (.*)$", promises.partition("## Command by command")[0], re.M)
        long = [crate for crate, words in crates if len(words.split()) > MOST_WORDS_OF_A_CRATE]
        tell(f"docs/promises.md has at most {MOST_WORDS_OF_A_CRATE} words of each crate", crates and not long, long)

    def test_readme(self):
        """README.md begins with two commands, the main job and the tests, and is short."""
        text = bytes_of(os.path.join(TOP, "README.md")).decode()
        first = re.search(r"\n\n((?:    .*\n)+)", text)[1]
        same("the first commands of README.md", [line.partition("#")[0].strip() for line in first.splitlines()], ["./fencer place examples/SB.litmus", ".ci/run"])
        tell(f"README.md has at most {MOST_LINES} lines", text.count("\n") <= MOST_LINES, text.count("\n"))

    def test_paths(self):
        """The files that a document names are there."""
        for path in all_documents():
            lost = lost_files(path)
            tell(f"the files that {os.path.relpath(path, TOP)} names are there", not lost, lost)

    def test_decisions(self):
        """Each entry of docs/DECISIONS.md ends with files that are there."""
        lost = list(lost_at_ends(bytes_of(os.path.join(TOP, "docs", "DECISIONS.md")).decode()))
        tell("the files at the ends of docs/DECISIONS.md are there", not lost, lost)

    def test_surface(self):
        """Each call of the public surface, in the table of docs/DECISIONS.md, is in the crate of its row, or in the crate where the row says that it stands."""
        table = bytes_of(os.path.join(TOP, "docs", "DECISIONS.md")).decode().partition("| Crate | Call | Stands in |")[2].partition("\n\n")[0]
        crate = ""
        for named, calls, stands_in in re.findall(r"^\| (?:`(\w+)` )?\| (`.*) \| (?:`(\w+)` )?\|$", table, re.M):
            crate = named or crate
            names = {name for pair in re.findall(r"(\w+)\(|`(\w+)`", calls) for name in pair if name}
            lost = sorted(name for name in names if name not in words_of(os.path.join(TOP, "crates", stands_in or crate)))
            tell(f"{calls[:40]} .. of {crate} is there", not lost, lost)

    def test_names(self):
        """The names that a document gives with their crate or their file, as `tso_machine::all_gaps_serve` or `lex` in `text_tokens/src/lexer.rt`, are there."""
        crates = {os.path.basename(path): path for path in glob.glob(os.path.join(TOP, "crates", "*"))}
        for path in all_documents():
            text = bytes_of(path).decode()
            named = {tuple(it.split("::")) for it in re.findall(r"`(\w+(?:::\w+)+)`", text)}
            lost = ["::".join(it) for it in sorted(named) if it[0] in crates and not set(it[1:]) <= words_of(crates[it[0]])]
            lost += [f"{name} in {file}" for name, file in IN_FILE.findall(text) if not has_name(path, file, name)]
            tell(f"the names of code in {os.path.relpath(path, TOP)} are there", not lost, lost)

    def test_heads(self):
        """The names with which the head of a crate says to begin are there."""
        for root in sorted(glob.glob(os.path.join(TOP, "crates", "*", "src", "lib.rt")) + glob.glob(os.path.join(TOP, "crates", "*", "src", "main.rt"))):
            lost = lost_names(root)
            tell(f"the head of {os.path.relpath(root, TOP)} names what is there", not lost, lost)


class Documentation(Cases):
    def test_drawn(self):
        """Each drawn panel that is of an answer is as the program gives it."""
        for path in sorted(glob.glob(os.path.join(TOP, "docs", "drawings", "*.txt"))):
            for panel in re.split(r"^##? .*\n", bytes_of(path).decode(), flags=re.M):
                named = re.match(r"of: (\S+) (.*)\n", panel)
                if named:
                    litmus, what = os.path.join(TOP, named[1]), named[2]
                    of_run = what.startswith("without")
                    drawn = drawn_run(panel) if of_run else drawn_line(what, panel)
                    same(f"{os.path.basename(path)} draws {named[0].strip()}", drawn, run_without(litmus, what) if of_run else certified(litmus, what))

    def test_commands(self):
        """Each command that a document shows prints what the document shows, and writes no file at the top that git shows."""
        with open(os.path.join(TOP, ".gitignore"), encoding="utf-8") as file:
            ignored = [line[1:] for line in file.read().splitlines() if line.startswith("/")]
        for path in documents():
            name = os.path.relpath(path, TOP)
            with tempfile.TemporaryDirectory() as folder:
                programs_in(folder)
                before = set(os.listdir(folder))
                for command, wanted in shown_commands(path):
                    found = printed_by(command, folder)
                    same(f"{name}: {command}", found, wanted)
                written = [file for file in set(os.listdir(folder)) - before if not any(fnmatch.fnmatch(file, it) for it in ignored)]
                tell(f"{name}: its commands write no file that git shows", not written, written)
        shown = [command for command, _ in shown_commands(os.path.join(TOP, "README.md"))]
        tell("README.md shows how to begin", len(shown) >= 4, shown)

    def test_help(self):
        """docs/help.md is what docs/make-help makes of the programs."""
        ran = subprocess.run([os.path.join(TOP, "docs", "make-help"), "--check"], capture_output=True, text=True, timeout=120)
        tell("what docs/make-help makes is committed", ran.returncode == 0, ran.stdout + ran.stderr)

    def test_ci(self):
        """The script that the guide has for a CI ends with 0 where each condition holds and no fence is missing, and otherwise with 1."""
        code = bytes_of(os.path.join(TOP, "docs", "guide.md")).decode().partition("    failed=0\n")
        script = "".join(f"{line[4:]}\n" for line in (code[1] + code[2].partition("\n\n")[0]).splitlines())
        for names, wanted in ((["Spinlock"], 0), (["Spinlock", "Peterson"], 1)):
            with tempfile.TemporaryDirectory() as folder:
                programs_in(folder)
                os.mkdir(os.path.join(folder, "locks"))
                for name in names:
                    shutil.copy(os.path.join(EXAMPLES, "atlas", name + ".litmus"), os.path.join(folder, "locks"))
                ran = subprocess.run(["bash", "-c", script], cwd=folder, stdin=subprocess.DEVNULL, capture_output=True, text=True, timeout=120)
            said = [line for line in ran.stdout.splitlines() if "Peterson" in line]
            tell(f"the script of a CI for {' and '.join(names)}", ran.returncode == wanted and len(said) == 2 * wanted, (ran.returncode, ran.stdout, ran.stderr), wanted)

    def test_tables(self):
        """Each row of the examples' tables: what its commands print has each line that the row shows."""
        with tempfile.TemporaryDirectory() as folder:
            programs_in(folder)
            rows = [line for line in lines_of(os.path.join(EXAMPLES, "README.md")) if line.startswith("| ")]
            for row in rows:
                words = [span for span in spans(row) if re.match(r"(place|replay|outcomes|trace|why|witness) .*\.litmus|examples/\S+ ", span)]
                wanted = [span for span in spans(row) if span not in words and span.startswith(PRINTED)]
                for command in words:
                    program = "./fencecheck" if command.startswith("examples/") else "./fencer"
                    found = printed_by(f"{program} {command}", folder)
                    tell(f"examples/README.md: {command}", wanted and set(wanted) <= set(found), found, wanted)

    def test_refusals(self):
        """Each input that docs/formats.md shows beside a refusal gets it."""
        litmus, certificate = (os.path.join(EXAMPLES, file) for file in ("SB.litmus", "SB.cert"))
        rows = [row for row in lines_of(os.path.join(TOP, "docs", "formats.md")) if re.search(r"`: `refused [^`]*` \|$", row)]
        tell("docs/formats.md shows refusals", len(rows) >= 30, len(rows))
        for row in rows:
            *shown, line = spans(row.replace("\\|", "\0").split("|")[-2].replace("\0", "|"))
            kind = line.split()[1]
            with tempfile.TemporaryDirectory() as folder:
                changed = os.path.join(folder, "changed")
                source = certificate if kind in ("certificate", "check") else litmus
                text = bytes_of(source)
                if kind != "costs" and len(shown) >= 2:
                    new, old = map(part, shown[-2:])
                    tell(f"{old} stands once", text.count(old) == 1, row)
                    text = text.replace(old, new)
                write(changed, part(shown[0]) if kind == "costs" else text)
                words = {
                    "litmus": ["fencer", "outcomes", changed],
                    "costs": ["fencer", "place", "--costs", changed, litmus],
                    "replay": ["fencer", "replay", changed, *shown[0].split()],
                }.get(kind, ["fencecheck", litmus, changed])
                ran = subprocess.run([PROGRAMS[words[0]], *words[1:]], capture_output=True, timeout=120)
            found = ran.returncode, ran.stdout.decode()
            same(f"docs/formats.md: {line}", found, (1, line + "\n"))
