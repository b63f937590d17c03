"""Checks a crate with edits in it: the functions that they change and those that these call, and then, where these pass, the whole crate.

A function that the prover refuses in such a check it refuses in a check of the whole crate too. An edit outside `src/`, or of a contract, has the check
of the whole crate alone. The crate must be proved as it stands, and the libraries below it must be built: `rt ci` does both.

A proof of a function rests on the contracts of those that it calls and not on their bodies. So edits of several functions are checked together: each is
refused by what the prover says of its own function. One of which it says less is checked once more, with fewer beside it or alone.
"""
import os
import re
import subprocess

from . import edit_texts

REFUSED, AT_A_LIMIT, SAYS_LITTLE, NOT_REFUSED, BAD, NOT_TRIED = "refused", "refused at a limit", "says little", "not refused", "bad", "not tried"
FUNCTION = re.compile(r"( *)(?:pub(?:\([^)]*\))? )?(?:const |unsafe )*fn (\w+)")
PLACE = re.compile(r"(?:note: )?(?:\./)?(\S+?):(\d+):\d+:")
REFUSED_BY_ITSELF = re.compile(r"fn \w+::(\S+): not proved")
ERROR = re.compile(r"(?:\./)?(\S+?):\d+:\d+: error: (?:(`[^`]*`): )?(.*)")
NOT_READ = re.compile(r"is not in scope|has no field|is no name|operand is missing|expected the end|cannot continue")
NAMES_WHAT_WENT = re.compile(r"(note: )?(\./)?proofs/.*(has no field|is not in scope|has no `|was not admitted)")
LIMIT = re.compile(r"antt ran out of (stack|the (steps|memory) that the check of one declaration may (take|use))|(outgrew the memory limit|stopped at the step limit) \(")
STALE = re.compile(r"module .Rattle-\w+-.*Run the lower steps again")
ONLY = re.compile(r"only=(\d+) proved=(\d+)")
CONTRACT = re.compile(r"\s*(ensures|requires|ghost)\b")


def type_of(line):
    """The type that a line `impl ..` gives methods to, or no text where they are of a trait or the line is another."""
    was, now = "", line
    while was != now:
        was, now = now, re.sub(r"<[^<>]*>", "", now)
    found = re.match(r"impl (\w+)(?!.* for )", now)
    return found[1] if found else ""


def path_around(file, text, at):
    """The end of the path of the function that a place of a source file lies in, or its module where it is of a trait; no text outside functions."""
    module = "".join(part + "::" for part in file[len("src/"):-len(".rt")].split("/") if part not in ("lib", "main", "mod"))
    lines = text[:text.index("\n", at)].split("\n")[::-1]
    head = next(filter(None, map(FUNCTION.match, lines)), None)
    if not head or not head[1]:
        return module + head[2] if head else ""
    owner = type_of(next((line for line in lines if line.startswith("impl")), ""))
    return f"{owner}::{head[2]}" if owner else module[:-2]


def body_around(file, text, old, new):
    """The end of the path of the function in whose body an edit makes another text of an old one; no text where it is elsewhere, or of a contract."""
    if not file.startswith("src/") or old not in text:
        return ""
    at = text.index(old)
    lines = text[text.rfind("\n", 0, at) + 1:text.index("\n", at)], new
    return "" if any(map(CONTRACT.match, lines)) else path_around(file, text, at)


def paths_of(crate, pairs):
    """The functions whose bodies an edit changes, or none where a part of it is elsewhere."""
    paths = {body_around(file, edit_texts.read_text(os.path.join(crate, file)), old, new) for file, old, new in pairs}
    return [] if "" in paths else sorted(paths)


def is_unread(line, changed):
    """Whether the prover could not read a text of the crate, where an edit that makes a statement false reads well. changed: the files of the edit."""
    at = ERROR.match(line)
    if not at or at[1] not in changed and not at[1].startswith(("src/", "specs/")):
        return False
    return not at[2] or bool(NOT_READ.search(re.sub(r"`[^`]*`", "", at[3])))


def refusal_of(lines):
    """What a refusal says, and its first line that does not merely name what the edit took away."""
    told = [line for line in lines if PLACE.match(line)]
    told = [line for line in told if ": error" in line or line.startswith("note: ")] or told
    first = next((line for line in told if not NAMES_WHAT_WENT.match(line)), "")
    return (SAYS_LITTLE, told[0]) if told and not first else (REFUSED, first)


def answer_of(status, lines, changed):
    """What a check with an edit comes to, and the line that says so."""
    asked = ONLY.fullmatch(lines[-1])
    stale = next((line for line in lines if STALE.search(line)), "")
    if stale:
        return NOT_TRIED, stale
    if status == 0 or asked and asked[1] == asked[2]:
        return NOT_REFUSED, lines[-1]
    unread = next((line for line in lines if is_unread(line, changed) or re.search(r"\berror\[[\w-]+\]", line)), "")
    if status == 1 and unread:
        return BAD, unread
    if status == 1 and (asked or lines[-1].startswith("logic=not-proved")):
        return refusal_of(lines)
    limit = next((line for line in lines if LIMIT.search(line)), "")
    return (AT_A_LIMIT, limit) if status == 3 and limit else (NOT_TRIED, " ".join(lines[-3:]))


def function_at(crate, line):
    """The end of the path of the function that a line of a check speaks of, by a place in its body or its proof."""
    at = PLACE.match(line)
    if not at or not at[1].startswith(("src/", "proofs/")):
        return ""
    if at[1].startswith("proofs/"):
        return os.path.dirname(at[1])[len("proofs/"):].replace("/", "::")
    text = edit_texts.read_text(os.path.join(crate, at[1]))
    return path_around(at[1], text, len("\n".join(text.split("\n")[:int(at[2]) - 1])) + 1)


def refusals(crate, lines, paths):
    """What a check says of each of these paths of functions that it refuses by itself: its first line, where that does not merely name what went."""
    names = [found[1] for found in map(REFUSED_BY_ITSELF.fullmatch, lines) if found]
    spoken_of = [(line, function_at(crate, line)) for line in lines]
    found = {}
    for path in (it for it in paths if any(f"::{name}".endswith(f"::{it}") for name in names)):
        answer, first = refusal_of([line for line, function in spoken_of if f"::{function}".endswith(f"::{path}")])
        if first and answer == REFUSED:
            found[path] = first
    return found


class Checks:
    """Checks of the crates of a copy of the repository, over the libraries that stand in it."""

    def __init__(self, room, uses):
        """uses: of each crate those of the repository and of the toolchain that it names."""
        self.room, self.uses = room, uses
        self.kit = os.path.dirname(subprocess.run(["rt", "doc"], check=True, capture_output=True, text=True).stdout.strip())

    def folder(self, crate):
        return os.path.join(self.room, "crates", crate)

    def below(self, crate):
        """The crates of the repository that a crate stands on."""
        named = [it for it in self.uses[crate] if it in self.uses]
        return sorted(set(named).union(*map(self.below, named)))

    def size(self, crate):
        """How many bytes the files of a crate have."""
        return sum(os.path.getsize(os.path.join(at, file)) for at, _, files in os.walk(self.folder(crate)) for file in files)

    def command(self, crate):
        """The check of a crate, as `rattle check --help` describes it."""
        library = {it: os.path.join(self.folder(it), "out", "rlib") for it in self.below(crate)}
        built = {it: os.path.join(library.get(it, os.path.join(self.kit, "rlibs")), it + ".rlib") for it in ["std", *self.uses[crate]]}
        root = "src/main.rt" if os.path.exists(os.path.join(self.folder(crate), "src", "main.rt")) else "src/lib.rt"
        words = ["rattle", "check", "--crate-name", crate, root, "--jobs", "1", "--incremental", os.path.join("out", "incremental")]
        words += [word for name, place in built.items() for word in ("--extern", f"{name}={place}")]
        words += [word for place in [os.path.join(self.kit, "rlibs"), *library.values()] for word in ("-L", f"dependency={place}")]
        return words + ["--antt-project", os.path.join(self.kit, "rattle", "logic", "antt-project.json"), "--logic-built", os.path.join(self.kit, "logic_built")]

    def ran(self, crate, paths):
        """The status and the lines of a check of these functions, or of the whole crate for none, over what earlier ones kept."""
        words = self.command(crate) + [word for path in paths for word in ("--only", path)]
        os.makedirs(os.path.join(self.folder(crate), "out", "incremental"), exist_ok=True)
        ran = subprocess.run(words, cwd=self.folder(crate), stdin=subprocess.DEVNULL, stdout=subprocess.PIPE, stderr=subprocess.STDOUT, text=True, errors="replace")
        return ran.returncode, ran.stdout.rstrip("\n").split("\n")

    def answer(self, crate, pairs, paths):
        """What such a check with an edit comes to, and the line that says so."""
        return answer_of(*self.ran(crate, paths), {file for file, _, _ in pairs})

    def beside(self, crate, edits):
        """Of these edits, by their names, as many as change functions of their own, with the paths of these; and the pairs of all of them."""
        chosen, pairs = {}, []
        for name, own in edits.items():
            paths = [] if edit_texts.fault_of(self.folder(crate), pairs + own) else paths_of(self.folder(crate), own)
            if paths and not any(set(paths).intersection(others) for others in chosen.values()):
                chosen[name], pairs = paths, pairs + own
        return chosen, pairs

    def refused_together(self, crate, edits):
        """The edits that the prover refuses each by itself where it checks them together, by their names, with the line that says so."""
        chosen, pairs = self.beside(crate, edits)
        if len(chosen) < 2:
            return {}
        paths = sorted({path for paths in chosen.values() for path in paths})
        with edit_texts.applied(self.folder(crate), pairs):
            status, lines = self.ran(crate, paths)
            found = refusals(self.folder(crate), lines, paths)
        if status != 1 or any(STALE.search(line) or is_unread(line, {file for file, _, _ in pairs}) for line in lines):
            return {}
        return {name: found[path] for name, paths in chosen.items() for path in paths[:1] if path in found}

    def try_all(self, crate, edits):
        """Of each of these edits, by its name, what the crate comes to with it, and the line that says so."""
        left = dict(edits)
        while refused := self.refused_together(crate, left):
            yield from ((name, REFUSED, line) for name, line in refused.items())
            left = {name: pairs for name, pairs in left.items() if name not in refused}
        for name, pairs in left.items():
            yield (name, *self.try_pairs(crate, pairs))

    def try_pairs(self, crate, pairs):
        """What the crate comes to with an edit, and the line that says so. The crate is then as it was."""
        fault = edit_texts.fault_of(self.folder(crate), pairs)
        if fault:
            return BAD, fault
        paths = paths_of(self.folder(crate), pairs)
        with edit_texts.applied(self.folder(crate), pairs):
            answer, line = self.answer(crate, pairs, paths) if paths else (NOT_TRIED, "")
            return (answer, line) if answer in (REFUSED, AT_A_LIMIT, BAD) else self.answer(crate, pairs, [])
