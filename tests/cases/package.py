"""Package: the archive of `./package`, made from the proved builds, unpacked where neither the toolchain nor the repository is, and installed from there."""
import os
import re
import shutil
import subprocess
import tarfile
import tempfile

from cases import scripts
from harness import EXAMPLES, TOP, Cases, same, tell

NAME = "fencer-0.1.0-x86_64-linux"
PATH = "/usr/bin:/bin"
COMPLETED = {
    "fencer pl": {"place"},
    "fencer --ver": {"--version"},
    "fencer place --cer": {"--certificate"},
    "fencer outcomes --model s": {"sequential"},
    "fencer outcomes --ru": {"--runs"},
    "fencer place examples/S": {"examples/SB.litmus"},
    "fencer place exam": {"examples"},
}


def repository(folder):
    """A clone with what the package is made of."""
    clone = scripts.Clone(folder)
    shutil.copy(os.path.join(TOP, "package"), clone.top)
    for name in (".ci/package", "docs", "examples"):
        shutil.copytree(os.path.join(TOP, name), os.path.join(clone.top, name))
    return clone


def ran(words, folder, **given):
    """What a command prints in a folder, with neither the toolchain nor the repository on its path."""
    environment = {"PATH": PATH, "HOME": folder, "LC_ALL": "C.UTF-8", **given}
    found = subprocess.run(words, cwd=folder, env=environment, stdin=subprocess.DEVNULL, capture_output=True, timeout=60)
    return found.returncode, found.stdout.decode(), found.stderr.decode()


def without_builds(clone):
    """Without a proved build of each program there is no package."""
    said = "package: the proved build of {} is missing or older than its sources; ./build or .ci/run makes it\n"
    found = clone.call("package")
    same("no proved build", found, (1, "", said.format("fencer")))
    clone.put("fencer", 2_000)
    found = clone.call("package")
    same("one proved build", found, (1, "", said.format("fencecheck")))
    clone.put("fencecheck", 500)
    found = clone.call("package")
    same("an old proved build", found, (1, "", said.format("fencecheck")))
    tell("no package is made without proved builds", not os.path.exists(os.path.join(clone.top, "out")))
    clone.put("fencecheck", 2_000)


def unpacked(folder):
    """The programs answer as the README says, and their documents are there."""
    readme = scripts.text_of(os.path.join(folder, "README.md"))
    tell("nothing is left open in the package's README", "@" not in readme, readme)
    shown = re.findall(r"^    (\./.*)$", readme, flags=re.M)
    answers = [ran(["bash", "-c", line], folder) for line in shown]
    firsts = [(status, text.split("\n")[0], said) for status, text, said in answers]
    same("what the package's README shows", firsts, [(0, "answer cost 2 set 0:1 1:1", ""), (0, "accepted cost 2 set 0:1 1:1", "")])
    named = re.findall(r"`((?:docs|examples)/[\w.]+)`", readme)
    there = all(os.path.exists(os.path.join(folder, it)) for it in named)
    tell("the documents that the package's README names", len(named) >= 5 and there, named)
    found = os.path.join(folder, "docs")
    others = [it for it in sorted(os.listdir(found)) if os.path.isfile(os.path.join(found, it)) and not it.endswith((".md", ".svg", ".json"))]
    same("the scripts among the package's documents", others, [])
    for example in sorted(os.listdir(EXAMPLES)):
        tell(f"the package has examples/{example}", os.path.exists(os.path.join(folder, "examples", example)))


def installed(folder, home):
    """The line of the README puts the programs, the manual pages and the completions in place."""
    line = re.search(r"^    (mkdir .*)$", scripts.text_of(os.path.join(folder, "README.md")), flags=re.M)[1]
    found = ran(["bash", "-c", line], folder, HOME=home)
    same("the package is installed", found, (0, "", ""))
    local = os.path.join(home, ".local")
    found = ran(["fencer", "place", os.path.join(folder, "examples", "n6.litmus")], home, PATH=os.path.join(local, "bin") + ":" + PATH)
    same("the installed program", (found[0], found[1].split("\n")[0], found[2]), (0, "answer cost 1 set 0:1", ""))
    pages = sorted(os.listdir(os.path.join(local, "share", "man", "man1")))
    tell("a manual page for each command", {"fencer.1", "fencecheck.1", "fencer-place.1", "fencer-why.1"} <= set(pages), pages)
    if shutil.which("groff", path=PATH):
        for page in pages:
            manual_page(os.path.join(local, "share", "man", "man1", page), home, os.path.join(local, "bin"))
    completion = os.path.join(local, "share", "bash-completion", "completions", "fencer")
    for typed, wanted in COMPLETED.items():
        same(f"completion of {typed}", completed(completion, typed, folder), wanted)


def manual_page(page, home, programs):
    """A manual page is laid out without a warning, and has each word of the help in order."""
    status, text, said = ran(["groff", "-man", "-Tascii", "-P-cbou", "-ww", "-rHY=0", "-rLL=1000n", page], home)
    tell(f"{os.path.basename(page)} is laid out", (status, said) == (0, ""), said)
    words = os.path.basename(page)[:-len(".1")].split("-", 1)
    _, helped, _ = ran([os.path.join(programs, words[0]), *words[1:], "--help"], home)
    rows = re.findall(r"^ +(\S.*?)(?: {2,}(.*))?$", helped, flags=re.M)
    wanted = [part for row in rows for part in row if part]
    lacking = [it for it in wanted if " ".join(it.split()) not in " ".join(text.split())]
    tell(f"{os.path.basename(page)} has the rows of the help", not lacking, (lacking, text))


def completed(completion, typed, folder):
    """What bash offers for a line that has been typed up to here."""
    script = f"""source {completion}
COMP_WORDS=({typed}) COMP_CWORD=$((${{#COMP_WORDS[@]}} - 1))
_fencer fencer "${{COMP_WORDS[-1]}}" "${{COMP_WORDS[-2]}}"
printf '%s\\n' "${{COMPREPLY[@]}}" """
    _, found, said = ran(["bash", "-u", "-c", script], folder)
    return set(found.split()) | set(said.split())


class Package(Cases):
    def test_package(self):
        """The package is made of proved builds alone, and its programs, documents, manual pages and completions are there."""
        with tempfile.TemporaryDirectory() as folder:
            clone = repository(folder)
            without_builds(clone)
            status, found, said = clone.call("package")
            archive = os.path.join(clone.top, "out", f"{NAME}.tar.gz")
            made = status == 0 and found.startswith(f"out/{NAME}.tar.gz, ") and os.path.exists(archive)
            tell("the package is made", made, (status, found, said))
            if made:
                self.judge_archive(clone, archive)

    def judge_archive(self, clone, archive):
        """Unpacks an archive where the repository is not any more."""
        with tempfile.TemporaryDirectory() as elsewhere, tarfile.open(archive) as packed:
            names = packed.getnames()
            tell("all of the package is in one folder", all(it == NAME or it.startswith(NAME + "/") for it in names), names)
            packed.extractall(elsewhere)
            shutil.rmtree(clone.top)
            unpacked(os.path.join(elsewhere, NAME))
            installed(os.path.join(elsewhere, NAME), os.path.join(elsewhere, "home"))
