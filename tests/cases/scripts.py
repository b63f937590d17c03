"""Scripts: the programs as they are called at the top, which build runs, how an unproved one is made, and what is said of it.

The toolchain is a small imitation: its `rt try` calls its compiler twice, as a probe and with a sanitizer, and then runs the program. Its `rt ci` leaves
the programs where that of the toolchain leaves them.
"""
import contextlib
import os
import pty
import shutil
import signal
import stat
import subprocess
import tempfile
import time

from harness import EXAMPLES, PROGRAMS, TOP, Cases, Terminal, same, tell, without_front

SCRIPTS = ("fencer", "fencecheck", "build", "crates.txt", "HANDLES", ".ci/program", ".ci/unproved")
NOBODY = 65534
RT = '''#!/usr/bin/env python3
import os, shutil, signal, subprocess, sys, tempfile
kit, name = os.path.dirname(os.path.dirname(os.path.realpath(__file__))), os.path.basename(os.getcwd())
with open(os.environ["CALLS"], "a") as calls:
    calls.write(f"{sys.argv[1]}\\n")
if sys.argv[1] == "ci":
    subprocess.run(os.environ["BESIDE"], shell=True)
    for it in ("fencer", "fencecheck"):
        os.mkdir(f"crates/{it}/out")
        shutil.copy(f"{os.environ['BUILT']}/{it}", f"crates/{it}/out/{it}")
    sys.exit("REFUSED" in os.environ)
if os.environ.get("REFUSED") == name:
    sys.exit("error: no such type")
for number in (signal.SIGTERM, signal.SIGHUP, signal.SIGINT):
    signal.signal(number, lambda it, _: sys.exit(128 + it))
script = """
compiler=$1/toolchain/bin/clang; shift 3
if [ -e "$compiler" ]; then
    "$compiler" -Werror -c -x ir module.bc -o module.o -fPIE -O0 || exit 1
    "$compiler" -Werror -c -x ir module.bc -o module.o -fPIE -O0 -fsanitize=address || exit 1
fi
cp "$BUILT/$NAME" program && exec ./program "$@"
"""
with tempfile.TemporaryDirectory() as folder:
    tool = subprocess.Popen(["sh", "-c", script, "sh", kit, *sys.argv[1:]], cwd=folder, env={**os.environ, "NAME": name}, start_new_session=True)
    try:
        tool.wait()
    finally:
        os.killpg(tool.pid, signal.SIGKILL)
'''
CLANG = '''#!/bin/sh
echo "clang $*" >>"$CALLS"
if [ -n "${HANGS:-}" ]; then echo $$ >>"$HANGS"; sleep 300; fi
if [ "$NAME" = "${HELD:-}" ]; then until [ -e "$CALLS.go" ]; do sleep 0.02; done; fi
case " $* " in *" $FAULTY "*) exit 1 ;; esac
while [ $# -gt 1 ]; do
    [ "$1" != -o ] || output=$2
    shift
done
echo object >"$output"
'''
LINK = '''#!/bin/sh
echo "link $*" >>"$CALLS"
while [ "$1" != -o ]; do shift; done
name=${PWD##*/}
cp "$BUILT/${name%%.*}" "$2"
'''
WHY = "{0}: unproved, since the proved build is {1}; ./build makes it in half an hour to an hour on 4 processors\n"
MADE = "{0}: the unproved build takes 40 to 85 s with 4 idle processors, and is kept until the sources change; beside it that of {1} is made, if there is none\n"
WAITS = "{0}: waits for the unproved build, which another call makes\n"
STAGES = "{0}: translates the sources\n"
UNPROVED = "{0}: unproved build\n"


def write(path, text, mode=0o644):
    os.makedirs(os.path.dirname(path), exist_ok=True)
    with open(path, "w", encoding="utf-8") as file:
        file.write(text)
    os.chmod(path, mode)


def text_of(path):
    with contextlib.suppress(FileNotFoundError), open(path, encoding="utf-8") as file:
        return file.read()
    return ""


class Clone:
    """A repository of the scripts and the folders of two crates, a folder of a caller's, and a toolchain's."""

    def __init__(self, folder):
        self.folder = folder
        self.top, self.caller, self.kit, self.calls, self.work, self.built = (
            os.path.join(folder, it) for it in ("top", "caller", "kit", "calls", "work", "built")
        )
        for file in SCRIPTS:
            os.makedirs(os.path.dirname(os.path.join(self.top, file)), exist_ok=True)
            shutil.copy(os.path.join(TOP, file), os.path.join(self.top, file))
        for name in PROGRAMS:
            self.edit(name, 1_000)
        for it in (self.caller, self.work, self.built):
            os.mkdir(it)
        for name, program in PROGRAMS.items():
            os.symlink(program, os.path.join(self.built, name))
        shutil.copy(os.path.join(EXAMPLES, "SB.litmus"), self.caller)
        write(os.path.join(self.caller, "e0"), "X86 other\n")
        write(os.path.join(self.kit, "bin", "rt"), RT, 0o755)
        write(os.path.join(self.kit, "bin", "rattle-link"), LINK, 0o755)
        write(os.path.join(self.kit, "toolchain", "bin", "clang"), CLANG, 0o755)
        for file in ("bin/rtlib.py", "toolchain/lib/none", "c/libos_c.a", "rattle/none", "rlibs/none", "logic_built/none"):
            write(os.path.join(self.kit, file), "")

    def edit(self, name, seconds):
        """Gives the crate's source this time."""
        source = os.path.join(self.top, "crates", name, "src", "main.rt")
        write(source, "")
        os.utime(source, (seconds, seconds))

    def edit_proof(self, name, seconds):
        """Gives a file of the crate's proofs this time."""
        proof = os.path.join(self.top, "crates", name, "proofs", "Lib.antt")
        write(proof, "")
        os.utime(proof, (seconds, seconds))

    def proved(self, name):
        return os.path.join(self.top, "crates", name, "out", name)

    def unproved(self, name):
        return os.path.join(self.top, "crates", name, "out", "unproved", name)

    def put(self, name, seconds):
        """Puts a proved build there, of this time."""
        os.makedirs(os.path.dirname(self.proved(name)), exist_ok=True)
        shutil.copy(os.path.join(self.built, name), self.proved(name))
        os.utime(self.proved(name), (seconds, seconds))

    def start(self, name, *words, by=None, path=None, **more):
        given = {"CALLS": self.calls, "BUILT": self.built, "TMPDIR": self.work, "FAULTY": "none", "BESIDE": "", **more.pop("given", {})}
        environment = {**os.environ, **given}
        environment["PATH"] = path or os.path.join(self.kit, "bin") + os.pathsep + environment["PATH"]
        streams = {"stdin": subprocess.DEVNULL, "stdout": subprocess.PIPE, "stderr": subprocess.PIPE}
        return subprocess.Popen([by or os.path.join(self.top, name), *words], cwd=self.caller, env=environment, **{**streams, **more})

    def call(self, name, *words, **more):
        child = self.start(name, *words, **more)
        try:
            printed, said = child.communicate(timeout=60)
        finally:
            child.kill()
        return child.returncode, printed.decode(), (said or b"").decode()

    def tries(self):
        return text_of(self.calls).split("\n").count("try")

    def left(self):
        """What is left of a build in the folders that it uses, the kept builds apart."""
        kept = [it for name in PROGRAMS for it in (self.proved(name), self.unproved(name), self.unproved(name) + ".said")]
        found = [os.path.join(at, file) for top in (self.work, self.top) for at, _, files in os.walk(top) for file in files]
        return [it for it in found if (it.startswith(self.work) or "/out/" in it) and it not in kept]

    def ends(self):
        """Waits until no build is being made."""
        return wait_for(lambda: self.left() == [])


@contextlib.contextmanager
def cloned():
    with tempfile.TemporaryDirectory() as folder:
        clone = Clone(folder)
        yield clone
        clone.ends()


def wait_for(condition, seconds=20):
    end = time.monotonic() + seconds
    while not condition() and time.monotonic() < end:
        time.sleep(0.02)
    return condition()


def called_as_given(clone, kind):
    """Arguments reach the program as they are given, and files are those of the caller's folder."""
    run = (0, "outcome: 0:EAX=0; 1:EAX=0; x=1; y=1;\npassed 0:1 1:1\n", "")
    words = ["replay", "SB.litmus", "e0", "e1", "e0", "e1", "f0", "f1"]
    link = os.path.join(clone.caller, f"a link, {kind}")
    os.symlink(os.path.join(clone.top, "fencer"), link)
    certificate = os.path.join(clone.caller, f"{kind}.cert")

    def called(name, wanted, *words, **more):
        found = clone.call(*words, **more)
        tell(f"{name}, {kind}", found[:2] == wanted[:2] and found[2].startswith(wanted[2]), found, wanted)

    called("a label that is a file's name", run, "fencer", *words)
    called("a symbolic link", run, "fencer", *words, by=link)
    called("arguments with spaces", (1, "refused run 1 Token 0\n", ""), "fencer", "replay", "SB.litmus", "  *  ")
    status, found, _ = clone.call("fencer", "place", f"--certificate={kind}.cert", "SB.litmus")
    answered = status == 0 and found.startswith("answer cost 2 set 0:1 1:1\n")
    tell(f"an output file, {kind}", answered and os.path.exists(certificate), (status, found))
    called("the checker", (0, "accepted cost 2 set 0:1 1:1\n", ""), "fencecheck", "SB.litmus", f"{kind}.cert")


def called_at_a_terminal(clone):
    """At a terminal, without arguments, one line on standard error says that input is awaited."""
    for name in PROGRAMS:
        leader, terminal = pty.openpty()
        os.write(leader, b"\n\x04")
        status, _, said = clone.call(name, stdin=terminal)
        tell(f"{name} at a terminal", said.startswith(f"{name}: waits for its input; ./{name} --help says what it takes\n"), (status, said))
        for it in (leader, terminal):
            os.close(it)
        status, _, said = clone.call(name)
        tell(f"{name} with an input that is no terminal", "waits for its input" not in said, (status, said))


def said_on_a_terminal(clone):
    """What a call says on a terminal."""
    terminal = Terminal()
    clone.call("fencer", "outcomes", "SB.litmus", stderr=terminal.end)
    return terminal.said().decode()


class Scripts(Cases):
    def test_builds(self):
        """Which build runs, when one is made, and what is said then."""
        with cloned() as clone:
            made = WHY.format("fencer", "missing") + MADE.format("fencer", "fencecheck") + STAGES.format("fencer")
            status, _, said = clone.call("fencer", "--help")
            tell("an unproved build is made", status == 2 and said.startswith(made), (status, said))
            clone.ends()
            found = clone.call("fencecheck", "SB.litmus", "none.cert")
            tell("the other one is made beside it", found[2].startswith(UNPROVED.format("fencecheck")) and clone.tries() == 2, (clone.tries(), found))
            _, _, said = clone.call("fencer", "place", "SB.litmus")
            tell("a build that is kept says what it is", said == UNPROVED.format("fencer") and clone.tries() == 2, (clone.tries(), said))
            clone.edit_proof("fencer", 4_000_000_000)
            called_as_given(clone, "unproved")
            same("an unproved build is made once", clone.tries(), 2)
            for name in PROGRAMS:
                clone.put(name, 2_000)
            said = clone.call("fencer", "--version")[1]
            tell("a proved build is older than a changed proof", ", unproved, since the proved build is older than its sources" in said and clone.tries() == 2, said)
            clone.edit_proof("fencer", 1_000)
            called_as_given(clone, "proved")
            called_at_a_terminal(clone)
            clone.edit("fencer", 4_000_000_000)
            status, found, said = clone.call("fencer", "place", "SB.litmus")
            again = status == 0 and found.startswith("answer ") and said.startswith(WHY.format("fencer", "older than its sources"))
            tell("an unproved build is made anew after an edit", again and clone.tries() == 3, (clone.tries(), status, found, said))
            tell("nothing but the builds is kept", clone.ends(), clone.left())

    def test_both(self):
        """The first call of a program makes the builds of both, and has its answer before the other one is made; a call of that one waits."""
        for name, other, words in (("fencer", "fencecheck", ["place", "SB.litmus"]), ("fencecheck", "fencer", ["SB.litmus", "SB.cert"])):
            with cloned() as clone:
                shutil.copy(os.path.join(EXAMPLES, "SB.cert"), clone.caller)
                status, _, said = clone.call(name, *words, given={"HELD": other})
                tell(f"{name} answers first", status == 0 and MADE.format(name, other) in said and not os.path.exists(clone.unproved(other)), (status, said))
                waiting = clone.start(other, "--version")
                time.sleep(0.5)
                tell(f"{other} waits", waiting.poll() is None and clone.tries() == 2, (waiting.returncode, clone.tries()))
                write(clone.calls + ".go", "")
                found = waiting.communicate(timeout=60)[1].decode()
                same(f"what {other} says of it", found, WHY.format(other, "missing") + WAITS.format(other))
                same(f"{other} is made once", clone.tries(), 2)

    def test_beside(self):
        """What comes of the build that is made beside another: it fails, its sources change, or there is one."""
        with cloned() as clone:
            found = clone.call("fencer", "place", "SB.litmus", given={"REFUSED": "fencecheck"})
            tell("its fault changes no answer", found[0] == 0 and found[1].startswith("answer ") and "error" not in found[2], found)
            clone.ends()
            found = clone.call("fencecheck", "--help", given={"REFUSED": "fencecheck"})
            tell("its fault is said by its own call", found[0] == 2 and found[2].endswith("error: no such type\n") and clone.tries() == 3, (clone.tries(), found))
        with cloned() as clone:
            clone.call("fencer", "--help", given={"HELD": "fencecheck"})
            clone.edit("fencecheck", time.time())
            waiting = clone.start("fencecheck", "--help")
            write(clone.calls + ".go", "")
            found = waiting.communicate(timeout=60)[1].decode()
            tell("a change meanwhile is built anew", MADE.format("fencecheck", "fencer") in found and clone.tries() == 3, (clone.tries(), found))
        with cloned() as clone:
            clone.put("fencecheck", 2_000)
            clone.call("fencer", "--help")
            clone.ends()
            same("none is made beside a proved one", clone.tries(), 1)
        with cloned() as clone:
            clone.call("fencer", "--help", given={"HELD": "fencecheck", "REFUSED": "fencer"})
            tell("it ends where the first one fails", clone.ends() and not os.path.exists(clone.unproved("fencecheck")), clone.left())

    def test_compilation(self):
        """The compiler optimizes and leaves the sanitizer out, and the toolchain's two archives alone are linked."""
        with cloned() as clone:
            clone.put("fencecheck", 2_000)
            clone.call("fencer", "--help")
            lines = text_of(clone.calls).splitlines()
            same("a try, a probe, a compilation and a link", [line.split()[0] for line in lines], ["try", "clang", "clang", "link"])
            words = lines[2].split()
            tell("what is compiled is optimized", "-Os" in words and "-O0" not in words and "-fsanitize=address" not in words, words)
            linked = [word for word in lines[-1].split() if word.endswith((".a", ".o"))]
            same("what is linked", [os.path.basename(it) for it in linked], ["program.o", "libos_c.a", "liblibc_c.a"])

    def test_other_toolchains(self):
        """Where the toolchain looks different, or its compiler refuses, the program of `rt try` is kept; a fault of the sources is reported."""
        changes = {
            "without rtlib.py": lambda clone: os.remove(os.path.join(clone.kit, "bin", "rtlib.py")),
            "without a compiler": lambda clone: shutil.rmtree(os.path.join(clone.kit, "toolchain")),
            "without a linker": lambda clone: os.remove(os.path.join(clone.kit, "bin", "rattle-link")),
        }
        for kind, change in changes.items():
            with cloned() as clone:
                change(clone)
                called_as_given(clone, f"toolchain {kind}")
                tell(f"nothing is left, toolchain {kind}", clone.ends(), clone.left())
        with cloned() as clone:
            clone.call("fencer", "--help", given={"FAULTY": "-Os"})
            status, found, said = clone.call("fencer", "place", "SB.litmus")
            tell("a compiler that refuses the level", (status, said) == (0, UNPROVED.format("fencer")) and found.startswith("answer "), (status, found, said))
        with cloned() as clone:
            clone.put("fencecheck", 2_000)
            status, found, said = clone.call("fencer", "place", "SB.litmus", given={"REFUSED": "fencer"})
            tell("sources with a fault", (status, found) == (2, "") and said.endswith("error: no such type\n"), (status, found, said))
            tell("nothing is kept of sources with a fault", clone.ends() and clone.tries() == 1, (clone.left(), clone.tries()))

    def test_versions(self):
        """The version says whether the build is proved."""
        with cloned() as clone:
            unproved = without_front(WHY.format("fencer", "missing"), "fencer: ")
            os.remove(os.path.join(clone.built, "fencer"))
            write(os.path.join(clone.built, "fencer"), '#!/bin/sh\necho "fencer 0.1.0"\nexit 2\n', 0o755)
            clone.call("fencer", "--help")
            found = clone.call("fencer", "--version")
            same("the version of an unproved build", found, (2, f"fencer 0.1.0, {unproved}", ""))
            clone.put("fencer", 2_000)
            found = clone.call("fencer", "--version")
            same("the version of a proved build", found, (2, "fencer 0.1.0, proved\n", ""))

    def test_no_toolchain(self):
        """Without `rt` on the path a message says what to install, unless a build is there."""
        with cloned() as clone:
            tools = os.path.join(clone.folder, "tools")
            os.mkdir(tools)
            for tool in ("bash", "env", "dirname", "realpath", "find"):
                os.symlink(shutil.which(tool), os.path.join(tools, tool))
            missing = (
                ": rt is not on the path; it compiles and proves the programs. Install the toolchain that README.md names and add its folder bin to PATH."
                " It is not published with this repository; without it you need a package that someone with it made by ./package\n"
            )
            for name, *words in (("fencer", "--help"), ("fencecheck", "--help"), ("build",)):
                found = clone.call(name, *words, path=tools)
                same(f"{name} without rt", found, (2, "", name + missing))
            clone.put("fencer", 2_000)
            status, found, said = clone.call("fencer", "place", "SB.litmus", path=tools)
            tell("a proved build without rt", (status, said) == (0, "") and found.startswith("answer "), (status, found, said))

    def test_proved_builds(self):
        """`build` has the two programs and the crates below them proved in a copy of these alone, and takes what that leaves."""
        with cloned() as clone:
            write(os.path.join(clone.top, "crates.txt"), "# crates\nlow:\nfencer may_wait=1: low thiserror\nfencecheck:\ntests: fencer\n")
            for file in ("low/specs/Lib.antt", "low/must-fail/low.edit", "low/out/low.o", "fencer/data/text", "tests/src/lib.rt"):
                write(os.path.join(clone.top, "crates", file), "")
            listing = 'pwd; find . -type f ! -name calls | sort >"$CALLS"; sort crates.txt >>"$CALLS"'
            status, found, said = clone.call("build", given={"BESIDE": listing})
            tell("build", (status, said) == (0, "") and found.endswith("fencer and fencecheck are proved and built\n"), (status, found, said))
            files = ["HANDLES", "crates.txt", "crates/fencecheck/src/main.rt", "crates/fencer/data/text", "crates/fencer/src/main.rt", "crates/low/specs/Lib.antt"]
            lines = ["fencecheck:", "fencer may_wait=1: low thiserror", "low:"]
            same("what is proved", text_of(clone.calls).split("\n")[:-1], [f"./{it}" for it in files] + lines)
            copy = found.split("\n")[0]
            tell("the copy is gone", copy.startswith(clone.work) and not os.path.exists(copy), copy)
            called_as_given(clone, "proved by build")
            shutil.rmtree(os.path.join(clone.top, "crates", "low", "out"))
            for name, given, wanted in (
                ("refused", {"REFUSED": "ci"}, (1, "")),
                ("changed meanwhile", {"BESIDE": f"touch {clone.top}/crates/low/specs/Lib.antt"}, (1, "build: sources of fencer changed meanwhile; run ./build again\n")),
            ):
                clone.edit("fencer", time.time())
                status, found, said = clone.call("build", given=given)
                same(f"build of what is {name}", (status, said), wanted)
                version = clone.call("fencer", "--version", given={"REFUSED": "fencer"})
                tell(f"no proved build of what is {name}", "older than its sources" in version[2], version)
                tell(f"nothing is left of what is {name}", clone.ends(), clone.left())

    def test_build_arguments(self):
        """An argument of `build` gets its usage, and nothing is proved."""
        with cloned() as clone:
            status, found, said = clone.call("build", "--help")
            tell("build --help", (status, found, clone.tries()) == (2, "", 0) and said.startswith("usage: build"), (status, found, said))

    def test_interrupted(self):
        """Builds that are interrupted leave no file and no process."""
        # A caller may ignore these, as nohup does, and a child would inherit that.
        signal.signal(signal.SIGINT, signal.default_int_handler)
        signal.signal(signal.SIGTERM, signal.SIG_DFL)
        signal.signal(signal.SIGHUP, signal.SIG_DFL)
        for number in (signal.SIGINT, signal.SIGTERM, signal.SIGHUP, signal.SIGKILL):
            with cloned() as clone:
                hanging = os.path.join(clone.folder, "hanging")
                child = clone.start("fencer", "place", "SB.litmus", given={"HANGS": hanging}, start_new_session=True)
                started = wait_for(lambda: text_of(hanging).count("\n") == len(PROGRAMS))
                if number == signal.SIGINT:
                    os.killpg(child.pid, number)
                else:
                    child.send_signal(number)
                child.communicate(timeout=60)
                compilers = [f"/proc/{it}" for it in text_of(hanging).split()]
                name = f"a build that is interrupted by {number.name}"
                tell(f"{name} has begun and ends", started and child.returncode != 0, child.returncode)
                tell(f"{name} leaves no process", wait_for(lambda: not any(map(os.path.exists, compilers))), compilers)
                tell(f"{name} leaves no file", wait_for(lambda: os.listdir(clone.work) == [] and clone.left() == []), clone.left())

    def test_other_user(self):
        """The kept build can be run by another user, whatever the mask of the one who made it."""
        another = {"user": NOBODY, "group": NOBODY, "extra_groups": []}
        with cloned() as clone:
            subprocess.run(["chmod", "-R", "go+rX", clone.folder], check=True)
            clone.call("fencer", "--help", umask=0o077)
            for path in (clone.unproved("fencer"), os.path.dirname(clone.unproved("fencer")), os.path.dirname(clone.proved("fencer"))):
                mode = stat.S_IMODE(os.stat(path).st_mode)
                tell(f"others may use {os.path.basename(path)}", mode & 0o055 == 0o055, oct(mode))
            if os.getuid() == 0 and subprocess.run(["test", "-x", clone.top], **another).returncode == 0:
                found = clone.call("fencer", "outcomes", "SB.litmus", **another)
                tell("another user runs the build", (found[0], found[2]) == (0, UNPROVED.format("fencer")), found)

    def test_progress(self):
        """On a terminal one line counts the seconds, and is taken away."""
        with cloned() as clone:
            terminal = Terminal()
            clone.call("fencer", "--help", stderr=terminal.end)
            said = terminal.said().decode()
            shown = "\rfencer: translates the sources, " in said and said.rstrip().endswith("\r\033[Kfencer: unproved build")
            tell("the progress on a terminal", shown, said)

    def test_once_a_day(self):
        """On a terminal it is said once a day that a build is unproved, and again where the build is made anew."""
        with cloned() as clone:
            clone.call("fencer", "--help")
            same("what is said first on a terminal", said_on_a_terminal(clone), "fencer: unproved build\r\n")
            same("what is said again on that day", said_on_a_terminal(clone), "")
            same("what is said where it is no terminal", clone.call("fencer", "place", "SB.litmus")[2], UNPROVED.format("fencer"))
            write(clone.unproved("fencer") + ".said", "2001-02-03\n")
            same("what is said on another day", said_on_a_terminal(clone), "fencer: unproved build\r\n")
            os.utime(clone.unproved("fencer") + ".said", (1_000, 1_000))
            same("what is said of a build that is made anew", said_on_a_terminal(clone), "fencer: unproved build\r\n")

