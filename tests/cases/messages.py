"""Messages: what the programs say on standard error: with an answer what may be a slip and what sequential runs decide, and one line for people after each line
of a refusal."""
import json
import os
import re
import subprocess
import tempfile

from harness import EXAMPLES, LIMIT, PROGRAMS, Cases, Terminal, example, example_files, lines, said_by, same, schemas, tell, text_of, write
from judges import documents

FILES = ("SB.litmus", "SB.cert", "n6.litmus")
ROW = "MOV [x],$1 |  ;\n"
# how a sequential run is seen that breaks the condition of the text on standard input
SEEN = {
    "exists": "",
    "~exists": "fencer: `fencer witness --model sequential -` shows such a run, and with --html FILE a page of it\n",
    "forall": "fencer: `fencer witness --model sequential --not -` shows such a run, and with --html FILE a page of it\n",
}
# what is said where a sequential run decides the condition, with the formula in the middle
FAILS = {
    "exists": "fencer: what the condition asks about (%s) happens without store buffers too\n",
    "~exists": "fencer: what must not happen (%s) happens without store buffers too: no fence mends it\n" + SEEN["~exists"],
    "forall": "fencer: what must always hold (%s) fails without store buffers too: no fence mends it\n" + SEEN["forall"],
}
ALONE = "is a location that stands nowhere else: did you mean"
# three names of locations, of which the second and the third are stored to once; where the message is, and what it says
NEAR_NAMES = (
    ("turn tunr f", "7:6", f"tunr {ALONE} turn?"),
    ("turn turnn f", "7:6", f"turnn {ALONE} turn?"),
    ("turn urn f", "7:6", f"urn {ALONE} turn?"),
    ("turn f tirn", "8:6", f"tirn {ALONE} turn?"),
    ("in f inn", "8:6", f"inn {ALONE} in?"),
    ("turn turn0 turn1", "", ""),
    ("turn TURN f", "", ""),
    ("turn tnru trun0", "", ""),
    ("x y z", "", ""),
    ("in is f", "", ""),
)
# arguments of `fencecheck` that name no litmus file with its certificate, and what is said of them
MISUSES = (
    ("SB.litmus", "the certificate is missing"),
    ("-", "the certificate is missing"),
    ("--costs", "--costs is no option; the cost file is the third argument"),
    ("--costs x SB.litmus SB.cert", "--costs is no option; the cost file is the third argument"),
    ("SB.litmus SB.cert --costs=x y", "--costs=x is no option; the cost file is the third argument"),
    ("SB.litmus SB.cert x y", "there are more than three arguments"),
)
# arguments of `fencer` that are no command, and what they may mean
HINTS = (
    ("SB.litmus", "place SB.litmus"),
    ("SB.litmus --json", "place SB.litmus"),
    ("-", "place -"),
    ("-V", "--version"),
    ("version", "--version"),
    ("help", "--help"),
    ("help place", "place --help"),
    ("help me", "--help"),
    ("frobnicate", ""),
    ("place SB.litmus MP.litmus", ""),
    ("outcomes -V", ""),
)
# arguments with `--fences` that are no command, and what is said of them
TAKES_NONE = "takes no --fences: `fencer outcomes --fences` lists the outcomes with such fences, and `fencer witness --fences` shows a run"
FENCE_HINTS = (
    (("outcomes", "--fences", "0:2 1:2", "SB.litmus"), "did you mean `--fences 0:2,1:2`?"),
    (("witness", "--fences=0:2, 1:2", "SB.litmus"), "did you mean `--fences 0:2,1:2`?"),
    (("witness", "--fences", "0:2", "1:2", "SB.litmus"), "did you mean `--fences 0:2,1:2`?"),
    (("outcomes", "--fences", "0:1,", "1:1", "2:1", "SB.litmus"), "did you mean `--fences 0:1,1:1,2:1`?"),
    (("place", "--fences", "0:1", "SB.litmus"), f"place {TAKES_NONE}"),
    (("why", "--condition", "--fences=0:1", "SB.litmus"), f"why {TAKES_NONE}"),
    (("outcomes", "--fences", "x", "SB.litmus"), ""),
    (("outcomes", "--fences", "0:1,0:1", "SB.litmus"), ""),
    (("outcomes", "--fences"), ""),
    (("outcomes", "--fences", "SB.litmus"), "SB.litmus is taken for the gaps of --fences, which stand before it, as `--fences 0:1,1:1 SB.litmus`"),
    (("witness", "--json", "--fences", "-"), "- is taken for the gaps of --fences, which stand before it, as `--fences 0:1,1:1 -`"),
    (("outcomes", "--fences=SB.litmus"), ""),
    (("outcomes", "--fences", "0.1", "SB.litmus"), ""),
    (("survey", "--fences", "SB.litmus"), "`--fences` is an option of outcomes and witness"),
)
# arguments of commands with an option that only others take, and what is said of them
OPTION_HINTS = (
    (("place", "--html", "x", "SB.litmus"), "`--html` is an option of trace, why and witness"),
    (("outcomes", "SB.litmus", "--dot=x"), "`--dot` is an option of trace, why and witness"),
    (("survey", "--check", "SB.litmus"), "`--check` is an option of outcomes, place and witness"),
    (("why", "--json", "--certificate", "x", "--insert", "y", "SB.litmus"), "`--certificate` is an option of place"),
    (("place", "--cert", "x", "SB.litmus"), ""),
    (("place", "--observed", "--condition", "SB.litmus"), ""),
    (("fast", "--html", "x", "SB.litmus"), ""),
)
NEVER, ALWAYS = "stands before any CMP of its thread: it never jumps", "stands before any CMP of its thread: it always jumps"
UNWRITTEN = "is compared, and nothing of its thread writes it: it holds 0"
# the kinds of the notes of a text, what stands in it in place of what, and its condition
NOTES = (
    ("", "", "", "exists (0:EAX=0 /\\ 1:EAX=0)"),
    ("", "", "", "~exists (0:EAX=0 /\\ 1:EAX=0)"),
    ("", "", "", "forall (0:EAX=1 \\/ 1:EAX=1)"),
    ("happens_sequentially", "", "", "exists (0:EAX=0)"),
    ("no_fence_mends", "", "", "~exists (0:EAX=0)"),
    ("no_fence_mends", "", "", "forall (0:EAX=1)"),
    ("unused_name", "", "", "~exists (aa=1)"),
    ("no_fence_mends unused_name", "", "", "~exists (aa=0)"),
    ("jump_before_cmp", "MOV EAX,[y] | MOV EAX,[x] ;", "MOV EAX,[y] | MOV EAX,[x] ;\nJE END | ;\nEND: | ;", "~exists (0:EAX=0 /\\ 1:EAX=0)"),
    ("no_fence_mends unwritten_register", "MOV EAX,[y] | MOV EAX,[x] ;", "MOV EAX,[y] | MOV EAX,[x] ;\nCMP EBX,$0 | ;", "~exists (1:EAX=0)"),
    ("unwritten_location", "MOV EAX,[y] | MOV EAX,[x] ;", "MOV EAX,[y] | MOV EAX,[x] ;\n | MOV EBX,[z] ;", "~exists (0:EAX=0 /\\ 1:EAX=0)"),
    ("lone_name", "MOV EAX,[y] | MOV EAX,[x] ;", "MOV EAX,[y] | MOV EAX,[x] ;\nMOV [turn],$1 | MOV EBX,[turn] ;\n | MOV [tunr],$1 ;", "~exists (0:EAX=0 /\\ 1:EAX=0)"),
)
UNREAD = "is read, and nothing writes it: it holds 0"
# a store that is always jumped over, and what is said of it where the condition's truth is compared
PASSED = "A: JNE END | ;\nMOV [x],$2 | ;\nEND: | ;"
UNEXECUTED = "fencer: <stdin>: no sequential run executes line 6 of P0 (its instruction 2): the condition may fail for that reason alone\n"
# initial values, and rows from line 5 on, after thread 0 stored to x and thread 1 loaded it into EAX; where the message is, and what it says
SLIPS = (
    ("", "JE END | ;\nEND: | ;", "5:1", f"JE {NEVER}"),
    ("", " | jne END ;\n | END: ;", "5:4", f"jne {ALWAYS}"),
    ("", PASSED, "5:4", f"JNE {ALWAYS}"),
    ("", "MOV EAX,$1 | JNE END ;\nCMP EAX,$1 | END: ;", "5:14", f"JNE {ALWAYS}"),
    ("", " | JE END ;\n | END: CMP EAX,$1 ;", "5:4", f"JE {NEVER}"),
    ("", " | CMP EAX,$1 ;\n | JE END ;\n | END: ;", "", ""),
    ("", " | JMP END ;\n | END: ;", "", ""),
    ("", " | CMP ESI,$0 ;", "5:8", f"ESI {UNWRITTEN}"),
    ("", " | CMP EAX,edi ;", "5:12", f"edi {UNWRITTEN}"),
    ("", "CMP EBX,ECX | ;", "5:5", f"EBX {UNWRITTEN}"),
    ("1:ESI=0", " | CMP ESI,$0 ;", "", ""),
    ("0:ESI=1", " | CMP ESI,$0 ;", "5:8", f"ESI {UNWRITTEN}"),
    ("", "MOV ESI,$1 | CMP ESI,$0 ;", "5:18", f"ESI {UNWRITTEN}"),
    ("", " | CMP ESI,$0 ;\n | MOV ESI,$1 ;", "", ""),
    ("", " | MOV ESI,EAX ;\n | CMP ESI,$0 ;", "", ""),
    ("", " | XCHG [x],ESI ;\n | CMP ESI,EAX ;", "", ""),
    ("", "CMP ESI,$0 | JE END ;\n | END: ;", "5:14", f"JE {NEVER}"),
    ("", " | A: MOV EBX,[z] ;", "5:16", f"z {UNREAD}"),
    ("", "MOV EBX,[z] | MOV EBX,[y] ;", "5:10", f"z {UNREAD}"),
    ("", "MOV EBX,[y] | MOV EBX,[z] ;\nMOV EBX,[z] | MOV [z],$1 ;", "5:10", f"y {UNREAD}"),
    ("z=0", " | MOV EBX,[z] ;", "", ""),
    ("1:EBX=0", " | MOV EBX,[z] ;", "5:13", f"z {UNREAD}"),
    ("", "MOV EBX,[z] | XCHG [z],EAX ;", "", ""),
    ("", "MOV EBX,[z] | MOV [z],EAX ;", "", ""),
    ("", "MOV EBX,[z] | ;\n | CMP ESI,$0 ;", "6:8", f"ESI {UNWRITTEN}"),
    ("", "MOV [turn],$1 | CMP ESI,$0 ;\nMOV [turn],$1 | ;\nMOV [tunr],$1 | ;", "5:21", f"ESI {UNWRITTEN}"),
)


def outputs(words, folder, given, error=subprocess.PIPE):
    """The status of a call in a folder, what it prints, and what it says on standard error."""
    name, *words = words if words[:1] == ["fencecheck"] else ["fencer", *words]
    ran = subprocess.run([PROGRAMS[name], *words], cwd=folder, input=given, stdout=subprocess.PIPE, stderr=error, timeout=120)
    schemas.hold(words, ran.stdout)
    return ran.returncode, ran.stdout, ran.stderr


def shown(words, given):
    """What a call says on standard error, where that is a terminal."""
    terminal = Terminal()
    outputs(words, EXAMPLES, given, terminal.end)
    return terminal.said()


def changed(text, old, new):
    """A text with one thing in place of another, which stands in it; all of it where nothing stood there."""
    assert old in text
    return text.replace(old, new, 1) if old else new


def refused(words, files, line):
    """A call says this line, and prints the same where nothing can be written to standard error."""
    with tempfile.TemporaryDirectory() as folder:
        for name, text in files.items():
            write(os.path.join(folder, name), text)
        given = files["SB.litmus"] + (b"" if len(words) > 1 else files["SB.cert"])
        status, printed, said = outputs(words, folder, given)
        spelled = " ".join(words).encode("unicode_escape").decode()
        name = f"the message of {spelled}: {line[:80]}"
        begun = b'{"format":' if "--json" in words else b"refused "
        right = status == 1 and printed.startswith(begun) and printed.count(b"\n") == 1
        tell(name, right and said == line.encode() + b"\n", f"{said!r} with {status} {printed!r}", repr(line))
        with open("/dev/full", "wb") as full:
            without = outputs(words, folder, given, full)[:2]
        same(f"{name}, which can't be written", without, (status, printed))


def example_texts():
    """The files that stand in the folder of a call."""
    return {name: example(name) for name in FILES}


def named(names):
    """A program of two threads with locations of these names: each loads and stores the first, and the first thread stores to the others."""
    first, second, third = (name.encode() for name in names.split())
    rows = b"MOV [%b],$1 | MOV EAX,[%b] ;\nMOV EAX,[%b] | MOV [%b],$2 ;\nMFENCE | ;\nMOV [%b],$1 | ;\nMOV [%b],$1 | ;\n"
    return b"X86 named\n{ }\nP0 | P1 ;\n" + rows % (first, first, first, first, second, third) + b"~exists (0:EAX=3)\n"


class Messages(Cases):
    def test_table(self):
        """The refusals of `messages.tsv`."""
        for words, name, old, new, line in lines("messages.tsv"):
            files = example_texts()
            if name:
                name = text_of(name).decode()
                files[name] = changed(files.get(name, b""), text_of(old), text_of(new))
            refused(text_of(words).decode().split(" "), files, text_of(line).decode())

    def test_limits(self):
        """Texts that are past a limit, and words that are too long to be shown."""
        files = example_texts()
        text = b"X86 t\n{ }\nP0 | P1 ;\n%bexists (true)\n"
        for rows, line in (
            (ROW * 33, "SB.litmus:3: there are 33 accesses to memory, more than 32: 33 in thread 0"),
            (" | MOV EAX,[x] ;\n" + "XCHG [y],EAX | MOV [x],EAX ;\n" * 16, "SB.litmus:3: there are 33 accesses to memory, more than 32: 16 in thread 0, 17 in thread 1"),
            ("MFENCE |  ;\n" * 65, "SB.litmus:3: thread 0 has 65 instructions, more than 64"),
            ("A" * 41 + " |  ;\n", f"SB.litmus:4:1: {'A' * 40}.. is no instruction that is read; these are MOV, XCHG, MFENCE, CMP, JE, JNE and JMP, and a label ends with `:`"),
        ):
            refused(["outcomes", "SB.litmus"], {**files, "SB.litmus": text % rows.encode()}, line)
        threads = b"X86 t\n{ }\nP0|P1|P2|P3|P4|P5|P6|P7;\n" + b"MFENCE|MFENCE|MFENCE|MFENCE|MFENCE|MFENCE|MFENCE|MFENCE;\n" * 18 + b"exists (true)\n"
        refused(["outcomes", "SB.litmus"], {**files, "SB.litmus": threads}, f"SB.litmus:3: there are 136 gaps, more than 128: {', '.join(f'17 in thread {thread}' for thread in range(8))}")
        long = {**files, "SB.litmus": files["SB.litmus"] + b" " * LIMIT}
        for words, name in ((["outcomes", "SB.litmus"], "SB.litmus"), (["outcomes", "-"], "<stdin>"), (["fencecheck", "-", "SB.cert"], "<stdin>")):
            refused(words, long, f"{name}: has more than {LIMIT} bytes, the most that are read")
        refused(["fencecheck"], long, "<stdin>: has a litmus text or a certificate that is too long (docs/formats.md)")
        deep = files["SB.cert"].replace(b"tree V 0 2", b"tree " + b"V 0 1 " * 600 + b"V 0 2")
        line = f"SB.cert:8:{6 + 6 * 600}: V begins a node that is deeper than its tree may be"
        refused(["fencecheck", "SB.litmus", "SB.cert"], {**files, "SB.cert": deep}, line)

    def test_answers(self):
        """An answer without a slip, a missing argument of `fencer` and a call for help say nothing."""
        for words in (["outcomes", "SB.litmus"], ["place", "SB.litmus"], ["--help"], ["place"], ["fencecheck", "SB.litmus", "SB.cert"], ["fencecheck", "--help"], ["fencecheck", "-h"]):
            same(f"nothing is said of {' '.join(words)}", outputs(words, EXAMPLES, b"")[2], b"")

    def test_misuses(self):
        """Where arguments name no litmus file with its certificate, `fencecheck` says why, and prints its usage whether or not that can be written."""
        usage = outputs(["fencecheck", "--help"], EXAMPLES, b"")[:2]
        for words, said in MISUSES:
            words = ["fencecheck", *words.split()]
            found = outputs(words, EXAMPLES, b"")
            same(f"what is said of {' '.join(words)}", found, (2, usage[1], f"error: {said}\n".encode()))
            with open("/dev/full", "wb") as full:
                same(f"{' '.join(words)}, where that can't be written", outputs(words, EXAMPLES, b"", full)[:2], usage)

    def test_idle_names(self):
        """An answer that rests on the condition names what the condition names and no instruction uses; other answers say nothing of it."""
        location = "the condition names aa, which no instruction reads or writes: it keeps its first value"
        register = "the condition names 1:EBX, to which thread 1 writes nothing: it keeps its first value"
        files = example_texts()
        for condition, said, happens in (("aa=1", location, False), ("0:EAX=0 /\\ ~(x=1 \\/ aa=0)", location, False), ("1:EBX=0", register, True), ("x=1 /\\ 1:EAX=0", "", True)):
            text = changed(files["SB.litmus"], b"0:EAX=0 /\\ 1:EAX=0", condition.encode())
            for words in ("outcomes", "outcomes --json", "witness", "place --condition", "why --condition --json", "place", "place --observed", "gaps"):
                rests = "--condition" in words or "--observed" in words or words.startswith(("outcomes", "witness"))
                verdict = FAILS["exists"] % condition if happens and words.startswith(("place", "why")) else ""
                line = (verdict + (f"<stdin>: {said}\n" if said and rests else "")).encode()
                status, printed, told = outputs([*words.split(), "-"], EXAMPLES, text)
                tell(f"{words} of {condition} says {line!r}", status == 0 and told == line, (status, told))
                with open("/dev/full", "wb") as full:
                    same(f"{words} of {condition}, where that can't be written", outputs([*words.split(), "-"], EXAMPLES, text, full)[:2], (status, printed))

    def test_near_idle_names(self):
        """Where the condition names a location that no instruction uses, and the text has another one with nearly this name, that one is named."""
        text = named("flag fl f").replace(b"0:EAX=3", b"flg=1")
        for words in ("outcomes", "witness", "place --condition"):
            told = outputs([*words.split(), "-"], EXAMPLES, text)[2]
            same(f"{words} where the condition names flg", told, b"<stdin>: the condition names flg, which no instruction reads or writes: did you mean flag?\n")

    def test_near_names(self):
        """An answer names a location whose name stands once in the text and is close to another's; `gaps` says nothing of it."""
        for names, place, said in NEAR_NAMES:
            text = named(names)
            line = f"<stdin>:{place}: {said}\n".encode() if said else b""
            for words in ("outcomes", "witness --json", "place", "place --observed --json", "place --condition", "why", "gaps"):
                status, _, told = outputs([*words.split(), "-"], EXAMPLES, text)
                wanted = b"" if words == "gaps" else line
                tell(f"{words} of {names} says {wanted!r}", (status, told) == (0, wanted), (status, told))

    def test_hints(self):
        """Where arguments are no command of `fencer`, it says what they may mean, and prints the same error whether or not that can be written."""
        for words, meant in HINTS:
            line = f"fencer: did you mean `fencer {meant}`?\n".encode() if meant else b""
            status, printed, told = outputs(words.split(), EXAMPLES, b"")
            tell(f"what is said of fencer {words}", (status, printed[:7], told) == (2, b"error: ", line), (status, printed, told))
            with open("/dev/full", "wb") as full:
                same(f"fencer {words}, where that can't be written", outputs(words.split(), EXAMPLES, b"", full)[:2], (status, printed))

    def test_fence_hints(self):
        """Where `--fences` or another option stands with no command that takes it, or `--fences` has blanks between its gaps or none, it is said what may be meant."""
        for words, said in FENCE_HINTS + OPTION_HINTS:
            line = f"fencer: {said}\n".encode() if said else b""
            status, printed, told = outputs(words, EXAMPLES, b"")
            tell(f"what is said of fencer {' '.join(words)}", (status, printed[:7], told) == (2, b"error: ", line), (status, printed, told))
            with open("/dev/full", "wb") as full:
                same(f"fencer {' '.join(words)}, where that can't be written", outputs(words, EXAMPLES, b"", full)[:2], (status, printed))

    def test_terminal(self):
        """On a terminal the line of the text stands below a message, with a `^` below the word."""
        files = example_texts()
        text = files["SB.litmus"]
        for given, words, line, below in (
            (changed(text, b"MOV EAX,[y]", b"INC EAX"), "place -", "<stdin>:5:1: INC is arithmetic, which is not read; write a branch for each value (docs/guide.md)", ("INC EAX | MOV EAX,[x] ;", "^")),
            (changed(text, b"MOV [y],$1 ;", b"MOV [y],$1"), "outcomes -", "<stdin>:4:24: the end of the line stands where `;` is missing", ("MOV [x],$1 | MOV [y],$1", " " * 23 + "^")),
            (changed(text, b"MOV [x],$1 |", b"\tMOV [x],$1 (* \xc3\xa9 *) INC EAX |"), "place -", "<stdin>:4:21: INC cannot stand here; after an instruction `|` or `;` does, at the end of a row `;`", (" MOV [x],$1 (* \\xc3\\xa9 *) INC EAX | MOV [y],$1 ;", " " * 27 + "^")),
            (changed(text, b"MOV EAX,[y]", b"INC EAX (*" + b" " * 120 + b"*)"), "place -", "<stdin>:5:1: INC is arithmetic, which is not read; write a branch for each value (docs/guide.md)", ()),
            (changed(text, b"MOV EAX,[y]", b"JE OUT"), "gaps -", "<stdin>:5:4: OUT is no label of this thread; it stands in the thread's own column as `NAME:`, before an instruction or at the end", ("JE OUT | MOV EAX,[x] ;", "   ^")),
            (named("turn tunr f"), "outcomes -", f"<stdin>:7:6: tunr {ALONE} turn?", ("MOV [tunr],$1 | ;", "     ^")),
            (b"", "outcomes nosuch", "nosuch: no such file", ()),
            (changed(text, b"MOV EAX,[y]", b"INC EAX"), "fencecheck - SB.cert", "<stdin>:5:1: INC is arithmetic, which is not read; write a branch for each value (docs/guide.md)", ("INC EAX | MOV EAX,[x] ;", "^")),
        ):
            wanted = "".join(f"{part}\r\n" for part in (line, *below)).encode()
            same(f"what a terminal shows of {words} where it says {line[:40]}", shown(words.split(), given), wanted)

    def test_fences(self):
        """On a terminal `place` names each gap of its answer with its line and instruction, as `gaps` lists them; elsewhere, and where nothing is printed, it does not."""
        for litmus in example_files():
            for options in ([], ["--condition"], ["--json"]):
                words = ["place", *options, litmus]
                _, printed, _ = outputs(words, EXAMPLES, b"")
                answer = json.loads(printed)["answer"]["set"] if options == ["--json"] else printed.split(b"\n")[0].decode().split(" set")[1].split()
                listed = dict(line.split(" ", 1) for line in outputs(["gaps", litmus], EXAMPLES, b"")[1].decode().splitlines())
                lines = [f"{gap} " + re.sub(r"^(line \d+)", r"\1, before", listed[gap]) for gap in answer]
                told = [line for line in shown(words, b"").decode().split("\r\n") if re.match(r"\d+:\d+ line ", line)]
                same(f"what a terminal shows of the fences of {os.path.basename(litmus)} {options}", told, lines)
        sb = os.path.join(EXAMPLES, "SB.litmus")
        same("the fences of SB on a terminal", shown(["place", sb], b""), b"0:1 line 5, before MOV EAX,[y]\r\n1:1 line 5, before MOV EAX,[x]\r\n")
        same("the fences of SB where it is no terminal", outputs(["place", "--progress", sb], EXAMPLES, b"")[2].count(b"before"), 0)
        same("the fences of an answer that is not kept", shown(["place", "--output", "none/file", sb], b""), b"none/file: cannot be written\r\n")
        same("the fences of SB by why", shown(["why", sb], b""), b"")

    def test_slips(self):
        """An answer names a jump before any CMP of its thread, or a compared register or a location that nothing writes; a name in the condition comes before them."""
        for initial, rows, place, said in SLIPS:
            text = f"X86 slips\n{{ {initial} }}\nP0 | P1 ;\nMOV [x],$1 | MOV EAX,[x] ;\n{rows}\n"
            line = f"<stdin>:{place}: {said}\n".encode() if said else b""
            for words in ("outcomes", "witness --json", "place", "place --observed --json", "place --condition", "why", "gaps"):
                status, _, told = outputs([*words.split(), "-"], EXAMPLES, f"{text}exists (x=5)\n".encode())
                before = UNEXECUTED.encode() if (rows, words) == (PASSED, "place --condition") else b""
                wanted = b"" if words == "gaps" else before + line
                tell(f"{words} of {rows!r} with {{ {initial} }} says {wanted!r}", (status, told) == (0, wanted), (status, told))
            told = outputs(["outcomes", "-"], EXAMPLES, f"{text}exists (aa=1)\n".encode())[2]
            same(f"outcomes of {rows!r} with {{ {initial} }} where the condition names aa", told, b"<stdin>: the condition names aa, which no instruction reads or writes: it keeps its first value\n")

    def test_notes(self):
        """A document has what standard error has beside an answer, each with its kind, and no such field where nothing is said."""
        sb = example_texts()["SB.litmus"].decode()
        for kinds, old, new, condition in NOTES:
            given = changed(changed(sb, old, new) if old else sb, "exists (0:EAX=0 /\\ 1:EAX=0)", condition).encode()
            for words in ("outcomes", "outcomes --runs --model sequential", "witness", "witness --not", "place", "place --observed", "place --condition", "why", "why --condition"):
                status, printed, told = outputs([*words.split(), "--json", "-"], EXAMPLES, given)
                document = json.loads(printed)
                asked = words.startswith(("outcomes", "witness"))
                wanted = [kind for kind in kinds.split() if (kind not in documents.VERDICTS or not asked) and (kind != "unused_name" or asked or "--condition" in words or "--observed" in words)]
                found = [note["kind"] for note in document.get("notes", [])]
                tell(f"the notes of {words} of {condition!r} with {new!r}", status == 0 and found == wanted and ("notes" in document) == bool(wanted), found, wanted)
                said = documents.noted(printed, "<stdin>", after=SEEN[condition.split()[0]])
                same(f"what standard error has of the notes of {words} of {condition!r} with {new!r}", told, said)
            run = [] if old else ["trace --json - e0 e0 e1 e1 f0 f1"]
            for words in (*run, "gaps --json -"):
                printed, told = outputs(words.split(), EXAMPLES, given)[1:]
                same(f"the notes of {words} of {condition!r} with {new!r}", ("notes" in json.loads(printed), told), (False, b""))

    def test_failures(self):
        """It is said where some sequential run meets the formula of an `exists` or `~exists`, or does not meet that of a `forall`."""
        text = example_texts()["SB.litmus"]
        never, always, either = (False,), (True,), (False, True)
        for formula, truths in (("0:EAX=0 /\\ 1:EAX=0", never), ("0:EAX=0", either), ("x=1", always), ("not 1:EAX=1", either)):
            for quantifier, deciding in (("exists", True), ("~exists", True), ("forall", False)):
                given = changed(text, b"exists (0:EAX=0 /\\ 1:EAX=0)", f"{quantifier} ({formula})".encode())
                line = (FAILS[quantifier] % formula).encode() if deciding in truths else b""
                for words in ("place", "why --observed", "place --condition", "why --condition --json", "place --condition --workers 2"):
                    status, _, told = outputs([*words.split(), "-"], EXAMPLES, given)
                    tell(f"{words} of {quantifier} {formula} says {line!r}", (status, told) == (0, line), (status, told))
    def test_commands_of_runs(self):
        """Where no fence mends the condition, the command that is named for it shows a sequential run of the file of the name that is given."""
        text = example_texts()["SB.litmus"]
        with tempfile.TemporaryDirectory() as folder:
            file = os.path.join(folder, "wrong.litmus")
            for quantifier, option in (("~exists", ""), ("forall", "--not ")):
                write(file, changed(text, b"exists (0:EAX=0 /\\ 1:EAX=0)", f"{quantifier} (0:EAX=0)".encode()))
                command = f"fencer witness --model sequential {option}{file}"
                for words in ("place", "place --condition", "why --observed"):
                    told = said_by([*words.split(), file]).splitlines()
                    same(f"the second line of {words} of {quantifier}", told[1:], [f"fencer: `{command}` shows such a run, and with --html FILE a page of it"])
                status, printed, told = outputs(command.split()[1:], EXAMPLES, b"")
                tell(f"{command} shows a run", (status, told) == (0, b"") and printed.startswith(b"run "), (status, printed, told))

