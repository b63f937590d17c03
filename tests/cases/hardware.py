"""Hardware: the scripts of bench/ that run litmus files on the processor, how they read a file and spell it for gcc. Nothing is timed, and nothing is compiled."""
import importlib.machinery
import importlib.util
import os
import re
import sys
import tempfile

from harness import TOP, Cases, example, run, same, tell, write

BENCH = os.path.join(TOP, "bench")
sys.dont_write_bytecode = True
sys.path.insert(0, BENCH)

import litmus_files
import processor

MOST_GAPS = 128
FOLDERS = ("examples", "examples/atlas", "examples/guide", "tests/data/canonical", "tests/data/litmus")
REFUSED = {
    "X64 SB\n{ }\nP0 ;\nMFENCE ;\nexists (true)\n": "the first line is not `X86 NAME`",
    "X86 SB\n{ x=4294967296; }\nP0 ;\nMFENCE ;\nexists (true)\n": "`4294967296` is no number from 0 to 4294967295",
    "X86 SB\n{ }\nP0 | P2 ;\nMFENCE | ;\nexists (true)\n": "`P2` where `P1` is wanted",
    "X86 SB\n{ }\nP0 ;\nINC EAX ;\nexists (true)\n": "`INC` with such operands is not read",
    "X86 SB\n{ }\nP0 ;\nMOV [x],[y] ;\nexists (true)\n": "`MOV` with such operands is not read",
    "X86 SB\n{ }\nP0 ;\nJMP L ;\nexists (true)\n": "a jump to `L`, which is no label of its thread",
    "X86 SB\n{ }\nP0 ;\nMFENCE ;\nexists (1:EAX=0)\n": "a register of a thread that is not there",
    "X86 SB\n{ }\nP0 ;\nMFENCE ;\nfilter (true)\n": "`true` where `,` is wanted",
    "X86 SB\n{ }\nP0 ;\nMFENCE ;\nexists (true) x\n": "`x` after the condition",
    "X86 SB\n(* (* *)\n{ }\nP0 ;\nMFENCE ;\nexists (true)\n": "a comment does not end",
    "X86 SB\n{ }\nP0 ;\nMFENCE": "`` where `more` is wanted",
}
SHOWN = """X86 shown
{ 0:EBX=4294967295; y=7; }
P0 ;
MOV [x],$4294967295 ;
L: XCHG EBX,[y] ;
CMP EBX,$7 ;
JE L ;
exists (0:EBX=7)
"""
PLAIN = ["movl $-1, 64(%[m])", ".LL_%=:", "xchgl 0(%[m]), %%ebx", "cmpl $7, %%ebx", "je .LL_%="]


def script(name):
    """A script of bench/ as a module."""
    loader = importlib.machinery.SourceFileLoader(f"bench_{name}", os.path.join(BENCH, name))
    module = importlib.util.module_from_spec(importlib.util.spec_from_loader(loader.name, loader))
    loader.exec_module(module)
    return module


def files():
    folders = [os.path.join(TOP, folder) for folder in FOLDERS]
    return [os.path.join(folder, file) for folder in folders for file in sorted(os.listdir(folder)) if file.endswith(".litmus")]


def printed(words, given):
    """The status of `fencer` and the lines that it prints."""
    status, text = run(words, given.encode(errors="surrogateescape"))
    return status, text.decode().splitlines()


def outcomes(text, *words):
    return [line for line in printed(["outcomes", *words, "-"], text)[1] if line.startswith("outcome:")]


def parts(line):
    return frozenset(line.split()[1:])


def values(line):
    return {place: int(value) for place, value in (part.rstrip(";").split("=") for part in line.split()[1:])}


def read_again(name, text, lines):
    """What is read of a file and written again is the same program, and its condition is the same."""
    try:
        litmus = litmus_files.read_litmus(text)
    except litmus_files.Fault as fault:
        tell(f"{name} is read", False, fault)
        return
    found = outcomes(litmus.text())
    wanted = [line for line in lines if line.startswith("outcome:")]
    same(f"{name} has the same outcomes when it is written again", set(map(parts, found)), set(map(parts, wanted)))
    met = [litmus_files.holds(litmus.formula, values(line)) for line in wanted]
    observed = "Always" if all(met) else "Sometimes" if any(met) else "Never"
    tell(f"the condition of {name}", f"observation {observed}" in lines, lines, observed)
    fenced(name, text, litmus)


def fenced(name, text, litmus):
    """With the fences of the answer the outcomes are the sequential ones, and the assembly has a fence for each."""
    status, answer = printed(["place", "-"], text)
    gaps = [tuple(map(int, word.split(":"))) for word in answer[0].split(" set")[1].split()]
    again = litmus.fenced(gaps)
    if len(again.gaps()) > MOST_GAPS:
        return
    found, wanted = outcomes(again.text()), outcomes(litmus.text(), "--model", "sequential")
    same(f"{name} with its fences", (status, found), (0, wanted))
    counted = sum(line == "mfence" for thread in range(len(again.threads)) for line in processor.assembly(again, thread))
    plain = sum(line == "mfence" for thread in range(len(litmus.threads)) for line in processor.assembly(litmus, thread))
    same(f"the assembly of {name} with its fences", counted, plain + len(gaps))


class Hardware(Cases):
    def test_reader(self):
        """Each litmus file that `fencer` reads is read, as it is and with fences."""
        for path in files():
            text = litmus_files.text_of(path)
            status, lines = printed(["outcomes", "-"], text)
            if status == 0:
                read_again(os.path.relpath(path, TOP), text, lines)

    def test_refusals(self):
        """What is not read, with the reason."""
        for text, wanted in REFUSED.items():
            try:
                found = litmus_files.read_litmus(text)
            except litmus_files.Fault as fault:
                found = str(fault)
            same(f"{text!r} is not read", found, wanted)

    def test_assembly(self):
        """The assembly of a thread, with a fence, a pause, or an exchange in place of a store; and the C program around it."""
        litmus = litmus_files.read_litmus(SHOWN)
        spare = ["movl $-1, %[spare]", "xchgl %[spare], 64(%[m])"]
        for variant, wanted in (
            (processor.PLAIN, PLAIN),
            (processor.Variant(fence=1), [*PLAIN[:2], "mfence", *PLAIN[2:]]),
            (processor.Variant(pause=2), [*PLAIN[:3], "pause", *PLAIN[3:]]),
            (processor.Variant(exchange=0), [*spare, *PLAIN[1:]]),
        ):
            same(f"the assembly with {variant}", processor.assembly(litmus, 0, variant), wanted)
        body = processor.function(litmus, 0, "body")
        tell("the registers of a body", 'uint32_t EBX = 4294967295u;' in body and '"+&b"(EBX)' in body and "r[0] = EBX;" in body, body)
        program = processor.instances(litmus)
        right = "T = 1, L = 2, K = 3, V = 4" in program and "{ 7u, 0u }" in program and not re.search("@[A-Z]+@", program)
        tell("the program of a test", right, program[:1500])

    def test_costs(self):
        """The gaps that are measured, and the lines of a cost file."""
        costs = script("measure-costs")
        litmus = litmus_files.read_litmus(SHOWN)
        found = [(gap, variant.fence, variant.exchange) for gap, variant in costs.variants_of(litmus, 0, True)]
        same("what is measured", found, [((0, 1), 1, None), ((0, 1), None, 0), ((0, 2), 2, None), ((0, 3), 3, None)])
        same("the lines of a cost file", costs.cost_lines({(1, 1): 12.34, (0, 2): -3.0, (0, 1): 1e9}), ["0:1 1000000", "0:2 1", "1:1 123"])
        with tempfile.TemporaryDirectory() as folder:
            file = os.path.join(folder, "costs")
            write(file, b"0:1 367\n1:1 5\n")
            status, answer = printed(["place", "--costs", file, "-"], example("SB.litmus").decode())
            same("a cost file is read", (status, answer[0]), (0, "answer cost 372 set 0:1 1:1"))
