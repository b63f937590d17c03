"""Makes C programs of litmus tests, with inline assembly, and runs them on this machine's processor."""
from __future__ import annotations

import dataclasses
import os
import re
import subprocess

from litmus_files import FENCE, REGISTERS, Gap, Instruction, Litmus, Operand, holds

HERE = os.path.dirname(os.path.abspath(__file__))
LINE = 64
CONSTRAINTS = dict(zip(REGISTERS, "abcdSD"))  # gcc's letters
SPELLED = {"MOV": "movl", "XCHG": "xchgl", "CMP": "cmpl", "JE": "je", "JNE": "jne", "JMP": "jmp", "MFENCE": "mfence"}


@dataclasses.dataclass(frozen=True)
class Variant:
    """What a thread's code has beside its instructions: a fence or a PAUSE, which only takes time, before one; an exchange in place of a store."""

    fence: int | None = None
    pause: int | None = None
    exchange: int | None = None


PLAIN = Variant()


def operand(litmus: Litmus, it: Operand) -> str:
    """In AT&T's syntax, where `%[m]` is the instance."""
    if it.kind == "register":
        return f"%%{it.value.lower()}"
    if it.kind == "number":
        return f"${it.value if it.value < 2**31 else it.value - 2**32}"
    if it.kind == "memory":
        return f"{LINE * litmus.locations.index(it.value)}(%[m])"
    return f".L{it.value}_%="


def instruction(litmus: Litmus, it: Instruction) -> str:
    """The destination is the last operand."""
    return f"{SPELLED[it.mnemonic]} {', '.join(operand(litmus, part) for part in reversed(it.operands))}".rstrip()


def exchange(litmus: Litmus, store: Instruction) -> list[str]:
    """A locked exchange with the effect of a store, through a register that is free."""
    target, source = (operand(litmus, part) for part in store.operands)
    return [f"movl {source}, %[spare]", f"xchgl %[spare], {target}"]


def assembly(litmus: Litmus, thread: int, variant: Variant = PLAIN) -> list[str]:
    lines = []
    code = litmus.threads[thread]
    for at in range(len(code) + 1):
        lines += [f".L{word}_%=:" for word, place in litmus.labels[thread] if place == at]
        lines += [instruction(litmus, FENCE)] * (at == variant.fence) + ["pause"] * (at == variant.pause)
        if at < len(code):
            lines += exchange(litmus, code[at]) if at == variant.exchange else [instruction(litmus, code[at])]
    return lines


def function(litmus: Litmus, thread: int, name: str, variant: Variant = PLAIN) -> str:
    """A thread as a function of C: `m` is the instance, and `r` takes the registers."""
    named = [register for of, register in litmus.named_registers() if of == thread]
    outputs = [f'"+&{CONSTRAINTS[register]}"({register})' for register in named]
    lines = [f"    uint32_t {register} = {litmus.registers.get((thread, register), 0)}u;" for register in named]
    if variant.exchange is not None:
        lines.append("    uint32_t spare;")
        outputs.append('[spare] "=&r"(spare)')
    lines.append("    __asm__ volatile(")
    lines += [f'        "{line}\\n\\t"' for line in assembly(litmus, thread, variant)] or ['        ""']
    lines += [f"        : {', '.join(outputs)}", '        : [m] "r"(m)', '        : "cc", "memory");']
    lines += [f"    r[{number}] = {register};" for number, register in enumerate(named)]
    return "\n".join([f"static __attribute__((noinline)) void {name}(char *m, uint32_t *r) {{", *lines, "    (void)m, (void)r;", "}", ""])


def first_memory(litmus: Litmus) -> str:
    return ", ".join(f"{litmus.memory.get(location, 0)}u" for location in litmus.locations) or "0"


def filled(template: str, **parts: object) -> str:
    """A C program with its parts filled in."""
    with open(os.path.join(HERE, template), encoding="utf-8") as file:
        return re.sub(r"@([A-Z]+)@", lambda found: str(parts[found[1]]), file.read())


def instances(litmus: Litmus) -> str:
    """The program that runs the test in many instances; a thread has a variant with a pause before each instruction but the first."""
    variants = [max(1, len(code)) for code in litmus.threads]
    every = [(thread, at) for thread, count in enumerate(variants) for at in range(count)]
    bodies = [function(litmus, thread, f"thread{thread}_{at}", Variant(pause=at or None)) for thread, at in every]
    return filled(
        "instances.c", T=len(litmus.threads), L=len(litmus.locations), K=len(litmus.columns()), V=max(variants), INIT=first_memory(litmus),
        BODIES="\n".join(bodies), NAMES=", ".join(f"[{thread}][{at}] = thread{thread}_{at}" for thread, at in every),
        VARIANTS=", ".join(map(str, variants)), COUNTS=", ".join(str(sum(of == it for of, _ in litmus.named)) for it in range(len(variants))),
    )


def build(source: str, folder: str, name: str) -> str:
    """The path of the program that gcc makes of a C text."""
    path = os.path.join(folder, re.sub(r"[^\w.+-]", "_", name))
    with open(path + ".c", "w", encoding="utf-8") as file:
        file.write(source)
    subprocess.run(["gcc", "-std=gnu11", "-O2", "-pthread", "-o", path, path + ".c"], check=True)
    return path


def printed(*words: str) -> list[str]:
    return subprocess.run(words, check=True, stdout=subprocess.PIPE, text=True).stdout.splitlines()


def processor() -> str:
    """The processor's name."""
    with open("/proc/cpuinfo", encoding="utf-8") as file:
        found = re.search(r"^model name\s*: (.*)$", file.read(), re.M)
    return found[1] if found else "unknown"


@dataclasses.dataclass
class Seen:
    """What a program left: how often each outcome, as `fencer outcomes` prints it, and how many instances met the condition's formula."""

    litmus: Litmus
    counts: dict[str, int]
    met: int

    @property
    def total(self) -> int:
        return sum(self.counts.values())

    def per_million(self, count: int) -> float:
        return 1e6 * count / max(1, self.total)


def run(litmus: Litmus, folder: str, name: str, seconds: float, stress: int, processors: list[int]) -> Seen:
    program = build(instances(litmus), folder, name)
    seen = Seen(litmus, {}, 0)
    rows = [list(map(int, line.split())) for line in printed(program, str(seconds), str(stress), *map(str, processors))]
    for count, *values in sorted(rows, key=lambda row: row[1:]):
        outcome = dict(zip(litmus.columns(), values))
        seen.counts[outcome_line(outcome)] = count
        seen.met += count * holds(litmus.formula, outcome)
    return seen


def outcome_line(outcome: dict[str, int]) -> str:
    return "outcome:" + "".join(f" {place}={value};" for place, value in outcome.items())


def answer(tool: str, path: str, *options: str) -> tuple[str, list[Gap]]:
    """The answer line of `TOOL place`, and its gaps."""
    line = asked(tool, "place", *options, path)[0]
    return line, [(int(thread), int(at)) for thread, at in re.findall(r"(\d+):(\d+)", line)]


def asked(tool: str, *words: str, given: str = "") -> list[str]:
    """What a tool prints; a status other than 0 is a fault."""
    ran = subprocess.run([*tool.split(), *words], input=given, stdout=subprocess.PIPE, text=True)
    if ran.returncode != 0:
        raise ChildProcessError(f"{tool} {' '.join(words)}: {ran.stdout.strip()}")
    return ran.stdout.splitlines()
