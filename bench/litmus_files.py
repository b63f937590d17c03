"""Reads litmus files of the restricted X86 format, for the scripts of this folder, and writes them again with fences."""
from __future__ import annotations

import dataclasses
import re
from typing import Tuple

REGISTERS = ("EAX", "EBX", "ECX", "EDX", "ESI", "EDI")
LARGEST = 2**32 - 1
SHAPES = {
    "MOV": ("register number", "register register", "register memory", "memory number", "memory register"),
    "XCHG": ("memory register", "register memory"),
    "CMP": ("register number", "register register"),
    "MFENCE": ("",),
    "JE": ("label",),
    "JNE": ("label",),
    "JMP": ("label",),
}
SPELLED = {"register": "{}", "memory": "[{}]", "number": "${}", "label": "{}"}
CONDITIONS = ("locations", "exists", "forall", "~")
Gap = Tuple[int, int]
Formula = tuple


def text_of(path: str) -> str:
    """A file's text; comments may have any bytes."""
    with open(path, encoding="utf-8", errors="surrogateescape") as file:
        return file.read()


class Fault(Exception):
    """What a text has that is not read."""


@dataclasses.dataclass(frozen=True)
class Operand:
    kind: str  # of SPELLED
    value: str | int

    def __str__(self) -> str:
        return SPELLED[self.kind].format(self.value)


@dataclasses.dataclass(frozen=True)
class Instruction:
    mnemonic: str
    operands: tuple[Operand, ...] = ()

    def __str__(self) -> str:
        return f"{self.mnemonic} {','.join(map(str, self.operands))}".rstrip()

    def is_plain_store(self) -> bool:
        return self.mnemonic == "MOV" and self.operands[0].kind == "memory"


FENCE = Instruction("MFENCE")


@dataclasses.dataclass
class Litmus:
    """A program with its first values, its condition, and what an outcome has: the named registers and all locations."""

    name: str
    threads: list[list[Instruction]] = dataclasses.field(default_factory=list)
    labels: list[list[tuple[str, int]]] = dataclasses.field(default_factory=list)  # a word, and the instruction that it stands before
    memory: dict[str, int] = dataclasses.field(default_factory=dict)
    registers: dict[tuple[int, str], int] = dataclasses.field(default_factory=dict)
    locations: list[str] = dataclasses.field(default_factory=list)  # as the text names them first
    named: set[tuple[int, str]] = dataclasses.field(default_factory=set)
    quantifier: str = ""
    formula: Formula = ("true",)

    def named_registers(self) -> list[tuple[int, str]]:
        return sorted(self.named, key=lambda it: (it[0], REGISTERS.index(it[1])))

    def columns(self) -> list[str]:
        """The parts of an outcome, in the order in which they are printed."""
        return [f"{thread}:{register}" for thread, register in self.named_registers()] + self.locations

    def gaps(self) -> list[Gap]:
        return [(thread, at) for thread, code in enumerate(self.threads) for at in range(1, len(code))]

    def fenced(self, gaps: list[Gap]) -> Litmus:
        """This program with an MFENCE in each of these gaps, where a label stands before the fence."""
        threads, labels = [], []
        for thread, code in enumerate(self.threads):
            inside = {at for of, at in gaps if of == thread}
            threads.append([it for at, instruction in enumerate(code) for it in [FENCE] * (at in inside) + [instruction]])
            labels.append([(word, at + sum(gap < at for gap in inside)) for word, at in self.labels[thread]])
        return dataclasses.replace(self, threads=threads, labels=labels)

    def text(self) -> str:
        """A litmus text of the program, whose condition is always met."""
        cells = [self.column(thread) for thread in range(len(self.threads))]
        height = max(map(len, cells))
        rows = [" | ".join(cell[row] if row < len(cell) else "" for cell in cells) + " ;" for row in range(height)]
        first = [f"{location}={self.memory.get(location, 0)};" for location in self.locations]
        first += [f"{thread}:{register}={self.registers.get((thread, register), 0)};" for thread, register in self.named_registers()]
        head = " | ".join(f"P{thread}" for thread in range(len(self.threads))) + " ;"
        return "\n".join([f"X86 {self.name}", f"{{ {' '.join(first)} }}", head, *rows, "exists (true)", ""])

    def column(self, thread: int) -> list[str]:
        """A thread's cells, with its labels; the last is for labels at the end."""
        column = [str(instruction) for instruction in self.threads[thread]] + [""]
        for word, at in reversed(self.labels[thread]):
            column[at] = f"{word}: {column[at]}"
        return column


def holds(formula: Formula, values: dict[str, int]) -> bool:
    """Whether an outcome meets a formula."""
    kind, *parts = formula
    if kind == "=":
        return values[parts[0]] == parts[1]
    if kind in ("true", "false"):
        return kind == "true"
    met = [holds(part, values) for part in parts]
    return {"not": not met[0], "and": all(met), "or": any(met)}[kind]


def without_comments(text: str) -> str:
    """What follows the first line: without the lines in quotes and `key=value` before the first values, and without nested comments."""
    kept, depth, at, is_head = [], 0, 0, True
    while at < len(text):
        if text.startswith("(*", at):
            depth, at = depth + 1, at + 2
            kept.append(" ")
        elif depth and text.startswith("*)", at):
            depth, at = depth - 1, at + 2
        elif depth:
            at += 1
        elif is_head and re.match(r'"[^"\n]*"|[A-Za-z][^\n]*=', text[at:]):
            at = (text + "\n").index("\n", at)
        else:
            is_head = is_head and text[at].isspace()
            kept.append(text[at])
            at += 1
    if depth:
        raise Fault("a comment does not end")
    return "".join(kept)


class Reader:
    """Goes through the tokens of a litmus text, once."""

    def __init__(self, text: str) -> None:
        first, _, rest = text.partition("\n")
        head = re.fullmatch(r"X86[ \t]+([!-~]+)[ \t\r]*", first)
        if not head:
            raise Fault("the first line is not `X86 NAME`")
        self.litmus = Litmus(head[1])
        self.left = re.findall(r"[A-Za-z_]\w*|\d+|/\\|\\/|\S", without_comments(rest), re.ASCII)[::-1]

    def next(self, later: int = 0) -> str:
        return self.left[-1 - later] if len(self.left) > later else ""

    def take(self, wanted: str = "") -> str:
        token = self.next()
        if not token or wanted not in ("", token):
            raise Fault(f"`{token}` where `{wanted or 'more'}` is wanted")
        return self.left.pop()

    def found(self, *wanted: str) -> bool:
        """Takes the next token where it is one of these."""
        return self.next() in wanted and bool(self.take())

    def number(self) -> int:
        token = self.take()
        if not re.fullmatch(r"\d+", token, re.ASCII) or int(token) > LARGEST:
            raise Fault(f"`{token}` is no number from 0 to {LARGEST}")
        return int(token)

    def location(self) -> str:
        word = self.take()
        if not re.fullmatch(r"[A-Za-z_]\w*", word, re.ASCII) or word.upper() in REGISTERS:
            raise Fault(f"`{word}` is no location")
        if word not in self.litmus.locations:
            self.litmus.locations.append(word)
        return word

    def register(self, thread: int) -> str:
        word = self.take().upper()
        if word not in REGISTERS:
            raise Fault(f"`{word}` is no register")
        self.litmus.named.add((thread, word))
        return word

    def place(self) -> str | tuple[int, str]:
        """A location, bare or in brackets, or a thread's register."""
        if self.found("["):
            name = self.location()
            self.take("]")
            return name
        if self.next().isdigit():
            thread = self.number()
            self.take(":")
            return thread, self.register(thread)
        return self.location()

    def first_values(self) -> None:
        self.take("{")
        while not self.found("}"):
            place = self.place()
            self.take("=")
            values = self.litmus.registers if isinstance(place, tuple) else self.litmus.memory
            values[place] = self.number()
            if self.next() != "}":
                self.take(";")

    def head(self) -> None:
        is_last = False
        while not is_last:
            self.take(f"P{len(self.litmus.threads)}")
            self.litmus.threads.append([])
            self.litmus.labels.append([])
            is_last = self.take() == ";"

    def operand(self, thread: int) -> Operand:
        if self.found("$") or self.next().isdigit():
            return Operand("number", self.number())
        if self.next() == "[":
            return Operand("memory", self.place())
        if self.next().upper() in REGISTERS:
            return Operand("register", self.register(thread))
        return Operand("label", self.take())

    def instruction(self, thread: int) -> Instruction:
        mnemonic, operands = self.take().upper(), []
        while self.next() not in ("|", ";"):
            if operands:
                self.take(",")
            operands.append(self.operand(thread))
        if " ".join(it.kind for it in operands) not in SHAPES.get(mnemonic, ()):
            raise Fault(f"`{mnemonic}` with such operands is not read")
        return Instruction(mnemonic, tuple(operands))

    def row(self) -> None:
        for thread, code in enumerate(self.litmus.threads):
            while self.next(1) == ":":
                self.litmus.labels[thread].append((self.take(), len(code)))
                self.take(":")
            if self.next() not in ("|", ";"):
                code.append(self.instruction(thread))
            self.take("|" if thread + 1 < len(self.litmus.threads) else ";")

    def shown_places(self) -> None:
        """The line `locations`: what it names is part of an outcome."""
        if self.found("locations"):
            self.take("[")
            while not self.found("]"):
                self.place()
                if self.next() != "]":
                    self.take(";")

    def part(self) -> Formula:
        if self.found("not", "~"):
            return "not", self.part()
        if self.found("("):
            inner = self.disjunction()
            self.take(")")
            return inner
        if self.next() in ("true", "false"):
            return (self.take(),)
        place = self.place()
        self.take("=")
        return "=", place if isinstance(place, str) else "{}:{}".format(*place), self.number()

    def conjunction(self) -> Formula:
        found = self.part()
        while self.found("/\\"):
            found = "and", found, self.part()
        return found

    def disjunction(self) -> Formula:
        found = self.conjunction()
        while self.found("\\/"):
            found = "or", found, self.conjunction()
        return found

    def condition(self) -> None:
        self.litmus.quantifier = self.take()
        if self.litmus.quantifier == "~":
            self.litmus.quantifier += self.take("exists")
        self.litmus.formula = self.disjunction()

    def whole(self) -> Litmus:
        self.first_values()
        self.head()
        while self.next() not in CONDITIONS:
            self.row()
        self.shown_places()
        self.condition()
        if self.left:
            raise Fault(f"`{self.next()}` after the condition")
        if any(thread >= len(self.litmus.threads) for thread, _ in self.litmus.named):
            raise Fault("a register of a thread that is not there")
        check_jumps(self.litmus)
        return self.litmus


def check_jumps(litmus: Litmus) -> None:
    for code, labels in zip(litmus.threads, litmus.labels):
        words = [word for word, _ in labels]
        missing = [it.value for instruction in code for it in instruction.operands if it.kind == "label" and it.value not in words]
        if missing:
            raise Fault(f"a jump to `{missing[0]}`, which is no label of its thread")


def read_litmus(text: str) -> Litmus:
    return Reader(text).whole()
