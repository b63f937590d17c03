"""Streams: reads and writes that fail in mid-stream, and inputs without an end."""
import os
import resource
import subprocess

from harness import EXAMPLES, FENCECHECK, FENCER, PreloadedCases, bytes_of, example, failing_in_turn, run, same, tell, watched, write

MOST_CALLS = 10_000
# how many bytes a watched call moves at most
FEW = 7
REPLAY = ["replay", "-", "e0", "e1", "e0", "e1", "f0", "f1"]


def failing_stream(library, name, how, words, given, right, program=FENCER, named=0):
    """Each read or write failed in turn, until a run meets no failure. A call moves few bytes, so there are many; so many bytes are in named files."""
    moved = len(given) + named if how == "read" else len(right[1])
    for nth, found, met in failing_in_turn(library, words, given, program, FAIL_IO=how):
        status, text = found
        if not met:
            tell(f"{name}, no {how} fails", found == right and nth > moved // FEW, f"{found!r} at {nth}", f"{right!r} after {moved // FEW} calls or more")
            return
        begun = right[1].startswith(text) and len(text) < len(right[1])
        lawful = text == b"refused file 1 Read\n" if how == "read" else begun
        tell(f"{name}, {how} {nth} fails", status == 1 and lawful, found, f"status 1, and a refusal or the front of {right[1]!r}")


def failing_certificate(library, how, certificate, litmus):
    """Each write failed in turn: what is printed of an answer comes after the whole certificate."""
    words = ["place", "--certificate", certificate, "-"]
    right = run(words, litmus)
    whole = bytes_of(certificate)
    for nth in range(1, MOST_CALLS):
        os.remove(certificate)
        (status, text), met = watched(library, nth, words, litmus, FENCER, FAIL_IO=how)
        if not met:
            tell(f"a certificate, no {how} fails", (status, text) == right and bytes_of(certificate) == whole, text)
            return
        begun = right[1].startswith(text) and len(text) < len(right[1]) and bytes_of(certificate) == whole
        tell(f"a certificate, {how} {nth} fails", status == 1 and (begun or text == b"refused file 2 Write\n"), text)
    tell(f"a certificate: the failures of {how} end", False)


def failing_reads(library, folder):
    """Reads that fail at each of their calls: of standard input, and of files that are named."""
    litmus, shown = example("SB.litmus"), example("SB.cert")
    files = {"litmus": litmus, "cert": shown, "costs": b"0:1 1\n1:1 1\n"}
    for name, text in files.items():
        write(os.path.join(folder, name), text)
    first, cert, costs = (os.path.join(folder, name) for name in files)
    for program, words, given, named in (
        (FENCER, [], " ".join(REPLAY).encode() + b"\n" + litmus, ()),
        (FENCER, REPLAY, litmus, ()), (FENCER, ["outcomes", "-"], litmus, ()), (FENCER, ["place", "-"], litmus, ()),
        (FENCER, ["trace", *REPLAY[1:]], litmus, ()), (FENCER, ["why", "-"], litmus, ()),
        (FENCER, ["replay", first, *REPLAY[2:]], b"", ["litmus"]), (FENCER, ["outcomes", first], b"", ["litmus"]),
        (FENCER, ["place", "--costs", costs, first], b"", ["litmus", "costs"]), (FENCER, ["place", "--costs", costs, "-"], litmus, ["costs"]),
        (FENCECHECK, [], litmus + shown, ()), (FENCECHECK, ["-", cert], litmus, ["cert"]),
        (FENCECHECK, ["-", cert, costs], litmus, ["cert", "costs"]), (FENCECHECK, [first, cert, costs], b"", ["litmus", "cert", "costs"]),
    ):
        right = run(words, given, program)
        name = f"{os.path.basename(program)} {words}"
        tell(f"{name} has an answer", right[0] == 0, right)
        failing_stream(library, name, "read", words, given, right, program, sum(len(files[it]) for it in named))


def failing_writes(library, folder):
    """Writes that fail at each of their calls, and that take no byte: to standard output, and to a certificate file."""
    litmus = example("SB.litmus")
    joined = litmus + example("SB.cert")
    for how in ("write", "full"):
        failing_certificate(library, how, os.path.join(folder, "certificate"), litmus)
        survey = ["survey", "-", os.path.join(EXAMPLES, "n6.litmus")]
        for words, status in ((REPLAY, 0), (["place", "-"], 0), (survey, 3), (REPLAY[:3], 1), (["replay", "--fast"], 2), (["--help"], 2)):
            right = run(words, litmus)
            tell(f"{words} ends with {status}", right[0] == status, right)
            failing_stream(library, " ".join(words), how, words, litmus, right)
        for words, given, status in (([], joined, 0), ([], joined + b"?", 1), (["SB.litmus"], b"", 2)):
            right = run(words, given, FENCECHECK)
            tell(f"fencecheck {words} ends with {status}", right[0] == status, right)
            failing_stream(library, f"fencecheck {words}", how, words, given, right, FENCECHECK)


def limits(memory=256 << 20, seconds=2):
    resource.setrlimit(resource.RLIMIT_CPU, (seconds, seconds))
    resource.setrlimit(resource.RLIMIT_AS, (memory, memory))


def told_of(program, words, front):
    """What a program says of an input that begins as a file and has no end."""
    with subprocess.Popen(["cat", front, "/dev/zero"], stdout=subprocess.PIPE, stderr=subprocess.DEVNULL) as feeding:
        with feeding.stdout as given:
            try:
                ran = subprocess.run([program, *words], stdin=given, capture_output=True, preexec_fn=limits, timeout=120)
            except subprocess.TimeoutExpired:
                feeding.kill()
                return "still running after 120 seconds"
    return ran.returncode, ran.stdout


def endless_inputs(folder):
    """Inputs without an end, with 2 seconds of a processor and 256 MiB: on standard input, after a whole text, and as a file that is named. A
    certificate may be 1 GiB long, for which that is too little: it gets 20 seconds and 4 GiB."""
    litmus, cert = (os.path.join(EXAMPLES, file) for file in ("SB.litmus", "SB.cert"))
    too_long = (1, b"refused file 3 TooLong\n")
    with_words = os.path.join(folder, "with-words")
    write(with_words, " ".join(REPLAY).encode() + b"\n" + bytes_of(litmus))
    for program, words, whole in (
        (FENCER, REPLAY, litmus), (FENCER, ["outcomes", "-"], litmus), (FENCER, ["place", "-"], litmus),
        (FENCER, ["trace", *REPLAY[1:]], litmus), (FENCER, ["why", "-"], litmus), (FENCER, [], with_words),
        (FENCECHECK, ["-", cert], litmus), (FENCECHECK, [], litmus),
    ):
        for front in ("/dev/null", whole):
            found = told_of(program, words, front)
            same(f"{os.path.basename(program)} {words}, after {front} an input without an end", found, too_long)
    for program, words in (
        (FENCER, ["replay", "/dev/zero", "e0"]), (FENCER, ["outcomes", "/dev/zero"]), (FENCER, ["place", "/dev/zero"]),
        (FENCER, ["place", "--costs", "/dev/zero", litmus]), (FENCER, ["why", "--costs", "/dev/zero", litmus]),
        (FENCECHECK, ["/dev/zero", cert]), (FENCECHECK, [litmus, cert, "/dev/zero"]),
    ):
        found = run(words, b"", program, preexec_fn=limits)
        same(f"{os.path.basename(program)} {words}, a file without an end", found, too_long)
    found = run([litmus, "/dev/zero"], b"", FENCECHECK, preexec_fn=limits)
    same("a certificate without an end, for which there is too little memory", found, (1, b"refused file 1 Read\n"))
    found = run([litmus, "/dev/zero"], b"", FENCECHECK, preexec_fn=lambda: limits(4 << 30, 20))
    same("a certificate without an end", found, too_long)


class Streams(PreloadedCases):
    source = "fail_io.c"

    def test_endless(self):
        """Inputs without an end are refused as too long."""
        endless_inputs(self.folder)

    def test_reads(self):
        """Reads that fail at each of their calls: of standard input, and of files that are named."""
        failing_reads(self.library, self.folder)

    def test_writes(self):
        """Writes that fail at each of their calls, and that take no byte: to standard output, and to a certificate file."""
        failing_writes(self.library, self.folder)
