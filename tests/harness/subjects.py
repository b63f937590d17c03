"""Finds and runs the cases: each module of `cases` is a subject, each `test_` method of its class a group of cases."""
import argparse
import contextlib
import importlib
import io
import multiprocessing
import os
import pkgutil
import sys
import tempfile
import time
import unittest
from concurrent.futures import ProcessPoolExecutor, as_completed

from harness import programs, report, schemas

COUNTS = os.path.join(programs.TESTS, "counts.tsv")
COLUMNS = ("group", "cases", "seconds")
# the names of the cases of each group, as they were when it ran last
NAMES = os.path.join(programs.TESTS, "out", "names")


class CasesFailed(AssertionError):
    """Some cases of a group have failed, each of which was reported."""


class Cases(unittest.TestCase):
    """The cases of a subject. A method whose name begins with `test_` has a group of them, and reports each by `tell`, `same` or `expect`."""

    needs_programs = True

    def setUp(self):
        self.failed_before = report.counts["failed"]

    def tearDown(self):
        if report.counts["failed"] > self.failed_before:
            raise CasesFailed("see what is printed above")


class PreloadedCases(Cases):
    """Cases with a folder of their own, and there a library that stands before the C library's own calls."""

    source = ""

    def setUp(self):
        super().setUp()
        folder = tempfile.TemporaryDirectory()
        self.addCleanup(folder.cleanup)
        self.folder = folder.name
        self.library, said = programs.preloaded(self.folder, self.source)
        if not self.library:
            self.fail(f"{self.source} is not built: {said}")


class Group:
    """A group of cases: its subject, its name, and the method."""

    def __init__(self, subject, test):
        self.subject, self.test = subject, test
        self.name = f"{subject}.{test._testMethodName[len('test_'):]}"
        self.passed = self.failed = 0
        self.seconds = 0.0

    def matches(self, asked):
        """Whether `--only ASKED` names this group or its subject."""
        return asked in (self.subject, self.name)

    def may_have(self, part):
        """Whether a case had this part in its name when the group ran last; a group that never ran may have it."""
        path = os.path.join(NAMES, self.name)
        if not os.path.exists(path):
            return True
        with open(path, encoding="utf-8", errors="surrogateescape") as file:
            return part in file.read()

    def keep_names(self, names):
        os.makedirs(NAMES, exist_ok=True)
        with open(os.path.join(NAMES, self.name), "w", encoding="utf-8", errors="surrogateescape") as file:
            file.write("\n".join(sorted(names)) + "\n")

    def run(self, parts):
        """Runs the cases, or those whose names have one of these parts. A group that stops half-way is a failed case."""
        before, started = dict(report.counts), time.monotonic()
        report.begin(self.name, parts)
        result = unittest.TestResult()
        self.test.run(result)
        for _, said in [*result.errors, *result.failures]:
            if CasesFailed.__name__ not in said:
                report.begin(self.name, ())
                report.tell("the group ends", False, said.rstrip(), "no exception")
        for words, found in schemas.Held.faults:
            report.begin(self.name, ())
            report.tell(f"the document of {words} fits docs/fencer.schema.json", False, found, "no fault")
        schemas.Held.faults.clear()
        if not parts:
            self.keep_names(report.Reported.names)
        self.seconds = time.monotonic() - started
        self.passed, self.failed = (report.counts[it] - before[it] for it in ("passed", "failed"))


class Wanted:
    """The groups that are run, each with the parts of names that are asked for; a process that runs one begins as a copy of this one."""

    groups = []


def run_apart(place):
    """Runs the group of this place. Returns the place, what came of it, and what was printed."""
    group, parts = Wanted.groups[place]
    with contextlib.redirect_stdout(io.StringIO()) as printed:
        group.run(parts)
    return place, (group.passed, group.failed, group.seconds), printed.getvalue()


def run_side_by_side(wanted):
    """Runs the groups in processes of their own, as many as there are processors, those first that took longest when they were last counted. What one
    prints comes when it has ended."""
    took = recorded("seconds")
    Wanted.groups = sorted(wanted.items(), key=lambda it: -took.get(it[0].name, 0))
    with ProcessPoolExecutor(len(os.sched_getaffinity(0)), multiprocessing.get_context("fork")) as pool:
        for ended in as_completed([pool.submit(run_apart, place) for place in range(len(Wanted.groups))]):
            place, came, printed = ended.result()
            group, _ = Wanted.groups[place]
            group.passed, group.failed, group.seconds = came
            print(printed, end="")
    return list(wanted)


def subjects():
    """The names of the subjects, each with what it is about and its groups, in the order of their files."""
    import cases

    for found in pkgutil.iter_modules(cases.__path__):
        module = importlib.import_module(f"cases.{found.name}")
        own = [it for it in vars(module).values() if isinstance(it, type) and issubclass(it, Cases) and it is not Cases]
        names = [name for it in own for name in vars(it) if name.startswith("test_")]
        yield found.name, module.__doc__, [Group(found.name, it(name)) for it in own for name in names if hasattr(it, name)]


def chosen(groups, asked):
    """The groups to run, each with the parts of names that are asked for: no part where all of its cases are."""
    parts = {} if asked else {group: () for group in groups}
    for words in asked:
        name, _, part = words.partition(": ")
        whole = [group for group in groups if group.matches(words)]
        named = [group for group in groups if part and group.matches(name)]
        for group in whole or named or [group for group in groups if group.may_have(words)]:
            parts[group] = () if whole or parts.get(group) == () else (*parts.get(group, ()), part if named else words)
    return parts


def recorded(what):
    """How many `cases` each group had when they were last counted, or how many `seconds` it took."""
    if not os.path.exists(COUNTS):
        return {}
    with open(COUNTS, encoding="utf-8") as file:
        rows = [line.rstrip("\n").split("\t") for line in file if not line.startswith("#")]
    return {row[0]: int(row[COLUMNS.index(what)]) for row in rows}


def first_sentence(text):
    """The first sentence of a description, on one line."""
    return " ".join((text or "").split()).split(". ")[0].rstrip(".")


def list_subjects(every):
    """Prints each subject with what it is about and how many cases it has, and so each of its groups."""
    counted = recorded("cases")
    for subject, about, groups in every:
        print(f"{subject:<24} {sum(counted.get(group.name, 0) for group in groups):>7}  {first_sentence(about).partition(': ')[2]}")
        for group in groups:
            name = group.name.partition(".")[2]
            print(f"  .{name:<21} {counted.get(group.name, 0):>7}  {first_sentence(group.test._testMethodDoc)}")


def write_counts(groups):
    """Records how many cases the groups have, and how long they took; those that were not run keep their numbers."""
    counted = {**recorded("cases"), **{group.name: group.passed + group.failed for group in groups}}
    took = {**recorded("seconds"), **{group.name: round(group.seconds) for group in groups}}
    known = {group.name for _, _, found in subjects() for group in found}
    with open(COUNTS, "w", encoding="utf-8") as file:
        file.write("# SUBJECT.GROUP, how many cases it has and how many seconds it took, by `tests/run --write-counts`; `tests/run` says where it finds fewer\n")
        file.write("# cases, and begins with the groups that took longest.\n")
        file.writelines(f"{name}\t{count}\t{took[name]}\n" for name, count in sorted(counted.items()) if name in known)


def print_times(ran):
    """Prints the cases and the time of each subject."""
    print(f"{'subject':<16} {'passed':>7} {'failed':>7} {'seconds':>8}")
    for subject in dict.fromkeys(group.subject for group in ran):
        own = [group for group in ran if group.subject == subject]
        passed, failed, seconds = (sum(getattr(group, it) for group in own) for it in ("passed", "failed", "seconds"))
        print(f"{subject:<16} {passed:>7} {failed:>7} {seconds:>8.1f}")


def print_fewer(ran):
    """Says where a group has fewer cases than when they were last counted."""
    counted = recorded("cases")
    for group in ran:
        found = group.passed + group.failed
        if found < counted.get(group.name, 0):
            print(f"fewer cases: {group.name} has {found}, and had {counted[group.name]} when tests/counts.tsv was written")


def arguments():
    words = argparse.ArgumentParser(prog="tests/run", description="Runs the cases on the programs as they were built last.")
    words.add_argument("--only", action="append", default=[], metavar="NAME", help="a subject, a group of its cases, or a part of a case's name; may be given again")
    words.add_argument("--list", action="store_true", help="the subjects and their groups, with how many cases each has")
    words.add_argument("--after", nargs=2, type=int, default=(0, 0), metavar=("P", "F"), help="adds the counts of an earlier part")
    words.add_argument("--write-counts", action="store_true", help="writes how many cases there are to tests/counts.tsv")
    return words.parse_args()


def main():
    """Runs what is asked for. The last line is 'N passed, M failed', and the status 0 where some cases passed and none failed."""
    sys.stdout.reconfigure(line_buffering=True)
    given, every = arguments(), list(subjects())
    if given.list:
        return list_subjects(every)
    wanted = chosen([group for _, _, groups in every for group in groups], given.only)
    missing = programs.missing_programs() if any(group.test.needs_programs for group in wanted) else []
    ran = []
    if not wanted:
        print("no case has this name; tests/run --list shows the subjects and groups")
    if missing:
        report.tell("the programs are built", False, missing, "./build and a run of .ci/run make them")
    else:
        ran = run_side_by_side(wanted)
        print_times(ran)
        if not given.only:
            print_fewer(ran)
    if given.write_counts and not any(wanted.values()):
        write_counts(ran)
    passed = report.counts["passed"] + sum(group.passed for group in ran) + given.after[0]
    failed = report.counts["failed"] + sum(group.failed for group in ran) + given.after[1]
    print(f"{passed} passed, {failed} failed")
    return 1 if failed or not passed else 0
