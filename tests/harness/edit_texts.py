"""Looks up what edits cite: each text that an edit replaces must stand in its file exactly once.

An edit that the prover must refuse (`crates/CRATE/must-fail`, `tests/edits/CRATE`) has lines 'file: PATH', 'old: TEXT' and 'new: TEXT'. It may
have several pairs of texts; each applies to what the earlier ones made. A wrong body (`tests/wrong-bodies`) has the same lines and 'crate: CRATE';
its old text and its new text may have several lines each.
"""
import contextlib
import glob
import os


def read_text(path):
    with open(path, encoding="utf-8") as file:
        return file.read()


def write_text(path, text):
    with open(path, "w", encoding="utf-8") as file:
        file.write(text)


def words_of(path):
    """The lines of a file, each as the word that it begins with and the rest."""
    with open(path, encoding="utf-8") as file:
        parts = [line.rstrip("\n").partition(":") for line in file]
    return [(word, rest[1:] if rest.startswith(" ") else rest) for word, _, rest in parts]


def fields_of(path):
    """The fields of a wrong body: the lines that begin with one word are one text."""
    fields = {}
    for word, rest in words_of(path):
        fields.setdefault(word, []).append(rest)
    return {word: "\n".join(rest) for word, rest in fields.items()}


def pairs_of(path):
    """The pairs of an edit: a file, a text in it, and the text that takes its place."""
    pairs, file, old = [], "", ""
    for word, rest in words_of(path):
        if word == "file":
            file = rest.strip()
        elif word == "old":
            old = rest
        elif word == "new":
            pairs.append((file, old, rest))
    return pairs


def fault_of(crate, pairs):
    """Why these pairs can't be applied to a crate, or no text."""
    texts = {}
    for name, old, new in pairs:
        path = os.path.join(crate, name)
        if not os.path.isfile(path):
            return f"there is no file {name}"
        if name not in texts:
            texts[name] = read_text(path)
        if not old or texts[name].count(old) != 1:
            return f"{name} has {old!r} {texts[name].count(old)} times"
        texts[name] = texts[name].replace(old, new)
    return "" if any(old != new for _, old, new in pairs) else "it changes nothing"


@contextlib.contextmanager
def applied(crate, pairs):
    """Applies the pairs of an edit to a crate, and puts its files back at the end."""
    paths = {os.path.join(crate, file) for file, _, _ in pairs}
    were = {path: read_text(path) for path in paths}
    try:
        for file, old, new in pairs:
            path = os.path.join(crate, file)
            write_text(path, read_text(path).replace(old, new))
        yield
    finally:
        for path, text in were.items():
            write_text(path, text)


def faults(top):
    """Each edit and each wrong body with why it can't be applied, or no text."""
    for path in sorted(glob.glob(os.path.join(top, "crates", "*", "must-fail", "*.edit"))):
        yield f"the edit {os.path.relpath(path, top)}", fault_of(os.path.dirname(os.path.dirname(path)), pairs_of(path))
    for path in sorted(glob.glob(os.path.join(top, "tests", "edits", "*", "*.edit"))):
        crate = os.path.basename(os.path.dirname(path))
        yield f"the edit {os.path.relpath(path, top)}", fault_of(os.path.join(top, "crates", crate), pairs_of(path))
    for path in sorted(glob.glob(os.path.join(top, "tests", "wrong-bodies", "*.edit"))):
        body = fields_of(path)
        fault = fault_of(os.path.join(top, "crates", body["crate"]), [(body["file"], body["old"], body["new"])])
        yield f"the wrong body {os.path.relpath(path, top)}", fault
