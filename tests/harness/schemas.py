"""The JSON Schema of the documents, and which printed documents it refuses.

`faults` judges a value by the keywords of draft 2020-12 that docs/fencer.schema.json uses; a keyword that it does not know is an
error. Each document that a run of `fencer` prints is held against the schema (`hold`).
"""
import functools
import json
import os
import re

TESTS = os.path.dirname(os.path.dirname(os.path.abspath(__file__)))
SCHEMA = os.path.join(os.path.dirname(TESTS), "docs", "fencer.schema.json")
TYPES = {
    "object": lambda value: isinstance(value, dict),
    "array": lambda value: isinstance(value, list),
    "string": lambda value: isinstance(value, str),
    "integer": lambda value: isinstance(value, int) and not isinstance(value, bool),
    "boolean": lambda value: isinstance(value, bool),
    "null": lambda value: value is None,
}
SAID = ("$schema", "title", "description", "$defs")


class Held:
    """How many documents were held against the schema, and what was wrong with some of them."""

    count, faults = 0, []


@functools.lru_cache(maxsize=None)
def schema():
    with open(SCHEMA, encoding="utf-8") as file:
        return json.load(file)


def same(a, b):
    """Whether two values are one in JSON, where `true` is not 1."""
    return isinstance(a, bool) == isinstance(b, bool) and a == b


def typed(value, types):
    return any(TYPES[it](value) for it in ([types] if isinstance(types, str) else types))


def fitting(value, schemas, whole):
    return sum(1 for it in schemas if not any(faults(value, it, whole)))


def member_faults(value, rule, whole):
    """The faults of an object's members."""
    properties = rule.get("properties", {})
    for name in rule.get("required", []):
        if name not in value:
            yield f"required: {name} is missing"
    for name, held in value.items():
        if name in properties:
            yield from (f"{name}: {said}" for said in faults(held, properties[name], whole))
        elif rule.get("additionalProperties", True) is False:
            yield f"additionalProperties: {name}"


# of each keyword whether a value breaks it; `pattern` is of strings alone, `minimum` and `maximum` of integers
BROKEN = {
    "type": lambda value, asked, whole: not typed(value, asked),
    "enum": lambda value, asked, whole: not any(same(value, it) for it in asked),
    "const": lambda value, asked, whole: not same(value, asked),
    "pattern": lambda value, asked, whole: isinstance(value, str) and not re.search(asked.removesuffix("$") + (r"\Z" if asked.endswith("$") else ""), value),
    "minimum": lambda value, asked, whole: TYPES["integer"](value) and value < asked,
    "maximum": lambda value, asked, whole: TYPES["integer"](value) and value > asked,
    "oneOf": lambda value, asked, whole: fitting(value, asked, whole) != 1,
}


def faults(value, rule, whole):
    """What a schema, part of the whole one, refuses of a value."""
    for keyword, asked in rule.items():
        if keyword == "$ref":
            yield from faults(value, whole["$defs"][asked.removeprefix("#/$defs/")], whole)
        elif keyword == "properties":
            if isinstance(value, dict):
                yield from member_faults(value, rule, whole)
        elif keyword == "items":
            if isinstance(value, list):
                yield from (f"{number}: {said}" for number, it in enumerate(value) for said in faults(it, asked, whole))
        elif keyword in BROKEN:
            if BROKEN[keyword](value, asked, whole):
                yield f"{keyword}: {str(value)[:80]}"
        elif keyword not in ("required", "additionalProperties", *SAID):
            raise ValueError(f"no keyword: {keyword}")


def kind(document):
    """The name of the definition by which a document is judged."""
    return document.get("command", "refusal")


def document_faults(document):
    """What the schema refuses of a document: of one that fits no definition, what its own one refuses."""
    whole = schema()
    if not any(faults(document, whole, whole)):
        return []
    rule = whole["$defs"].get(kind(document) if isinstance(document, dict) else "")
    return [*faults(document, rule, whole), "oneOf"] if rule else ["oneOf"]


def hold(words, printed):
    """Holds what a run prints against the schema, where it is whole documents, a line each."""
    if b'"format":"fencer ' not in printed[:40] or not printed.endswith(b"}\n"):
        return
    for document in printed.splitlines():
        Held.count += 1
        found = document_faults(json.loads(document))
        if found:
            Held.faults.append((words, found))
