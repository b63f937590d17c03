#!/usr/bin/env python3
"""Makes ../src/bytes.rt, the page up to the document and the page after it, from the files of this folder.

  make.py            writes the file
  make.py --check    fails if the file is not what this folder makes
  make.py --page     prints the page with the document that standard input gives
"""
import os
import re
import sys

HERE = os.path.dirname(os.path.abspath(__file__))
BYTES = os.path.normpath(os.path.join(HERE, "..", "src", "bytes.rt"))
DOCUMENT = "{{document}}\n"
OPENING = '<script type="application/json" id="data">\n'


def text_of(name):
    with open(os.path.join(HERE, name), encoding="utf-8") as file:
        return file.read()


def parts():
    """The page up to the document, and the page after it."""
    page = text_of("page.html")
    head, tail = (re.sub(r"^\{\{([a-z.]+)\}\}\n", lambda mark: text_of(mark[1]), part, flags=re.M)
                  for part in page.split(DOCUMENT))
    if not head.endswith(OPENING) or not tail.startswith("</script>\n"):
        sys.exit("make.py: the document is not alone in its element")
    if (head + tail).count("</script>") != 2 or "<!--" in head + tail or "{{" in head + tail:
        sys.exit("make.py: a script has a byte sequence that ends or changes its element, or a mark is left")
    return head, tail


def piece(byte):
    """How a byte is spelled in a byte string."""
    character = chr(byte)
    if character in '"\\':
        return "\\" + character
    return character if 32 <= byte < 127 else f"\\x{byte:02x}"


def literal(text):
    """A byte string, a line for each line of the text."""
    lines = []
    for line in text.split("\n"):
        spelled = "".join(map(piece, line.encode()))
        lines.append(re.sub("^ ", r"\\x20", spelled))  # a blank at the front of a line would be dropped
    return 'b"\\\n' + "\\n\\\n".join(lines) + '"'


def source():
    head, tail = parts()
    return (
        "//! The page around its document, which `page/make.py` makes from the files beside it. Do not edit it here.\n\n"
        f"/// The page up to the document.\npub(crate) const HEAD: &[u8] = {literal(head)};\n\n"
        f"/// The page after the document.\npub(crate) const TAIL: &[u8] = {literal(tail)};\n"
    )


def main():
    if sys.argv[1:] == ["--check"]:
        with open(BYTES, encoding="utf-8") as file:
            if file.read() != source():
                sys.exit("make.py: src/bytes.rt is not what page/ makes; run crates/run_page/page/make.py")
    elif sys.argv[1:] == ["--page"]:
        sys.stdout.write(sys.stdin.read().join(parts()))
    elif sys.argv[1:]:
        sys.exit(__doc__)
    else:
        with open(BYTES, "w", encoding="utf-8") as file:
            file.write(source())


if __name__ == "__main__":
    main()
