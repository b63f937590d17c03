"""What the makers of this folder share: files that are made, texts between two marks, and the parts of a picture.

A maker is called without arguments to write its files, and with --check to say which of them are not what it makes.
"""
import os
import sys
from html import escape

HERE = os.path.dirname(os.path.abspath(__file__))
TOP = os.path.dirname(HERE)
SANS = "DejaVu Sans, Verdana, Helvetica, sans-serif"
MONO = "DejaVu Sans Mono, Menlo, Consolas, monospace"
INK = "#1f2328"
FAINT = "#59636e"
RULE = "#d1d9e0"


def read(path):
    with open(os.path.join(TOP, path), encoding="utf-8") as file:
        return file.read()


def between(path, mark, body):
    """The text of a file with this body between the two comments that name the mark."""
    begin, end = f"<!-- {mark}: made by a script, do not edit -->\n", f"<!-- end of {mark} -->"
    text = read(path)
    if text.count(begin) != 1 or text.count(end) != 1:
        sys.exit(f"{path} needs the lines {begin.strip()} and {end}, once each")
    before, _, rest = text.partition(begin)
    return before + begin + "\n" + body + "\n" + end + rest.partition(end)[2]


def put(made):
    """Writes the files that are made, by their paths; with --check none is written, and the status says whether each is there as it is made."""
    if sys.argv[1:] not in ([], ["--check"]):
        sys.exit(sys.modules["__main__"].__doc__)
    paths = [path for path, text in made.items() if not os.path.exists(os.path.join(TOP, path)) or read(path) != text]
    if sys.argv[1:]:
        for path in paths:
            print(f"{path} is not what {os.path.relpath(os.path.realpath(sys.argv[0]), TOP)} makes")
        sys.exit(1 if paths else 0)
    for path in paths:
        with open(os.path.join(TOP, path), "w", encoding="utf-8") as file:
            file.write(made[path])
        print(f"wrote {path}")


class Picture:
    """A picture as lines of SVG, on white."""

    def __init__(self, title, width):
        self.title, self.width, self.height, self.parts = title, width, 0, []

    def text(self, x, y, words, size=13, colour=INK, family=SANS, bold=False, anchor="start"):
        weight = ' font-weight="bold"' if bold else ""
        self.parts.append(f'<text x="{x:g}" y="{y:g}" font-size="{size:g}" fill="{colour}" font-family="{family}"{weight} text-anchor="{anchor}" xml:space="preserve">{escape(words)}</text>')
        self.height = max(self.height, y + size / 2)

    def path(self, steps, colour=INK, width=1.5, fill="none"):
        self.parts.append(f'<path d="{steps}" stroke="{colour}" stroke-width="{width:g}" fill="{fill}" stroke-linejoin="round"/>')

    def box(self, x, y, width, height, fill="#ffffff", colour=RULE, radius=6, dash=""):
        dashes = f' stroke-dasharray="{dash}"' if dash else ""
        self.parts.append(f'<rect x="{x:g}" y="{y:g}" width="{width:g}" height="{height:g}" rx="{radius:g}" fill="{fill}" stroke="{colour}"{dashes}/>')
        self.height = max(self.height, y + height)

    def dot(self, x, y, radius, colour):
        self.parts.append(f'<circle cx="{x:g}" cy="{y:g}" r="{radius:g}" fill="{colour}"/>')

    def tip(self, x, y, colour, towards):
        """An arrow's tip at this point: towards the left, or down."""
        steps = {"left": "l 8 -4 v 8 z", "down": "l -4 -8 h 8 z"}[towards]
        self.parts.append(f'<path d="M {x:g} {y:g} {steps}" fill="{colour}"/>')

    def svg(self):
        height = round(self.height + 16)
        head = f'<svg xmlns="http://www.w3.org/2000/svg" viewBox="0 0 {self.width} {height}" width="{self.width}" height="{height}" role="img">'
        ground = f'<rect width="{self.width}" height="{height}" fill="#ffffff"/>'
        return "\n".join([head, f"<title>{escape(self.title)}</title>", ground, *self.parts, "</svg>"]) + "\n"
