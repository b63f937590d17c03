"""Pages: the constants that `--html` prints around a document, and what Chromium draws of the pages (tests/page)."""
import os
import subprocess

from harness import TESTS, TOP, Cases, tell


def ran(*words):
    return subprocess.run(words, stdout=subprocess.PIPE, stderr=subprocess.PIPE, universal_newlines=True)


class Pages(Cases):
    def test_constants(self):
        """The page's constants are what its sources make."""
        made = ran(os.path.join(TOP, "crates", "run_page", "page", "make.py"), "--check")
        tell("the page's constants", made.returncode == 0, made.stderr)

    def test_drawn(self):
        """What a browser draws of each page is what the documents say. Where none is installed that is skipped: no case is counted."""
        drawn = ran(os.path.join(TESTS, "page", "run"))
        if not drawn.stdout.startswith("skipped: "):
            tell("what the page draws", drawn.returncode == 0, drawn.stdout + drawn.stderr)
        print(drawn.stdout, end="")
