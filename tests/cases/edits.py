"""Edits that the prover has to refuse: what each cites stands in its file, and there are few. None is tried here."""
import os

from harness import TOP, Cases, edit_texts, tell

MOST_IN_GATE = 60
MOST_OF_CRATE = 16


class Edits(Cases):
    needs_programs = False

    def test_gate(self):
        """The gate tries few edits, since each costs it half a minute; the others stand in tests/edits."""
        folders = [os.path.join(TOP, "crates", crate, "must-fail") for crate in os.listdir(os.path.join(TOP, "crates"))]
        edits = sum(len(os.listdir(folder)) for folder in folders if os.path.isdir(folder))
        tell(f"at most {MOST_IN_GATE} edits in the gate", edits <= MOST_IN_GATE, edits)

    def test_few(self):
        """Few edits of each crate stand in tests/edits; those of the gate count apart."""
        folder = os.path.join(TOP, "tests", "edits")
        for crate in sorted(name for name in os.listdir(folder) if os.path.isdir(os.path.join(folder, name))):
            edits = [file for file in os.listdir(os.path.join(folder, crate)) if file.endswith(".edit")]
            tell(f"at most {MOST_OF_CRATE} edits of {crate}", 0 < len(edits) <= MOST_OF_CRATE, edits)

    def test_apply(self):
        """What an edit or a wrong body cites stands in its file once."""
        for name, fault in edit_texts.faults(TOP):
            tell(name, not fault, fault)
