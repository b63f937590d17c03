"""What all subjects share: the programs (`programs`), the terminal that they write to (`terminal`), what a case reports (`report`), the tables (`tables`),
and the runner (`subjects`). What few of them use they import by its file: JSON Schema (`schemas`), and the texts and checks of edits (`edit_texts`, `edit_checks`)."""
from harness.programs import FENCECHECK, FENCER, LIMIT, PROGRAMS, TEST_CALLS, TESTS, TOP, certificate_of, failing_in_turn, run, said_by, watched
from harness.report import accepting, answer_of, called, expect, expect_call, judge, same, tell
from harness.subjects import Cases, PreloadedCases
from harness.tables import (
    EXAMPLES, MODELS, bytes_of, example, example_files, in_data, lines, litmus_cases, outcomes_in, printed, sources_of, text_of, without_end,
    without_front, worked_files, write,
)
from harness.terminal import Terminal
