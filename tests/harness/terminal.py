"""A terminal that a program under test writes to."""
import os
import pty


class Terminal:
    """Both ends of a terminal; a program is given `end`. What it writes there comes at the other end a little later, so that one is read until no process
    has `end` any more: only then there is no more to come."""

    def __init__(self):
        self.other, self.end = pty.openpty()

    def parts(self):
        """What is written, as it comes, until each program that was given the end has ended."""
        os.close(self.end)
        try:
            while part := os.read(self.other, 1 << 16):
                yield part
        except OSError:
            pass
        finally:
            os.close(self.other)

    def said(self):
        """All that was written."""
        return b"".join(self.parts())
