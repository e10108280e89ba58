"""People who watch a match at pseudo terminals, for the check of what `watch` draws there."""
import os
import pty
import re

from program import PROGRAM

HOME, CLEAR_LINE, CLEAR_BELOW = "\x1b[H", "\x1b[K", "\x1b[J"
LOOKS = re.compile(r"\x1b\[\d*m")
SEQUENCE = re.compile(r"\x1b\[\d*[A-Za-z]")


class Viewer:
    """One who watches at a terminal of so many columns and lines, with more words and variables."""

    def __init__(self, name, words, columns=80, lines=24, **variables):
        self.name, self.columns, self.lines, self.raw, self.status = name, columns, lines, "", None
        # The number of the screen by which each step of the match was shown.
        self.steps = []
        pid, self.terminal = pty.fork()
        if pid == 0:
            for variable in ("NO_COLOR", "TERM"):
                os.environ.pop(variable, None)
            os.environ.update(COLUMNS=str(columns), LINES=str(lines), **{"TERM": "xterm", **variables})
            os.execv(PROGRAM, [PROGRAM, "watch", *words])
        self.pid = pid

    def read(self):
        try:
            # What comes may begin between the two bytes of an end of a line.
            self.raw = (self.raw + os.read(self.terminal, 65536).decode()).replace("\r\n", "\n")
        except OSError:
            _, status = os.waitpid(self.pid, 0)
            self.status = os.waitstatus_to_exitcode(status)

    def kill(self):
        if self.status is None:
            os.kill(self.pid, 9)
            os.waitpid(self.pid, 0)

    def drawn(self):
        """The screens that were drawn, without colours; none where it was not drawn on."""
        return LOOKS.sub("", self.raw).split(HOME)[1:]

    def words(self):
        """The words of each whole screen, with one blank between two."""
        screens = [screen for screen in self.drawn() if screen.endswith(CLEAR_BELOW)]
        return [" ".join(SEQUENCE.sub("", screen).split()) for screen in screens]

    def takes_step(self, wanted):
        """Whether a screen behind that of the step before has what is wanted, a pattern: then this step was shown."""
        start = self.steps[-1] + 1 if self.steps else 0
        at = next((at for at, words in enumerate(self.words()) if at >= start and re.search(wanted, words)), None)
        if at is not None:
            self.steps.append(at)
        return at is not None

    def seen(self):
        """What a terminal shows at last: each line, and where the cursor is."""
        rows, row, column = [[" "] * self.columns for _ in range(self.lines)], 0, 0
        for part in re.findall(r"\x1b\[[A-Z]|\n|[^\x1b\n]+", LOOKS.sub("", self.raw)):
            if part == HOME:
                row = column = 0
            elif part == "\n":
                row, column = row + 1, 0
                if row == self.lines:
                    rows, row = [*rows[1:], [" "] * self.columns], row - 1
            elif part in (CLEAR_LINE, CLEAR_BELOW):
                rows[row][column:] = [" "] * (self.columns - column)
                for below in rows[row + 1:] if part == CLEAR_BELOW else ():
                    below[:] = [" "] * self.columns
            else:
                rows[row][column:column + len(part)] = part
                column += len(part)
        return ["".join(line).rstrip() for line in rows], (row, column)
