"""The board and the page that a watcher keeps of a match at terminals: how they were first, and what they lacked."""
import os
import subprocess
import time

from program import PROGRAM

TITLE = "Anna & Otto"
# A watcher puts what it keeps in its place a second after the one before, or somewhat later on a busy machine. Of the time
# between two looks no more than this counts: the machine may stand still.
MOST_AGE, MOST_PAUSE = 10, 0.5
# What the page of a running match has, for browsers without scripts to show it anew.
REFRESH = "http-equiv='refresh'"


def read(path):
    with open(path, encoding="utf-8") as file:
        return file.read()


class Board:
    """The board that a watcher keeps, and for how long it lacked what that watcher had printed when it printed more."""

    def __init__(self, path, printed):
        self.path, self.printed = path, printed
        self.file, self.looked = None, time.monotonic()
        self.size = self.age = self.most_age = 0
        self.is_old = False

    def look(self):
        file = os.stat(self.path).st_mtime_ns if os.path.exists(self.path) else None
        size = os.stat(self.printed).st_size
        looked, self.looked = self.looked, time.monotonic()
        if file != self.file:
            self.file, self.size, self.age, self.is_old = file, size, 0, False
            return
        if self.is_old:
            self.age += min(self.looked - looked, MOST_PAUSE)
        if size != self.size:
            self.size, self.is_old = size, True
            self.most_age = max(self.most_age, self.age)


class Kept:
    """What is kept of a match in a folder, as it is looked at while the match is played."""

    def __init__(self, top):
        self.top, self.board = top, Board(f"{top}/board", f"{top}/w1")
        self.first_board, self.first_page = None, ""

    def look(self):
        self.board.look()
        if self.first_board is None and os.path.exists(f"{self.top}/board"):
            self.first_board = open(f"{self.top}/board", encoding="ascii")
        if not self.first_page and os.path.exists(f"{self.top}/page"):
            self.first_page = read(f"{self.top}/page")

    def check(self):
        """What is wrong with what was kept."""
        return (check_first_board(self.top, self.first_board) + check_page(self.top, self.first_page)
                + check_kept(self.top, self.board.most_age))


def check_first_board(top, opened):
    """The board that was kept first is still whole to who opened it then: each is put in the place of the one before."""
    if opened is None:
        return ["no board was kept"]
    with opened:
        lines = opened.read().split("\n")
        is_same = os.fstat(opened.fileno()).st_ino == os.stat(f"{top}/board").st_ino
    return ["the board that was kept first was written over"] if is_same or len(lines) != 8 else []


def check_page(top, first):
    """The page that was kept first shows itself anew, and the last one is what `page` makes of the transcript."""
    wrong = []
    if REFRESH not in first or not first.endswith("</html>\n"):
        wrong.append("the page that was kept first is not whole, or stays as it is")
    command = [PROGRAM, "page", "--title", TITLE, "--numbering", "X", "--match", f"{top}/table/match-watch"]
    with open(f"{top}/w0", "rb") as file:
        made = subprocess.run(command, stdin=file, capture_output=True, check=False)
    if made.returncode != 0 or made.stdout.decode() != read(f"{top}/page") or REFRESH in read(f"{top}/page"):
        wrong.append("the page that was kept last is not that of the transcript")
    return wrong


def check_kept(top, most_age):
    """Anybody reads what is kept, and it lacked nothing for long."""
    wrong = []
    for name in ("board", "page"):
        mode = os.stat(f"{top}/{name}").st_mode & 0o777
        if mode != 0o644:
            wrong.append(f"the mode of the {name} that is kept for others is {mode:o}, and not 644")
    if most_age > MOST_AGE:
        wrong.append(f"the board that was kept lacked for {most_age:.0f} seconds what its watcher had printed")
    return wrong
