"""A match that is watched by its key file while it is played, and whose referee is killed and begun again."""
import os
import shutil

from counting import right
from kept_boards.folders import Folder, sections
from kept_boards.running import MOST_SECONDS, begin, comes, kill, make, run, transcript_of

FAULTS = ["broken/match-watch is no key file: name the one that `bg_relay new` made for this party, or a copy of it",
          "seat/match-watch is the key file of player X: for the watchers it is `match-watch`",
          "torn/match is no match file: any key file of the match, without its last line, is one"]
SILENT = "friday/match-watch: no word from the referee for three seconds"
HEARD = "friday/match-watch: the referee is heard again"


class Watched:
    """A match that is watched by its key file, beside files that are none."""

    def __init__(self, room, port):
        self.room, self.table, self.names = room, f"{room}/friday", ("--name-x", "Anna", "--name-o", "Otto")
        make(self.table, port, "--length", "3", *self.names)
        make(f"{room}/saturday", port + 256, "--length", "1")
        self.put(f"{self.table}/match-watch", "friday/match-watch")
        self.put(f"{self.table}/match-x", "seat/match-watch")
        self.write("no key file\n", "broken/match-watch")
        self.write("match 7 length\n", "torn/match")
        os.mkdir(f"{room}/watched")
        self.folder = Folder(f"{room}/watched")
        with open(f"{room}/errors", "w", encoding="utf-8") as errors:
            self.board = begin("board", f"{room}/keys", "--out", self.folder.path, errors=errors)

    def put(self, key, name):
        os.makedirs(os.path.dirname(f"{self.room}/keys/{name}"), exist_ok=True)
        shutil.copy(key, f"{self.room}/keys/{name}")

    def write(self, text, name):
        os.makedirs(os.path.dirname(f"{self.room}/keys/{name}"))
        with open(f"{self.room}/keys/{name}", "w", encoding="utf-8") as file:
            file.write(text)

    def said(self):
        """The lines of the standard error, in any order."""
        with open(f"{self.room}/errors", encoding="utf-8") as errors:
            return sorted(errors.read().replace(f"bg_relay: {self.room}/keys/", "").splitlines())

    def entries(self):
        """The number of entries that the page shows."""
        return self.folder.read("friday.html").count(b"<li id='p")

    def seat(self, player):
        """An automatic player of this match."""
        return begin("auto", "--match", f"{self.table}/match-{player}", "--dir", f"{self.room}/friday-{player}")

    def is_silent(self):
        """Whether the referee was heard once, and is not heard now."""
        said = self.said()
        return said.count(HEARD) > 0 and said.count(SILENT) == said.count(HEARD) + 1

    def was_heard_again(self):
        """Whether nothing was said but the faults, and each time that the referee was silent it was heard again.

        That is twice, and more often where the machine stands still for three seconds.
        """
        said = self.said()
        times = said.count(SILENT)
        return times > 1 and said == sorted([*FAULTS, *times * [SILENT, HEARD]])

    def is_drawn(self):
        """Whether the picture is that of the entries on the page, which the referee has saved."""
        entries = self.entries()
        transcript = "".join(transcript_of(self.table).splitlines(keepends=True)[: 1 + entries])
        return entries > 0 and run("picture", text=transcript)[0] == self.folder.read("friday.svg").decode()

    def is_whole(self):
        """Whether page and picture are those of all entries of a match that is over."""
        transcript = transcript_of(self.table)
        page = run("page", *self.names, text=transcript)[0]
        return page == self.folder.read("friday.html").decode() and self.is_drawn()


def check_watched(room, port):
    """A match that is watched while it is played, and its referee killed and begun again.

    Before O has come the match can't go on, however fast the machine plays.
    """
    watched = Watched(room, port)
    folder, board = watched.folder, watched.board
    right(comes(lambda: folder.names() == ["index.html"]), f"before the referee is heard: {folder.names()}")
    right(comes(lambda: watched.said() == sorted([*FAULTS, SILENT])), f"what is wrong: {watched.said()}")
    referee, other = begin("referee", "--dir", watched.table), begin("referee", "--dir", f"{room}/saturday")
    seats = [watched.seat("x")]
    right(comes(lambda: watched.entries() > 0, MOST_SECONDS), "the first entries of a match that is watched are not shown")
    right(not any(party.poll() for party in (referee, other, *seats)), "a party has ended: are its ports free?")
    kill(referee)
    be_silent(watched)
    seen, referee = watched.entries(), begin("referee", "--dir", watched.table)
    seats.append(watched.seat("o"))
    right(comes(lambda: watched.entries() > seen), "no entry is shown after the referee began again")
    # In the midst of the play, or behind it.
    kill(referee)
    referee = begin("referee", "--dir", watched.table)
    right(comes(lambda: sections(folder.read("index.html")) == (["broken"], ["friday"]), MOST_SECONDS),
          "a match that is watched does not end")
    for party in (referee, *seats):
        party.wait(MOST_SECONDS)
    right(comes(watched.is_whole), "the whole match is not shown")
    right(watched.was_heard_again(), f"what was said: {watched.said()}")
    right(board.poll() is None and not folder.torn, f"board has ended, or files are torn: {sorted(folder.torn)}")
    kill(board, other)
    _, error, status = run("board", f"{room}/keys", "--out", folder.path, "--once")
    right(status == 0 and error.count(" is left out: ") == 3, f"--once with key files: {status}: {error}")


def be_silent(watched):
    """What is shown while the referee is away, and that a key file is mended meanwhile."""
    folder = watched.folder
    right(comes(watched.is_silent), f"a silent referee: {watched.said()}")
    right(comes(watched.is_drawn), "what is shown is not what the referee had saved")
    right(sections(folder.read("index.html")) == (["friday"], []), "a match whose referee is silent has left the index")
    watched.put(f"{watched.room}/saturday/match-watch", "broken/match-watch")
    right(comes(lambda: sections(folder.read("index.html"))[0] == ["broken", "friday"]),
          "a key file that was mended is not shown")
