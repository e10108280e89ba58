"""A hundred matches in which nothing happens: what `board` takes of a processor to keep their pages."""
import os
import shutil

from counting import right, slowness
from kept_boards.folders import Folder, sections
from kept_boards.running import MOST_SECONDS, begin, comes, kill, least_share, make

# The most that a hundred idle matches take of a processor, of referees' folders and where they are watched. A program that
# is compiled with checks is some times slower, most of all in sealing what a watcher sends.
MOST_SHARE, MOST_WATCHED = (0.03, 0.2) if "BG_RELAY" in os.environ else (0.01, 0.01)
# So many matches are watched while they wait, each over four ports of these.
WATCHED = 100
PORTS = 16


def check_idle(room, seconds):
    """A hundred matches in which nothing happens."""
    for at in range(100):
        shutil.copytree(f"{room}/tables/monday", f"{room}/many/{at:03}")
    os.mkdir(f"{room}/shown")
    board = begin("board", f"{room}/many", "--out", f"{room}/shown")
    folder = Folder(f"{room}/shown")
    right(comes(lambda: len(sections(folder.read("index.html"))[1]) == 100, MOST_SECONDS), "a hundred matches are not shown")
    # What has just changed is read twice more, which takes its time.
    most = MOST_SHARE * slowness()
    share = least_share(board, seconds, most)
    right(share < most, f"100 matches take {100 * share:.2f} % of a processor, and not less than {100 * most:.2f} %")
    kill(board)
    return share


def check_idle_watchers(room, port, seconds):
    """A hundred matches that wait for their players, watched by their key files."""
    keys, referees = [], []
    for at in range(WATCHED):
        table = f"{room}/wait/{at:03}/table"
        make(table, port + PORTS * at, "--length", "1")
        keys.append(f"{table}/match-watch")
        referees.append(begin("referee", "--dir", table))
    os.mkdir(f"{room}/waiting")
    board = begin("board", *keys, "--out", f"{room}/waiting")
    folder = Folder(f"{room}/waiting")
    right(comes(lambda: len(sections(folder.read("index.html"))[0]) == WATCHED, MOST_SECONDS),
          "not all that are watched are shown")
    most = MOST_WATCHED * slowness()
    share = least_share(board, seconds, most)
    kill(board, *referees)
    right(share < most, f"{WATCHED} matches that are watched take {100 * share:.2f} % of a processor, of {100 * most:.2f} %")
    return share
