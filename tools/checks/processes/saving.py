"""What is said, and what goes on, where a party can't save: it has saved too often, its disk is full, or its folder is
away."""
import errno
import os
import subprocess

from counting import right
from parties import MOST_SECONDS, OPENING, Party, comes
from processes.cutting import cutter
from processes.running import check, end, make, run, sit_down
from program import PROGRAM

# What a board says below the opening that is told here.
MOVES = "\nX to move 6 5\n"


def check_spent(room):
    """What is said of a party that has saved as often as it can, when it is to save again."""
    top = room.top
    match = make(f"{top}/spent/table", room.port + 20)
    front = match.number.to_bytes(8, "big") + bytes([1, match.rules, 0xff, 0xff, 0xff, 0xff, 0, 0, 0, 0, 0])
    os.mkdir(f"{top}/spent/x", 0o700)
    for party, folder in ((0, "table"), (1, "x")):
        with open(f"{top}/spent/{folder}/party-{party}.1", "wb") as file:
            file.write(b"BGS2" + bytes([party]) + front)
    told = "can save no more in {}: {}\nsaves spent\n"
    check("a referee that can't save again", 1, "",
          "bg_relay: the referee " + told.format(f"{top}/spent/table", "`bg_relay recover` makes one that it can go on with"),
          "referee", "--quiet", "--dir", f"{top}/spent/table")
    referee = Party(match, 0)
    play = sit_down("play", "--match", f"{top}/spent/table/match-x", "--dir", f"{top}/spent/x")
    right(referee.hears() == 1, "the seat of X does not ask")
    referee.tell(1, match.entry(1, OPENING, 6, 5))
    right(play.sees("your turn, X: move"), f"X is not to move: {play.screen[-200:]}")
    play.type("24/13\n")
    right(play.sees("bg_relay: player X " + told.format(f"{top}/spent/x", "give another --dir")),
          f"a seat that can't save again: {play.screen[-300:]}")
    right(comes(lambda: play.process.poll() == 1), f"a seat that can't save again ends with {play.process.poll()}")
    end(play.process)
    referee.close()


def check_full(room):
    """A player whose disk is full is told what to do, and goes on when there is room again; and so is who makes a match."""
    top = room.top
    library = cutter(top)
    if library is None:
        print("there is no C compiler here, so no disk was full")
        return
    cut = {**os.environ, "LD_PRELOAD": library, "CUT_WRITE": "1", "CUT_ERROR": str(errno.ENOSPC)}
    table, why = f"{top}/full/table", "No space left on device (os error 28); make room there"
    match = make(table, room.port + 20)
    referee = Party(match, 0)
    play = sit_down("play", "--match", f"{table}/match-x", "--dir", f"{top}/full/x", environment=cut)
    right(referee.hears() == 1, "the seat of X does not ask")
    referee.tell(1, match.entry(1, OPENING, 6, 5))
    right(play.sees("your turn, X: move"), f"X is not to move: {play.screen[-200:]}")
    play.type("24/13\n")
    for told in (f"party-1.1 could not be written: {why}: the match goes on from what is saved\n",
                 "your choice could not be saved, and was not made: choose again\n"):
        right(play.sees(told), f"a disk that is full: no '{told}' in {play.screen[-400:]}")
    play.type("24/13\n")
    right(comes(lambda: os.path.exists(f"{top}/full/x/party-1.1")), f"no choice was saved: {play.screen[-200:]}")
    end(play.process)
    referee.close()
    new = [PROGRAM, "new", "--length", "1", "--port", "41000", "--dir", f"{top}/full-new"]
    done = subprocess.run(new, env=cut, capture_output=True, text=True, check=False, timeout=MOST_SECONDS)
    told = f"bg_relay: {top}/full-new/secret could not be written: {why}, and run this again\n"
    right((done.returncode, done.stderr) == (1, told), f"a match made where there is no room: {done}")
    left = [name for name in os.listdir(f"{top}/full-new") if ".new" in name]
    right(not left, f"a match made where there is no room left {left}")
    right(run(*new[1:]).returncode == 0, "no match is made where there was no room")


def check_away(room):
    """A player whose folder is away is told that nothing can be chosen, and goes on when it is back."""
    top = room.top
    folder, table = f"{top}/away-x", f"{top}/away/table"
    match = make(table, room.port + 40)
    referee = Party(match, 0)
    play = sit_down("play", "--player", "X", "--match", f"{table}/match-x", "--dir", folder)
    right(referee.hears() == 1, "the seat of X does not ask")
    opening = match.entry(1, OPENING, 6, 5)
    referee.tell(1, opening)
    right(play.sees("your turn, X: move"), f"X is not to move: {play.screen[-200:]}")
    os.rename(folder, f"{folder}-gone")
    play.type("move 24-18 18-13\n")
    for word in ("away-x can't be found: ", "party 1 stands still until its files can be read again",
                 "your choice could not be saved, and was not made: choose again"):
        right(play.sees(word), f"a folder that is away: no '{word}' in {play.screen[-400:]}")
    play.type("move 24-18 18-13\n")
    right(play.sees("nothing can be chosen until your files can be read again"), f"chosen: {play.screen[-200:]}")
    os.rename(f"{folder}-gone", folder)
    right(play.sees("party 1 has its files again, and goes on"), f"it does not go on: {play.screen[-200:]}")
    referee.tell(1, opening)
    right(not os.path.exists(f"{folder}/party-1.1"), "a choice was saved that was not made")
    # It begins anew, and shows the board with the opening when that has come.
    shown = play.read().count(MOVES)
    right(comes(lambda: play.type("board\n") or play.read().count(MOVES) > shown), f"no opening: {play.screen[-200:]}")
    play.type("move 24-18 18-13\n")
    right(comes(lambda: os.path.exists(f"{folder}/party-1.1")), f"no choice was saved: {play.screen[-200:]}")
    end(play.process)
    check_claimed(top, folder)
    referee.close()


def check_claimed(top, folder):
    """A player who comes back before a choice was answered is told that it waits, and not that it is his turn."""
    play = sit_down("play", "--player", "X", "--match", f"{top}/away/table/match-x", "--dir", folder)
    right(play.sees("your choice, move 24-18 18-13, is kept, and waits for the referee"), f"on the screen: {play.screen[-200:]}")
    play.type("roll\n")
    right(play.sees("your choice, move 24-18 18-13, is kept", 2), f"chosen once more: {play.screen[-200:]}")
    right("your turn" not in play.screen, f"it is told to be X's turn: {play.screen[-300:]}")
    end(play.process)
