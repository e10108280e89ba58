"""Whom a referee, a seat and a watcher hear: what can't be read, the longest packet, forged notices, and claims from
elsewhere."""
import os
import shutil
import signal
import subprocess
import time

from counting import right
from parties import AWAY, BACKGAMMON, GAMMON, HERE, MOVE, NORMAL, OPENING, RESIGN, SIGN, Party, Stranger, comes, says
from processes.running import end, make, opener, sit_down, start, transcript
from program import PROGRAM


def check_failed_receives(room):
    """A socket that can't be read is said once; strace lets each read fail, where it is there and may trace."""
    top = room.top
    if shutil.which("strace") is None or subprocess.run(["strace", "-o", "/dev/null", "true"], check=False).returncode != 0:
        print("strace is missing or may not trace here, so no read of a socket failed")
        return
    fails = ["strace", "-f", "-qq", "-o", "/dev/null", "-e", "inject=recvfrom,recvmsg:error=EIO:when=1+"]
    words = [PROGRAM, "watch", "--quiet", "--match", f"{top}/table/match-watch"]
    watcher = subprocess.Popen([*fails, *words], stdin=subprocess.DEVNULL, stdout=subprocess.DEVNULL, stderr=subprocess.PIPE,
                               start_new_session=True)
    # By then it has tried to read for three seconds.
    _, said = says(watcher, "no word from the referee for three seconds")
    os.killpg(watcher.pid, signal.SIGKILL)
    said = [line for line in (said + watcher.communicate()[1].decode()).splitlines() if "no word" not in line]
    right(len(said) == 1 and "the socket of party 3 could not be read: Input/output error" in said[0],
          f"a socket that can't be read: {said}")


def check_longest(room):
    """A packet that is as long as one can be comes whole: it is told by what follows from all of it."""
    top = room.top
    match = make(f"{top}/longest/table", room.port + 70)
    referee = Party(match, 0)
    longest = match.entries(1, 8 * [(MOVE, 4, *4 * (24, 23))])
    right(len(longest) == 98, f"the longest packet has {len(longest)} bytes")
    watcher = start("watch", "--match", f"{top}/longest/table/match-watch")
    right(referee.hears() == 3, "the watcher does not ask")
    referee.tell(3, longest)
    is_told, said = says(watcher, "at party 3: illegal entry 1")
    right(is_told, f"of a packet of 98 bytes, whose first entry is not legal, it is said: '{said}'")
    end(watcher)
    referee.close()


def check_notices(room):
    """Of the other player a seat believes the referee alone, and what it can read; an older referee tells nothing of him."""
    top = room.top
    table = f"{top}/notices/table"
    match = make(table, room.port + 60)
    referee, stranger = Party(match, 0), Stranger()
    play = sit_down("play", "--player", "X", "--match", f"{table}/match-x", "--dir", f"{top}/notices/x")
    right(referee.hears() == 1, "the seat of X does not ask")
    longest, told = 0, time.monotonic()
    referee.tell(1, match.entry(1, OPENING, 5, 6))
    right(play.sees("O to move 5 6"), f"the opening is not shown: {play.screen[-200:]}")
    until = time.monotonic() + 4
    while time.monotonic() < until:
        stranger.send(match.port + 1, match.sealed(0, 1, AWAY))
        for datagram in (AWAY, AWAY + bytes(16), match.sealed(0, 2, AWAY), match.sealed(1, 0, AWAY),
                         *(match.sealed(0, 1, wrong) for wrong in (b"\0\3", b"\1\2", b"\2", AWAY + b"\0", b""))):
            referee.send(match.port + 1, datagram)
        referee.tell(1)
        longest, told = max(longest, time.monotonic() - told), time.monotonic()
        time.sleep(0.5)
    # Where the check itself stood still for that long, it told nothing.
    is_heard = "no word" not in play.read() or max(longest, time.monotonic() - told) > 2
    right("\nO is " not in play.screen and is_heard, f"what is no notice counts: {play.screen[-300:]}")
    for notice, words in ((AWAY, "O is away: "), (HERE, "O is back\n")):
        referee.tell(1, notice)
        right(play.sees(words), f"a notice is not shown as '{words}': {play.screen[-200:]}")
    end(play.process)
    referee.close()
    stranger.close()


def check_senders(room):
    """The referee answers the questions of parties and of nobody else, and a claim counts from its own seat alone."""
    top = room.top
    table, port = f"{top}/senders/table", room.port + 30
    match = make(table, port)
    referee = start("referee", "--dir", table)
    mover = 1 + "XO".index(opener(table))
    strangers = {"another port": Stranger(), "another address": Stranger(port + mover, "127.0.0.2")}
    for stranger in strangers.values():
        stranger.send(port, match.sealed(mover, 0, SIGN))
    parties = {party: Party(match, party) for party in (255, 3, 3 - mover, mover)}
    for number, party in parties.items():
        party.tell(0)
        right(party.hears() == 0, f"the referee does not answer party {number}")
    # It takes datagrams as they came, so these would be answered by now.
    for name, stranger in strangers.items():
        right(stranger.received(0) is None, f"the referee answers a stranger of {name}")
    strangers["another address"].send(port, match.sealed(mover, 0, match.claim(mover, 2, RESIGN, NORMAL)))
    parties[3 - mover].tell(0, match.claim(mover, 2, RESIGN, BACKGAMMON))
    parties[mover].tell(0, match.claim(mover, 2, RESIGN, GAMMON))
    comes(lambda: len(transcript(table)) > 1)
    claims = {f"{'XO'[mover - 1]} resign {level}": who for level, who in
              (("normal", "another address"), ("backgammon", "the other seat's port"), ("gammon", "its seat's port"))}
    counted = claims.get(transcript(table)[-1], "nowhere")
    right(counted == "its seat's port", f"of three claims for a seat the one counts that came from {counted}")
    end(referee)
    for party in (*strangers.values(), *parties.values()):
        party.close()
