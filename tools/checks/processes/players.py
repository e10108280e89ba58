"""What players see at the table: of what they type, of a match that they come back to, of an offer, and of the other
player."""
import os
import re
import time

from counting import right
from parties import MOST_SECONDS, MOVE, OPENING, ROLL, SIGN, Party, comes
from processes.running import check, end, make, opener, sit_down, start

# So often a seat comes again, at most, where it shows a board that it shows only if the check was late.
MOST_TIMES = 3
# What is played before X comes back, as it is shown.
PLAYED = ("open 6 5", "X move 24-18 18-13", "O roll 3 1", "O move 8-5 6-5")


def check_typed(room):
    """What is typed before the match begins, and lines that end."""
    top = room.top
    words = ["play", "--player", "X", "--match", f"{top}/table/match-x", "--dir", f"{top}/typed"]
    done = check("typed lines", 0, "that is not understood: `help` lists what may be typed\n", "", *words,
                 stdin=b"\n\r\nhello\n\nboard\nlegal\r\nhelp\nroll\nquit\nboard\n")
    out = done.stdout.decode()
    right(out.count("not understood") == 1, f"typed lines: empty ones are not understood, or others: {out[:900]}")
    right(out.count("pips: ") == 5, f"typed lines: {out.count('pips: ')} boards, where four lines ask for one: {out}")
    for word in ("opening", "nothing to move: it isn't your turn, or you haven't rolled", "When it is your turn you type",
                 "it is the referee's turn"):
        right(word in out, f"typed lines: no '{word}' in {out}")
    for end_of_input in (b"", b"hello\n"):
        check("typed lines that end", 0, "you left the table: the match goes on by the same command\n", "", *words,
              stdin=end_of_input)


def check_rejoining(room):
    """Who comes back sees the present board first, and no entry that was shown before, also where the referee comes late."""
    table, folder = f"{room.top}/rejoining/table", f"{room.top}/rejoining/x"
    match = make(table, room.port + 40)
    entries = [match.entry(1, OPENING, 6, 5), match.entry(2, MOVE, 2, 24, 18, 18, 13), match.entry(3, ROLL, 3, 1),
               match.entry(4, MOVE, 2, 8, 5, 6, 5)]
    command = ["play", "--match", f"{table}/match-x", "--dir", folder]
    referee = Party(match, 0)
    play = come(referee, command, entries[:1], "your turn, X: move")
    check_first_seen(referee, play, entries, folder)
    for is_late in (False, True):
        end(play.process)
        play = come(referee, command, entries, "last: O move 8-5 6-5 (as O counts)\nX to roll\nyour turn, X: roll", is_late)
        told = [line for line in play.screen.splitlines() if line in PLAYED]
        boards = play.screen.count("pips: ")
        right(not told and boards == 1 + is_late, f"who comes back sees {boards} boards, and again {told}")
    end(play.process)
    referee.close()


def come(referee, command, entries, wanted, is_late=False):
    """The seat of X, which comes, is told these entries at once, or late, and shows what is wanted. It shows one board, and
    one before where the referee comes late. Where the check was late itself, the seat comes again."""
    for at in range(MOST_TIMES):
        while referee.received(0):
            pass
        play = sit_down(*command)
        right(referee.hears() == 1, "the seat of X does not ask")
        if is_late:
            right(play.sees("pips: "), f"no board is shown where the referee is not heard: {play.screen}")
        for entry in (*entries, SIGN):
            referee.tell(1, entry)
        right(play.sees(wanted), f"who comes does not see the present board: {play.screen}")
        if play.screen.count("pips: ") == 1 + is_late or at == MOST_TIMES - 1:
            return play
        end(play.process)


def check_first_seen(referee, play, entries, folder):
    """Who comes first sees the present board, and then each entry that comes."""
    right("\nopening\n" not in play.screen, f"who comes sees another board first than the present one: {play.screen}")
    play.type("24/13\n")
    right(comes(lambda: os.path.exists(f"{folder}/party-1.1")), "no choice was saved")
    # The answer to the claim is saved with a tick, and what O does afterwards is not.
    referee.tell(1, entries[1])
    right(play.sees("X move 24-18 18-13\nit is O's turn\n"), f"X's own turn is not shown: {play.screen[-200:]}")
    right(comes(lambda: os.path.exists(f"{folder}/party-1.0")), "the answer was not saved")
    for entry in entries[2:]:
        referee.tell(1, entry)
    right(play.sees("your turn, X: roll"), f"X is not to roll: {play.screen[-200:]}")
    told = [line for line in play.screen.splitlines() if line in PLAYED]
    right(told == list(PLAYED[1:]), f"the entries that came: {play.screen}")


def check_offer(room):
    """Who is to answer an offer to resign is told so, lines at once are all answered, and the referee stays a while."""
    top = room.top
    table = f"{top}/offer/table"
    make(table, room.port + 20)
    referee = start("referee", "--dir", table)
    mover = opener(table)
    other = "XO".replace(mover, "")
    told = {name: f"{table}/match-{name.lower()}" for name in "XO"}
    play = sit_down("play", "--player", other, "--match", told[other], "--dir", f"{top}/offer-other")
    check("an offer to resign", 0, f"{mover} resign normal", "", "act", "--player", mover, "--match", told[mover], "--dir",
          f"{top}/offer-mover", "--seconds", str(MOST_SECONDS // 2), "resign", "normal")
    right(play.sees(f"your turn, {other}: accept, reject\n"),
          f"who is to answer an offer is not told to accept or reject it: {play.screen[-200:]}")
    play.type("hello\n" * 200)
    right(play.sees("not understood", 200), f"of 200 lines at once {play.screen.count('not understood')} were answered")
    accepted = time.monotonic()
    play.type("accept\n")
    if right(play.sees("the match is over\n"), f"the end of the match: {play.screen[-200:]}"):
        right(comes(lambda: referee.poll() is not None), "the referee does not end behind the end of the match")
        stayed = time.monotonic() - accepted
        right(stayed > 4.5, f"the referee ends {stayed:.1f} seconds after the last choice: too early for who lacks it")
    end(referee, play.process)


def check_opponent(room):
    """Who waits is told once each that the other player is not there yet, comes, is away and is back; nobody else is told."""
    top = room.top
    table = f"{top}/opponent/table"
    make(table, room.port + 50)
    referee = start("referee", "--quiet", "--dir", table)
    mover = opener(table)
    waiter = "XO".replace(mover, "")

    def sits_down(player):
        """A player at the table, and when he sat down, or somewhat sooner."""
        words = ["--player", player, "--match", f"{table}/match-{player.lower()}", "--dir", f"{top}/opponent/{player}"]
        begun = time.monotonic()
        return sit_down("play", *words), begun

    waiting, begun = sits_down(waiter)
    right(waiting.sees(f"{mover} is not here yet\n"), f"who waits alone is not told so: {waiting.screen[-200:]}")
    right(time.monotonic() - begun >= 3, "who waits alone is told so before three seconds")
    moving, _ = sits_down(mover)
    right(waiting.sees(f"{mover} is here now\n"), f"who waits is not told who comes: {waiting.screen[-200:]}")
    time.sleep(4)
    right(f"\n{waiter} is " not in moving.read(), f"who comes is told of one who is there: {moving.screen[-300:]}")
    killed = time.monotonic()
    end(moving.process)
    right(waiting.sees(f"{mover} is away: "), f"who waits is not told who leaves: {waiting.screen[-200:]}")
    # It asked last a second before it was killed, or two on a busy machine.
    right(time.monotonic() - killed > 8, "who waits is told who leaves before ten seconds of silence")
    end(referee)
    right(waiting.sees("no word from the referee"), f"the referee's silence is not told: {waiting.screen[-200:]}")
    referee = start("referee", "--quiet", "--dir", table)
    right(waiting.sees("the referee is heard again"), f"the referee is not heard again: {waiting.screen[-200:]}")
    time.sleep(4)
    back, _ = sits_down(mover)
    right(waiting.sees(f"{mover} is back\n"), f"who waits is not told who is back: {waiting.screen[-200:]}")
    time.sleep(2)
    said = re.findall(rf"^{mover} is (.*)\nit is {mover}'s turn$", waiting.read(), re.M)
    right(said == ["not here yet", "here now",
                   "away: nothing was heard of that seat for ten seconds, and the match waits", "back"],
          f"who waits is told {said} of {mover}: {waiting.screen[-900:]}")
    right(f"\n{waiter} is " not in back.read(), f"who comes back is told of one who is there: {back.screen[-300:]}")
    end(referee, waiting.process, back.process)
