"""The matches that two people play at terminals: what the dice go by, and what each of them is to type."""
import collections
import os

from people import LISTED, PROMPTED
from program import TOP
from refused_lines import (BY_BOARD, BY_TURN, at_cap, double_first, late_double, no_cube, offer_first, one_die_or_both,
                           other_cube)

# What is played: to how many points, what the dice go by, whether there are colours, and where it begins. Each player plays
# one of so many turns that are listed first. The dice let each line be refused that is to be: those of `tries`, once by
# each player, where the board lets it.
Kind = collections.namedtuple("Kind", "length secret has_colours among begun tries")
BEHIND = bytes(range(2, 32))
HERE = os.path.join(TOP, "tools", "checks")
KINDS = {
    "1": Kind("1", b"\0\1" + BEHIND, True, 1, None, {player: (no_cube, late_double, one_die_or_both) for player in "XO"}),
    "3": Kind("3", b"\x9e\2" + BEHIND, False, 8, None, {"X": (double_first, offer_first), "O": (*BY_BOARD, double_first)}),
    "begun": Kind("1", b"\xde\0" + BEHIND, False, 1, f"{HERE}/larger_die.txt", {"X": (), "O": BY_TURN}),
    "capped": Kind("2", b"\0\1" + BEHIND, False, 1, f"{HERE}/cube_at_cap.txt", {"X": (other_cube,), "O": (at_cap,)}),
}
# The length of the match in which all is tried.
LONG = "3"
# What is typed at each kind of prompt first, and what is to answer it.
REFUSED = {
    "roll": [
        ("8/5 6/5", r"roll\s+the\s+dice\s+first"),
        ("take", r"nobody\s+has\s+doubled"),
        ("accept", r"nobody\s+has\s+offered"),
        ("resign", r"at\s+which\s+level"),
        ("n", r"at\s+which\s+level"),
        ("no", r"nobody\s+has\s+offered"),
        ("resign", r"Enter\s+alone\s+to\s+play\s+on"),
        ("", rf"pips: {PROMPTED}"),
        ("legal", rf"nothing\s+to\s+move.*\s+rolled{PROMPTED}"),
        ("undo", r"nothing\s+to\s+undo"),
    ],
    "move": [
        ("hello", r"not\s+understood:\s+`help`"),
        ("8/7/6/5/4/3", r"four\s+steps"),
        ("24/3", r"can't\s+be\s+played"),
        ("9/8 9/7", r"no\s+checker\s+on\s+point\s+9"),
        ("ROLL", r"the\s+dice\s+are\s+rolled:\s+move\s+them"),
        ("22/24", r"you\s+move\s+from\s+higher\s+points\s+to\s+lower\s+ones"),
        ("24 22", r"did\s+you\s+mean\s+24/22\?"),
        ("m", r"several\s+turns\s+are\s+legal"),
        ("", rf"pips: {PROMPTED}"),
        ("Board", rf"pips: {PROMPTED}"),
        ("?", r"When it is your turn(?:.|\n)*later\n"),
        ("help", r"When it is your turn(?:.|\n)*later\n"),
        ("legal", LISTED),
    ],
}
# What is typed once where a part of a turn is, by the number of its steps; PART is that part.
MORE_IS_TO_COME = r"must\s+play\s+more:\s+PART\s(?:.|\n)*can\s+be\s+played\n(?:.|\n)*so\s+far\s+PART:"
PARTS = {
    2: [("m", MORE_IS_TO_COME), ("Take", r"nobody\s+has\s+doubled(?:.|\n)*so\s+far\s+PART:")],
    4: [("move", MORE_IS_TO_COME)],
}

# What each player does once, at a prompt that offers it, in a match of more than one point: a drop, a take, offers to
# resign that are rejected and accepted.
CHOICES = {
    "X": [("roll", "double", "d"), ("accept", "reject", "n"), ("take", "drop", "t")],
    "O": [("take", "drop", "p"), ("roll", "double", "double"), ("roll", "resign", "resign")],
}
# Behind how many typed turns who goes away, and how.
GOINGS = {("O", 5): "killed behind a turn", ("X", 4): "ctrl-D", ("O", 7): "quit", ("O", 9): "away", ("X", 6): "no referee",
          ("X", 8): "no memory"}
