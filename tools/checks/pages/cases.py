"""What is drawn to be looked at: pictures of standings, an index of these, and pages of matches."""
import pathlib
import sys

from program import TOP

EXAMPLES = pathlib.Path(TOP, "examples")


def counts(points):
    """The checkers of a player on his points."""
    return [points.get(point, 0) for point in range(26)]


def numbers(x, o, length=7, rules=1, game=1, score=(0, 0), crawford=0, cube=(1, 0), phase=0, player=1, dice=(0, 0), level=0):
    """A standing as the program reads it. A player is 1 or 2, a phase 0 to 5 in their order."""
    given = [length, rules, game, *score, crawford, *cube, phase, player, *dice, level, *counts(x), *counts(o)]
    return " ".join(map(str, given)) + "\n"


START = {24: 2, 13: 5, 8: 3, 6: 5}
OPENED = {24: 1, 13: 4, 8: 3, 6: 4, 5: 1, 4: 2}
PICTURES = {
    "opening": numbers(START, START),
    "a_full_bar": numbers({25: 15}, {0: 3, 1: 2, 2: 2, 3: 2, 4: 2, 5: 2, 6: 2}, 99, 2, 145, (98, 97), 1, (1, 0), 3, 1, (6, 6)),
    "two_bars": numbers({25: 6, 6: 9}, {25: 12, 5: 3}, game=3, score=(1, 1), cube=(128, 2), phase=3, player=2, dice=(3, 1)),
    "a_doubled_cube": numbers(OPENED, START, 9, 1, 3, (3, 2), 0, (64, 1), 2, 2),
    "an_offer": numbers({13: 5, 8: 3, 6: 7}, {0: 12, 1: 1, 2: 1, 3: 1}, 9, 1, 3, (3, 2), 0, (2, 2), 4, 1, (5, 2), 3),
    "an_offer_of_o": numbers({0: 15}, START, 9, 1, 3, (3, 2), 0, (2, 1), 4, 2, (0, 0), 1),
    "a_finished_match": numbers({24: 1, 13: 4, 8: 3, 6: 7}, {0: 15}, 99, 1, 120, (98, 482), 0, (128, 2), 5, 2),
}
ENDED_GAMES = """length 25
open 3 1
X move 8-5 6-5
O double
X take
O resign backgammon
X accept
open 2 6
O move 24-18 13-11
X double
O drop
"""


def transcripts():
    """The matches whose pages are drawn."""
    lines = (EXAMPLES / "whole_match.txt").read_text().splitlines(keepends=True)
    doubled = "".join(lines[: lines.index("O double\n") + 1])
    return {
        "an_opening": (EXAMPLES / "opening.txt").read_text(),
        "a_bar": "".join(lines[: lines.index("X move\n")]),
        "a_doubled_cube": doubled,
        "an_offer": doubled + "X take\nO resign backgammon\n",
        "ended_games": ENDED_GAMES,
        "a_finished_match": "".join(lines),
    }


def cases_of(names):
    """What is drawn under these names, or all that is."""
    cases = dict(PICTURES)
    cases["index_of_pictures"] = "index\n" + "".join(f"{name} {text}" for name, text in PICTURES.items())
    cases |= {f"page_of_{name}": f"page {name} <b>& 'more'</b>\n{text}" for name, text in transcripts().items()}
    if unknown := set(names) - set(cases):
        sys.exit(f"see_pages: no {', '.join(sorted(unknown))}; there are {', '.join(cases)}")
    return {name: text for name, text in cases.items() if name in names or not names}
