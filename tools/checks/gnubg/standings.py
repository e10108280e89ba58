"""Standings in automatic matches, which GNU Backgammon is told by their XGIDs."""
import itertools
import random
import re

from gnubg.commands import shown_in
from gnubg.ids import as_read
from gnubg.matches import played, run, text_of

# The most standings of one match.
MOST_OF_MATCH = 50


def standings(count):
    """The XGID, Position ID and Match ID of so many standings in automatic matches."""
    found = []
    if not count:
        return found
    for number in itertools.count(1):
        lines = played(number)
        ends = sorted(random.Random(number).sample(range(2, len(lines) + 1), min(MOST_OF_MATCH, len(lines) - 1)))
        for end in ends:
            told = run("id", stdin=text_of(lines[:end]))
            if match := re.fullmatch(r"Position ID: (\S+)\nMatch ID: (\S+)\n(XGID=\S+)\n", told):
                found.append((match[3], match[1], match[2]))
        if len(found) >= count:
            return found[:count]


def misnamed(named, room):
    """What gnubg calls otherwise of these standings, which it is told by their XGIDs. It puts the player on roll at the
    bottom, so that X and O are swapped where O is on roll."""
    with open(f"{room}/commands", "w", encoding="ascii") as file:
        file.writelines(f"set player {player} human\n" for player in (0, 1))
        file.writelines(f"set automatic {what} off\n" for what in ("bearoff", "game", "move", "roll"))
        file.writelines(f"set display off\nset xgid {xgid}\nset display on\nshow board\n" for xgid, _, _ in named)
    shown = shown_in(room)
    parts = shown.split("Will display boards for computer moves.\n")[1:]
    if len(parts) != len(named):
        return [f"gnubg shows {len(parts)} of {len(named)} standings: {shown[-200:]}"]
    wrong = []
    for (xgid, position, of_match), part in zip(named, parts):
        here = position, as_read(of_match, xgid.split(":")[3] == "-1")
        there = re.search(r"Position ID: (\S+)\s+Match ID +: (\S+)", part)
        if not there or there.groups() != here:
            wrong.append(f"{xgid}: gnubg says {there and there.groups()}, and here it is {here}")
    return wrong
