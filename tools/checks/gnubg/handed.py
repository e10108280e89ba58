"""Matches that GNU Backgammon is handed by `export`, and that are taken back by `import`."""
import itertools
import random
import re

from gnubg.commands import imported
from gnubg.ids import position_id
from gnubg.matches import broken_off, judge, kept, legal, mover, played, run, text_of, varied

# The kinds of lines that the matches together are to have.
KINDS = ("X drop", "O drop", "X take", "O take", "X accept", "O accept", "X reject", "O reject", "pass")


def hand_over(number, room, seen):
    """What is wrong with a match."""
    chances = random.Random(number)
    lines = broken_off(legal(varied(played(number), chances)), chances)
    for kind in KINDS:
        seen[kind] += sum(line == kind for line in lines)
    seen["entries"] += len(lines) - 1
    seen["resigned with dice to move"] += sum(
        " resign " in line and " roll " in before and " accept" in after
        for before, line, after in zip(lines, lines[1:], lines[2:]))
    return differences(lines, room, seen)


def differences(lines, room, seen):
    """What comes back of a match in another way than it went."""
    went = kept(lines)
    file, shown = imported(run("export", stdin=text_of(lines)), room)
    if file is None:
        return [f"gnubg writes nothing: {shown[-200:]}"]
    came, added = read_back(file, 2 if went[0].endswith(" rules 2") else 1)
    seen["turns added before a win"] += added
    # Dice that are left to move at the end come back with the only turn, or with none where no step can be played.
    if re.match("open|[XO] roll", went[-1]) and re.match("[XO] move|pass", "".join(came[len(went):])):
        seen["turns added at the end"] += 1
        went.append(came[len(went)])
    for at, (one, other) in enumerate(itertools.zip_longest(same_order(went), same_order(came)), 1):
        if one != other:
            return [f"line {at}, {one}, came back as {other}"]
    return list(misread(shown, came, added or resigned_without_step(went)))


def same_order(lines):
    """The lines with the steps of each turn in one order."""
    return [" ".join(line.split()[:2] + sorted(line.split()[2:])) if " move" in line else line for line in lines]


def without_move(text, at):
    """A match file without the movement before the win of this line, which gnubg added to the dice of who resigned."""
    lines = text.split("\n")
    if not re.search(r"\d\d:", lines[at]):
        at -= 1
    lines[at] = re.sub(r"(.*\d\d:)[^A-Z]*", r"\1" + " " * 20, lines[at])
    return "\n".join(lines)


def read_back(text, rules):
    """The lines of a match that gnubg wrote, and how many movements it added before a win."""
    for added in range(text.count("Wins") + 1):
        found = run("import", "--rules", rules, stdin=text)
        refused = re.match(r"bg_relay: the match file: refused at line (\d+): the loser resigns out of turn: .*Wins", found)
        if not refused:
            return found.splitlines(), added
        text = without_move(text, int(refused[1]) - 1)
    return [], 0


def misread(shown, came, is_moved_on):
    """How the score and the position that gnubg shows differ from those of the lines that came back. Where it added a
    turn before a win it may have moved on from where the match stands here."""
    board = judge(came)
    ours = re.search(r"score (\d+)-(\d+)", board[0])
    theirs = re.search(r"The score .* is: X (\d+), O (\d+) ", shown)
    if ours.groups() != theirs.groups():
        yield f"gnubg says {theirs[0]}, and here it is {ours[0]}"
    there, here = re.findall(r"Position ID: (\S+)", shown)[-1], position_id(board, mover(came))
    if there != here and not is_moved_on:
        yield f"gnubg is at {there}, and the match is at {here}"


def resigned_without_step(lines):
    """Whether the last lines are an offer to resign, with dice that no step can be played with, and its acceptance:
    gnubg passes over these dice without a word."""
    front = lines[:-2]
    if not lines[-1].endswith(" accept") or not re.match("open|[XO] roll", front[-1]):
        return False
    return judge([*front, f"{lines[-2][0]} move"])[-1].startswith("ok")
