"""What the screen of a player at a terminal shows: colours, widths, entries, and what may be done."""
import re

from people import LOOKS, NO_MEMORY, PLAYED
from refused_lines import turns_to_list
from terminals.goings import WAITS
from terminals.kept import read
from terminals.kinds import LONG

ENTRY = re.compile(r"^(?:open \d \d|[XO] (?:roll \d \d|double|take|drop|move(?: .*)?|pass|resign \w+|accept|reject))$", re.M)
# What tells whether a player may double: the game, the cube, and what is offered before a roll.
OFFERS = re.compile(r"^length (\d+, game \d+.*)$|^cube: (\d+ .*)$|^(your turn, [XO]: roll,.*)$", re.M)
# What is said to who comes, before the board.
HINT = "`help` lists what you can type; Enter alone draws the board"
FOREIGN = re.compile(r"^(?:bg_relay: )?somebody\s+else\s+plays\s+for\s+you:[^`]*?your\s+key\s+file\n", re.M)
GREETING = {"X": "Anna (X, you) against Otto (O)", "O": "Otto (O, you) against Anna (X)"}


def forget_foreign(person):
    """Takes out of the screen that there are entries in the player's name that his folder never chose: those before."""
    person.screen, count = FOREIGN.subn("", person.screen)
    return [] if count else [f"{person.player} is not told that others played for him"]


def check_looks(person, has_colours):
    """Where there are colours, his checkers and offers are bold, and the other's checkers magenta."""
    if not has_colours:
        return [f"{person.player} has colours in spite of NO_COLOR"] if "\x1b" in person.raw else []
    own, other = person.player, "XO".replace(person.player, "")
    own_mark, other_mark = rf"\x1b\[1m{own}\d*\x1b\[0m", rf"\x1b\[35m{other}\d*\x1b\[0m"
    bare, board = re.compile(r"[ .|XO\d]*[XO][ .|XO\d]*"), re.compile(rf"(?:[ .|\d]|{own_mark}|{other_mark})*")
    wrong = []
    for line in person.raw.split("\n"):
        if bare.fullmatch(LOOKS.sub("", line)) and not board.fullmatch(line):
            wrong.append(f"{own} sees a line of the board with other colours: {line!r}")
        if line.startswith("your turn, ") and not re.fullmatch(rf"your turn, {own}:\x1b\[1m.*\x1b\[0m", line):
            wrong.append(f"{own} sees an offer that is not bold: {line!r}")
    return wrong[:3]


def check_widths(person):
    """No line is wider than the terminal that it stands on."""
    ends = [begin for begin, _ in person.lives[1:]] + [len(person.screen)]
    wrong = []
    for (begin, columns), end in zip(person.lives, ends):
        wide = [line for line in person.screen[begin:end].split("\n") if len(line) > columns and NO_MEMORY not in line]
        wrong += [f"{person.player} sees a line of more than {columns} columns: {line}" for line in wide[:2]]
    return wrong


def check_shown(person, top, kind):
    """No entry is shown twice, and to who was not killed each is behind the first board; who comes back sees the present
    board first."""
    entries = read(f"{top}/w0").splitlines()[1:]
    at, wrong = 0, []
    shown = ENTRY.findall(person.screen)
    for line in shown:
        if line not in entries[at:]:
            wrong.append(f"{person.player} sees an entry twice, or one that is none: {line}")
            break
        at = entries.index(line, at) + 1
    behind = len(read(kind.begun).splitlines()) - 1 if kind.begun else 0
    if person.player == "X" and shown not in (entries[behind:], entries[behind + 1:]):
        wrong.append(f"X does not see each entry: {shown}")
    first = f"{GREETING[person.player]} " * (kind.length == LONG) + f"{HINT} length {kind.length}, game "
    for begin, _ in person.lives:
        lines = " ".join(person.screen[begin:begin + 200].split())
        if not lines.startswith(first) and NO_MEMORY not in lines:
            wrong.append(f"{person.player} comes, and sees first {lines}")
    return wrong


def check_offers(person):
    """He is offered to double where he may, by the game and the cube that he sees, and nowhere else."""
    heading_seen, cube_seen, wrong = "", "none ", []
    for heading, cube, said in OFFERS.findall(person.screen):
        if cube:
            cube_seen = cube
        elif said:
            number, owner = cube_seen.split(" ", 1)
            with_cube = not heading_seen.endswith(", Crawford game") and not heading_seen.startswith("1, ")
            may = with_cube and number != "128" and owner in ("in the middle", f"of {person.player} (you)")
            if (", double," in said) != may:
                wrong.append(f"{person.player} sees `{said}` where the cube is {cube_seen}, and the match `{heading_seen}`")
        else:
            heading_seen = heading
    return wrong[:3]


def check_turns(person):
    """Nobody is told of themselves that it is the turn of the other player."""
    told = f"it is {person.player}'s turn\n" in person.screen
    return [f"{person.player} is told that it is {person.player}'s turn, as if of the other player"] if told else []


def check_forced(person):
    """Below the board of who is to move, the only turn is shown where there is one, and else none; or it is played there, with
    no prompt above it."""
    shown = (PLAYED, WAITS) if "--forced" in person.command else ("the only turn: ", "you can't move: ")
    wrong = []
    for drawn in re.finditer(rf"^{person.player} to move \d \d\n(.*)\n", person.screen, re.M):
        wanted = len(turns_to_list(person.player, person.screen[:drawn.start(1)]))
        if drawn[1].startswith(shown) != (wanted == 1):
            wrong.append(f"{person.player} has {wanted} turns, and sees below the board `{drawn[1]}`")
    return wrong[:3]


def check_breaks(person):
    """What may be done is broken between offers alone."""
    said = re.findall(r"^your turn, [XO]:\s(?:.|\n)*?(?:backgammon|drop|reject)$", person.screen, re.M)
    broken = [offers for offers in said if not all(line.endswith((",", ":")) for line in offers.split("\n")[:-1])]
    return [f"{person.player} sees an offer that is broken: {offers!r}" for offers in broken[:3]]
