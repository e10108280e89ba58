"""Lines that are refused by the board that a person sees, for the check that plays matches at terminals. Each function gives
what the player may type at such a prompt, with what is to answer it; nothing where the board does not let it be refused.
What may be played there is reckoned here, and not by the program.
"""
import functools
import re

from boards import board_in
from turns import BAR, OFF, can_step, is_by, legal

# The lines of the board that was drawn last.
BOARD = re.compile(r"^score: .*\n((?:.*\n){0,26}?)bar: (.*)$", re.M)
CHECKERS = 15


class Seen:
    """The board that was drawn last, the bar, and the dice to be moved, in the numbers of who sees it."""

    def __init__(self, player, screen):
        self.own, self.other = player, "XO".replace(player, "")
        lines, bar = BOARD.findall(screen)[-1]
        self.points = board_in(lines.splitlines())
        self.bar, self.other_bar = (int(re.search(rf"{name} (\d+)", bar)[1]) for name in (player, self.other))
        self.dice = [int(die) for die in re.findall(rf"^{player} to move (\d) (\d)$", screen, re.M)[-1]]

    def count(self, player, point):
        return self.points.get(point, ("", 0))[1] if self.points.get(point, "_")[0] == player else 0

    def own_points(self):
        return [point for point in range(24, 0, -1) if self.count(self.own, point)]

    def steps(self):
        """Each step of a checker on the board by a die, to a point."""
        return [(point, point - die) for point in self.own_points() for die in self.dice if point > die]

    def sides(self):
        """The checkers of both players, as the rules of `turns` have them."""
        own, other = ([self.count(player, point) for point in range(25)] + [0] for player in (self.own, self.other))
        own[BAR] = self.bar
        own[OFF] = CHECKERS - sum(own)
        return own, other

    def pips(self):
        """The pip counts of both players, the own one first."""
        own, other = self.sides()
        return [sum(point * count for point, count in enumerate(own)),
                sum((BAR - point) * count for point, count in enumerate(other)) + BAR * self.other_bar]

    def turns(self):
        """The legal turns, the greatest first."""
        own, other = self.sides()
        return reckoned(tuple(own), tuple(other), *self.dice)

    def single_steps(self):
        """Each step that can be played first, by one of the dice."""
        own, other = self.sides()
        return [(point, max(point - die, OFF)) for die in sorted(set(self.dice)) for point in range(BAR, 0, -1)
                if can_step(own, other, point, die)]


reckoned = functools.lru_cache(maxsize=64)(legal)


def shown(steps, mark="-"):
    """Steps as they are printed, or typed by another mark between two points."""
    names = {BAR: "bar", OFF: "off"}
    return " ".join(f"{names.get(point, point)}{mark}{names.get(to, to)}" for point, to in steps)


def turns_to_list(player, screen):
    """The legal turns as they are to be listed: each position once, by the greatest turn, with the marks of hits."""
    first = {}
    for steps, hits, end in Seen(player, screen).turns():
        first.setdefault(end, (steps, hits))
    return [" ".join(shown([step]) + "*" * hit for step, hit in zip(steps, hits)) for steps, hits in first.values()]


def seen(player, kind, screen):
    """What is seen where there are dice to be moved."""
    return Seen(player, screen) if kind == "move" else None


def held(player, kind, screen):
    board = seen(player, kind, screen)
    for point, to in board.steps() if board and not board.bar else ():
        if board.count(board.other, to) > 1:
            return f"{point}/{to}", rf"{point}-{to} can't be played:\s+point {to} is held by {board.other}"
    return None


def held_by_both(player, kind, screen):
    """A way of one checker by both dice to a point that is held: the part that can't be played, by the larger die first."""
    board = seen(player, kind, screen)
    if not board or board.bar or board.dice[0] == board.dice[1]:
        return None
    for point in board.own_points():
        middle = point - max(board.dice)
        to = middle - min(board.dice)
        if to > 0 and board.count(board.other, to) > 1:
            part = (point, middle) if board.count(board.other, middle) > 1 else (middle, to)
            return f"{point}/{to}", rf"{shown([part])} can't be played:\s+point {part[1]} is held by {board.other}"
    return None


def bar_first(player, kind, screen):
    board = seen(player, kind, screen)
    for point, to in board.steps() if board and board.bar else ():
        return f"{point}/{to}", rf"{point}-{to} can't be played:\s+enter your checker from the bar first"
    return None


def not_home(player, kind, screen):
    board = seen(player, kind, screen)
    if board and not board.bar and board.own_points()[0] > 6:
        for point in board.own_points():
            if point in board.dice:
                return f"{point}/off", rf"{point}-off can't be played:\s+not all your checkers are home"
    return None


def higher(player, kind, screen):
    board = seen(player, kind, screen)
    if board and not board.bar and board.own_points()[0] < 7:
        for point in board.own_points()[1:]:
            if point < max(board.dice) and point not in board.dice:
                return f"{point}/o", rf"{point}-off can't be played:\s+a\s+checker\s+on\s+a\s+higher\s+point"
    return None


def wrong_hits(player, kind, screen):
    board = seen(player, kind, screen)
    if not board or board.bar:
        return None
    open_ones = [(point, to) for point, to in board.steps() if not board.count(board.other, to)]
    for point, to in open_ones:
        for other_point, other_to in open_ones:
            if point != other_point and sorted((point - to, other_point - other_to)) == sorted(board.dice):
                return f"{point}/{to}* {other_point}/{other_to}", r"doesn't\s+hit\s+exactly\s+where"
    return None


def other_cube(player, kind, screen):
    other = "XO".replace(player, "")
    cubes = re.findall(r"^cube: \d+ (.*)$", screen, re.M)
    if kind == "roll" and cubes and cubes[-1] == f"of {other}":
        return "double", rf"the cube is {other}'s, so you can't double"
    return None


def without_cube(screen):
    """Why nobody can double in the game of this screen, if it is played without the cube."""
    length, mark = re.findall(r"^length (\d+), game \d+(.*)$", screen, re.M)[-1]
    if length == "1":
        return r"a\s+match\s+to\s+one\s+point\s+is\s+played\s+without\s+the\s+cube"
    return r"nobody can double in the Crawford game" if mark == ", Crawford game" else None


def no_cube(player, kind, screen):
    why = without_cube(screen) if kind == "roll" else None
    return ("d", why) if why else None


def late_double(player, kind, screen):
    """A double behind the roll: what forbids it in the whole game is said first."""
    if kind != "move":
        return None
    other = "XO".replace(player, "")
    cubes = re.findall(r"^cube: \d+ (.*)$", screen, re.M)
    if cubes and cubes[-1] == f"of {other}":
        return "double", rf"the cube is {other}'s, so you can't double"
    return "double", without_cube(screen) or r"only\s+before\s+you\s+roll"


def wrong_hit(player, kind, screen):
    """The first step of a turn, with the mark of a hit where it hits nothing."""
    board = seen(player, kind, screen)
    for steps, hits, _ in board.turns() if board else ():
        if len(steps) > 1 and not hits[0] and steps[0][1] != OFF:
            return f"{shown([steps[0]], '/')}*", r"doesn't\s+hit\s+exactly\s+where"
    return None


def double_first(player, kind, screen):
    return ("roll", r"answer the double first") if kind == "take" else None


def offer_first(player, kind, screen):
    return ("Roll", r"answer the offer to resign first") if kind == "accept" else None


def no_die(player, kind, screen):
    board = seen(player, kind, screen)
    if not board or board.dice[0] == board.dice[1]:
        return None
    for step in board.single_steps():
        if board.sides()[0][step[0]] > 1:
            return f"{shown([step, step], '/')}", rf"{shown([step])} can't be played:\s+no\s+die\s+is\s+left\s+for\s+it"
    return None


def no_bar(player, kind, screen):
    board = seen(player, kind, screen)
    if board and not board.bar:
        to = BAR - board.dice[0]
        return f"b/{to}", rf"bar-{to} can't be played:\s+you\s+have\s+no\s+checker\s+on\s+the\s+bar"
    return None


def both_dice(player, kind, screen):
    """A step behind which the other die can't be played, where both can be."""
    board = seen(player, kind, screen)
    if not board or board.dice[0] == board.dice[1] or len(board.turns()[0][0]) < 2:
        return None
    firsts = {steps[0] for steps, _, _ in board.turns()}
    for step in board.single_steps():
        if step not in firsts:
            greatest = shown(board.turns()[0][0]).replace(" ", r"\s+")
            return shown([step], "/"), rf"you\s+must\s+play\s+both\s+dice:\s+{greatest}\s+can\s+be\s+played"
    return None


def larger_die(player, kind, screen):
    """A step by the smaller die, where one die can be played and the larger one is to be."""
    board = seen(player, kind, screen)
    if not board or board.dice[0] == board.dice[1] or len(board.turns()[0][0]) != 1:
        return None
    larger, turns = max(board.dice), [steps for steps, _, _ in board.turns()]
    for step in board.single_steps():
        if (step,) not in turns and not is_by(*board.sides(), step, larger):
            greatest = shown(turns[0])
            return shown([step], "/"), rf"must\s+play\s+the\s+larger\s+die,\s+{larger}:\s+{greatest}\s+can\s+be\s+played"
    return None


def which_way(player, kind, screen):
    """A checker's way by both dice, which hits on other points by the one than by the other: both turns are named."""
    board = seen(player, kind, screen)
    ways = {}
    for steps, hits, _ in board.turns() if board and board.dice[0] != board.dice[1] else ():
        if len(steps) == 2 and steps[0][1] == steps[1][0]:
            hit = [to for (_, to), is_hit in zip(steps, hits) if is_hit]
            ways.setdefault((steps[0][0], steps[1][1]), []).append((steps, hit))
    for way, found in ways.items():
        if any(hit != found[0][1] for _, hit in found):
            other = next(steps for steps, hit in found if hit != found[0][1])
            one, other = (shown(steps).replace(" ", r"\s+") for steps in (found[0][0], other))
            return shown([way], "/"), rf"which\s+way\?\s+Type\s+{one}\s+or\s+{other}$"
    return None


def one_die_or_both(player, kind, screen):
    """A checker that is borne off by the larger die, or by both dice: a turn of each kind is named."""
    board = seen(player, kind, screen)
    turns = [steps for steps, _, _ in board.turns()] if board and board.dice[0] != board.dice[1] else []
    for steps in turns:
        if len(steps) == 2 and steps[0][1] == steps[1][0] and steps[1][1] == OFF:
            step = (steps[0][0], OFF)
            begun = [turn for turn in turns if len(turn) == 2 and turn[0] == step]
            if begun:
                one, other = (shown(turn).replace(" ", r"\s+") for turn in (steps, begun[0]))
                return shown([step], "/"), rf"which\s+way\?\s+Type\s+{one}\s+or\s+{other}$"
    return None


def at_cap(player, kind, screen):
    cubes = re.findall(r"^cube: (\d+) (.*)$", screen, re.M)
    if kind == "roll" and cubes and cubes[-1] == ("128", f"of {player} (you)"):
        return "double", r"the cube shows 128, so nobody can double"
    return None


BY_BOARD = (held, held_by_both, bar_first, not_home, higher, wrong_hits, wrong_hit, other_cube, late_double, no_die, no_bar,
            which_way)
BY_TURN = (larger_die, both_dice)
