"""The legal turns of a position, reckoned by the rules of backgammon and by nothing of the program, for the check that
plays matches at terminals.

A position is two lists of 26 counts, of who moves and of the other player, both in the numbers of who moves: from 0, which
is off, to 25, the bar of who moves; the other player's bar is at 0 in the other list, and is of no matter here.
"""
BAR, OFF = 25, 0


def can_step(own, other, point, die):
    """Whether a checker may go from a point by a die."""
    if not own[point] or own[BAR] and point != BAR:
        return False
    to = point - die
    if to > OFF:
        return other[to] < 2
    is_home = not any(own[7:])
    return is_home and (to == OFF or not any(own[point + 1:]))


def after_step(own, other, point, die):
    """The position behind that step, and whether it hits."""
    own, other, to = list(own), list(other), max(point - die, OFF)
    own[point] -= 1
    own[to] += 1
    hits = to > OFF and other[to] == 1
    if hits:
        other[to] = 0
    return own, other, hits


def playable(own, other, dice):
    """Each playable list of steps by these dice, in any order: the steps, whether each hits, and the position behind."""
    found = [((), (), (tuple(own), tuple(other)))]
    for die in sorted(set(dice), reverse=True):
        rest = list(dice)
        rest.remove(die)
        for point in range(BAR, 0, -1):
            if can_step(own, other, point, die):
                *behind, hits = after_step(own, other, point, die)
                step = (point, max(point - die, OFF))
                found += [((step, *more), (hits, *marks), end) for more, marks, end in playable(*behind, rest)]
    return found


def dice_of(first, second):
    return [first] * 4 if first == second else [first, second]


def legal(own, other, first, second):
    """The legal turns, the greatest first: the steps of each, whether each of them hits, and the position behind it."""
    found = {steps: (hits, end) for steps, hits, end in playable(own, other, dice_of(first, second))}
    most, larger = max(map(len, found)), max(first, second)
    turns = [steps for steps, (_, (behind, _)) in found.items() if len(steps) == most or behind[OFF] == 15]
    if most == 1 and first != second:
        turns = [steps for steps in turns if is_by(own, other, steps[0], larger)] or turns
    return [(steps, *found[steps]) for steps in sorted(turns, reverse=True)]


def is_by(own, other, step, die):
    """Whether a step can be played by this die."""
    return can_step(own, other, step[0], die) and step[1] == max(step[0] - die, OFF)
