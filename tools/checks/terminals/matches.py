"""A match that two people play at terminals, and all that is wrong with it and with their screens."""
import time

from people import WORDS
from terminals.results import check_cubes, check_results, check_scores
from terminals.screens import (check_breaks, check_forced, check_looks, check_offers, check_shown, check_turns,
                               check_widths, forget_foreign)
from terminals.tables import Table, left_by_all


def play(kind, top):
    """Plays a match; gives what is wrong, and the screens of both players."""
    table = Table(kind, top)
    people, begun = table.people, time.time()
    table.play()
    wrong = table.left()
    wrong += [fault for person in people if kind.begun for fault in forget_foreign(person)]
    wrong += [f"nobody typed a turn in this way: {style}" for style in left_by_all(people, kind)]
    wrong += table.check() + table.kept.check()
    wrong += [fault for person in people for fault in check_looks(person, kind.has_colours)]
    wrong += [fault for person in people for fault in [*check_widths(person), *check_shown(person, top, kind)]]
    wrong += check_results(people, top)
    wrong += [] if kind.begun else check_cubes(people[0]) + check_scores(people[0])
    for person in people:
        wrong += check_offers(person) + check_forced(person) + check_breaks(person) + check_turns(person)
    name = f"length {kind.length}, begun in its midst," if kind.begun else f"length {kind.length}"
    print(f"a match of {name} at two terminals took {time.time() - begun:.0f} seconds")
    return wrong, [WORDS.sub("", person.screen) for person in people]
