#!/usr/bin/env python3
"""One of any number of servers that carry the same matches over one PostgreSQL. Each holds parties of matches as it last
saw them, and may be behind the others at any time: the fence of the store decides which save counts. Bots play.

    ./server.py LIBRARY DATABASE TOLD [FENCE]

LIBRARY   OUT/libbg_relay.so.N, as tools/build_library leaves it
DATABASE  how to connect, as libpq takes it
TOLD      a file, which gets a line for each entry that this server tells: the match, the number, and the entry
FENCE     next, which is right; equal or none, to see what goes wrong with another fence, and without one
"""
import os
import pathlib
import random
import sys

sys.path.insert(0, str(pathlib.Path(__file__).resolve().parents[1] / "languages" / "python"))

from bg_relay import NOBODY, REFEREE, Match, Referee, Refused, Seat, Status, Took, Watcher, load
from database import DatabaseError
from store import Store

SEATS, WATCHER = (1, 2), 3
MATCHES_A_TURN = 4
# Why a seat does not claim what a bot would like to.
NOT_NOW = (Status.NOT_YOUR_TURN, Status.ALREADY_CLAIMED, Status.ILLEGAL)


class Table:
    """The parties of one match at this server. What changed is in `unsaved` until the store has it."""

    def __init__(self, store, match):
        self.store, self.match = store, Match(*match)
        self.parties = {number: self.open(number) for number in (REFEREE, *SEATS)}
        self.parties[WATCHER] = Watcher(WATCHER, self.match)
        self.unsaved, self.told = set(), 0

    def open(self, number):
        slots = self.store.slots(self.match.id, number)
        if number == REFEREE:
            return Referee.open(self.match, slots, any(slots))
        return Seat.open(number, self.match, slots, any(slots))

    def reopen(self, number):
        """Goes on from what the store has with a party whose save has failed, which is closed."""
        self.parties[number] = self.open(number)
        self.unsaved.discard(number)

    def close(self):
        for party in self.parties.values():
            party.close()

    def deliver(self, datagram):
        """Carries a packet to its party, and then the answer."""
        party = self.parties.get(datagram.to)
        if party is None:
            return
        taken = party.take(datagram.packet)
        if taken.kind == Took.ACCEPTED:
            self.unsaved.add(datagram.to)
        if taken.answer:
            self.deliver(taken.answer)

    def referee_adds(self):
        """The referee opens a game, or passes a turn, where that is due."""
        if self.parties[REFEREE].due() is not None:
            self.unsaved.add(REFEREE)

    def choose(self, seat, action):
        """Claims an action, and says whether it could be claimed."""
        try:
            self.parties[seat].choose(action)
        except Refused as refused:
            if refused.status in NOT_NOW:
                return False
            raise
        self.unsaved.add(seat)
        return True

    def act(self, seat):
        """What a bot does, if it acts: it tries one thing after another."""
        party = self.parties[seat]
        if party.actor() == seat:
            wishes = [random.choice(["roll", "roll", "double"]), random.choice(["take", "take", "drop"]), "roll"]
            actions = [*wishes, *random.sample(turns := party.turns(), min(1, len(turns)))]
            any(self.choose(seat, action) for action in actions)

    def tick(self):
        for party in list(self.parties.values()):
            for datagram in party.tick():
                self.deliver(datagram)

    def newly_told(self):
        """A line for each entry that was told and not noted yet: what is told is what a watcher comes to hold."""
        entries = self.parties[WATCHER].lines()
        lines = [f"{self.match.id} {at + 1} {entries[at]}\n" for at in range(self.told, len(entries))]
        self.told = len(entries)
        return "".join(lines)

    def is_over(self):
        return REFEREE not in self.unsaved and self.parties[REFEREE].actor() == NOBODY


def save(store, tables):
    """Saves what changed at these tables in one transaction. A party whose save was refused begins again from the
    store: never count a save as made that was not taken."""
    saves = {}
    for table in tables:
        for number in table.unsaved:
            saves[table.match.id, number] = table.parties[number].save()
    taken = store.save_all(saves) if saves else set()
    for table in tables:
        for number in list(table.unsaved):
            save = saves[table.match.id, number]
            if (table.match.id, number) in taken:
                save.written()
                table.unsaved.discard(number)
            else:
                save.failed()
                table.reopen(number)
    return len(saves) - len(taken)


def play_turn(store, turn, told):
    """Lets the parties of some matches act, saves at once all that changed, and only then tells it. Returns how many saves
    were refused."""
    refused = 0
    for step in (Table.referee_adds, lambda table: [table.act(seat) for seat in SEATS]):
        for table in turn:
            step(table)
        refused += save(store, turn)
    # Ticks carry claims to the referee, whose entries are saved before they are told at the next tick.
    for _ in range(2):
        for table in turn:
            table.tick()
        refused += save(store, turn)
    for table in turn:
        os.write(told, table.newly_told().encode())
    return refused


def serve(store, told):
    """Takes turns until all matches are over, and returns how many saves were refused."""
    tables, refused = {}, 0
    while matches := store.open_matches():
        chosen = random.sample(matches, min(MATCHES_A_TURN, len(matches)))
        for match in chosen:
            if match[0] not in tables:
                tables[match[0]] = Table(store, match)
        turn = [tables[match[0]] for match in chosen]
        refused += play_turn(store, turn, told)
        for table in turn:
            if table.is_over():
                store.end(table.match.id)
                table.close()
                del tables[table.match.id]
    return refused


def main():
    library, where, path, *fence = sys.argv[1:]
    told = os.open(path, os.O_WRONLY | os.O_CREAT | os.O_APPEND, 0o644)
    try:
        load(library)
        refused = serve(Store(where, *fence), told)
    except (DatabaseError, Refused) as why:
        sys.exit(f"server.py: {why}")
    print(f"{refused} saves refused")


if __name__ == "__main__":
    main()
