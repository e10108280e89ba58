"""A referee, two seats and a watcher at one table, over a network that loses, repeats and reorders packets, and slots
whose writes are cut short. All of it goes by a seed."""
import random

from bg_relay import NOBODY, Match, Options, Referee, Seat, Took, Watcher, check

REFEREE, X, O, WATCHER = range(4)


class Table:
    def __init__(self, seed: int, match: Match):
        self.random, self.match = random.Random(seed), match
        self.slots = {number: [b"", b""] for number in (REFEREE, X, O)}
        self.was_saved = {number: False for number in self.slots}
        self.parties, self.packets = {}, []
        self.cut = self.restarts = self.lost = 0
        for number in (REFEREE, X, O, WATCHER):
            self.open(number)

    def happens(self, one_in: int) -> bool:
        return self.random.randrange(one_in) == 0

    def word(self) -> int:
        return self.random.getrandbits(32)

    def open(self, number: int) -> None:
        """Opens a party from its slots. A seat or a referee is saved at once, before it sends anything."""
        if number == WATCHER:
            self.parties[number] = Watcher(WATCHER, self.match)
            return
        slots, was_saved = tuple(self.slots[number]), self.was_saved[number]
        if number == REFEREE:
            self.parties[number] = Referee.open(self.match, slots, was_saved)
        else:
            self.parties[number] = Seat.open(number, self.match, slots, was_saved)
        if not was_saved:
            self.save(number)

    def restart(self, number: int) -> None:
        self.restarts += 1
        self.parties[number].close()
        self.open(number)
        if number == REFEREE and self.happens(2):
            # A server that knows who is connected names its peers.
            for peer in (X, O, WATCHER):
                self.send(self.parties[number].heard(peer, self.parties[peer].held()).answer)

    def save(self, number: int) -> None:
        save = self.parties[number].save()
        if self.happens(12):
            self.cut += 1
            self.slots[number][save.slot] = save.text[: self.random.randrange(len(save.text))]
            save.failed()
            self.open(number)
            return
        with save:
            self.slots[number][save.slot] = save.text
        self.was_saved[number] = True
        self.tick(number)

    def send(self, datagram) -> None:
        if datagram is not None:
            self.packets.append(datagram)

    def tick(self, number: int) -> None:
        for datagram in self.parties[number].tick():
            self.send(datagram)

    def deliver(self) -> None:
        """Takes a packet that is under way, whichever: it is lost, or comes, or comes and stays under way."""
        at = self.random.randrange(len(self.packets))
        datagram = self.packets[at] if self.happens(8) else self.packets.pop(at)
        if self.happens(6):
            self.lost += 1
            return
        party = self.parties[datagram.to]
        if datagram.to == REFEREE:
            taken = party.take(datagram.packet, self.word)
        else:
            taken = party.take_from(REFEREE, datagram.packet)
        assert taken.kind not in (Took.OTHER_MATCH, Took.CONFLICT, Took.INVALID, Took.ILLEGAL), taken
        self.send(taken.answer)
        if taken.kind == Took.ACCEPTED:
            self.save(datagram.to)

    def act(self, seat: int) -> None:
        """Claims something that the seat may claim, where it acts and has no claim under way."""
        party = self.parties[seat]
        claim = party.claim()
        if party.actor() != seat or claim and claim.number > party.held():
            return
        options = party.options()
        actions = [name for option, name in (
            (Options.ROLL, "roll"), (Options.ROLL, "roll"), (Options.DOUBLE, "double"), (Options.TAKE, "take"),
            (Options.DROP, "drop"), (Options.ACCEPT, "accept"), (Options.REJECT, "reject"),
        ) if option in options]
        if Options.RESIGN in options and self.happens(40):
            actions = ["resign normal"]
        action = self.random.choice(actions or party.turns())
        number = party.try_action(seat, action)
        assert party.choose(action) == number
        self.save(seat)

    def round(self) -> None:
        if self.parties[REFEREE].due(self.word) is not None:
            self.save(REFEREE)
        for seat in (X, O):
            self.act(seat)
        for number in self.parties:
            self.tick(number)
        for _ in range(min(len(self.packets), 6)):
            if self.packets:
                self.deliver()
        if self.happens(20):
            self.restart(self.random.randrange(4))

    def is_over(self) -> bool:
        return all(party.told() == party.held() and party.actor() == NOBODY for party in self.parties.values())

    def records(self) -> list:
        return [self.parties[number].lines() for number in (REFEREE, X, O, WATCHER)]

    def judged(self):
        return check("table", self.parties[REFEREE].transcript())

    def close(self) -> None:
        for party in self.parties.values():
            party.close()
