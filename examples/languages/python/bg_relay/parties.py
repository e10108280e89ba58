"""What the parties of a match have in common, and watchers. Each is in one call at a time: a second thread waits."""
from __future__ import annotations

import threading
from contextlib import ExitStack
from ctypes import POINTER, byref, c_size_t, c_uint32, pointer
from typing import Optional, Sequence, TypeVar

from . import calls
from .statuses import Options, Refused, Saving, Status, Took, Untold, Why
from .texts import Text, passed
from .values import Datagram, Match, Shown, Standing, Taken, Ticked, datagram_of, standing_of

REFEREE, NOBODY = 0, 3
Kind = TypeVar("Kind", bound="Party")


class Party:
    """What the referee, a seat and a watcher have in common. It is closed at the end of a `with`, or by `close`.

    What tells of the record counts all entries that a party holds. Of a referee nothing is told while it holds entries
    that are not saved: then these raise Untold, and `shown` and `lines` tell of the saved ones."""

    number: int

    def __init__(self, number: int):
        self.number, self._handle, self._lock = number, calls.Handle(), threading.RLock()
        self._save: Optional[object] = None

    def __enter__(self: Kind) -> Kind:
        return self

    def __exit__(self, *_: object) -> None:
        self.close()

    def close(self) -> None:
        """Lets the party go: what is not saved is lost."""
        with self._lock:
            self._save = None
            calls.ask("bg_party_close", byref(self._handle))

    def _number(self, name: str) -> int:
        number = c_uint32(0)
        with self._lock:
            calls.must(name, byref(self._handle), byref(number))
        return number.value

    def held(self) -> int:
        """How many entries the record has."""
        return self._number("bg_party_entries")

    def told(self) -> int:
        """How many of them may be shown."""
        return self._number("bg_party_told")

    def shown(self) -> Shown:
        """What may be shown, in one call."""
        shown = calls.Shown()
        with self._lock:
            transcript = calls.text("bg_party_shown", byref(self._handle), byref(shown)).decode()
        return Shown(shown.entries, shown.held, shown.claim, standing_of(shown.standing), transcript)

    def lines(self, first: int = 1, count: int = 1 << 20) -> list[str]:
        """At most so many entries from the number `first` on, of those that may be shown."""
        with self._lock:
            count = min(count, max(self.told() + 1 - first, 0))
            return calls.text("bg_party_entries_text", byref(self._handle), first, count).decode().splitlines()

    def _all_told(self) -> None:
        if self.told() != self.held():
            raise Untold("the referee holds entries that are not saved yet")

    def _text(self, name: str) -> str:
        with self._lock:
            self._all_told()
            return calls.text(name, byref(self._handle)).decode()

    def board(self) -> str:
        return self._text("bg_party_board")

    def transcript(self) -> str:
        return self._text("bg_party_transcript")

    def turns(self) -> list[str]:
        """Each legal turn, such as "move 8-5 6-5"; none where no player is to move."""
        try:
            return self._text("bg_party_turns").splitlines()
        except Refused as refused:
            if refused.status == Status.NOT_TO_MOVE:
                return []
            raise

    def actor(self) -> int:
        """Who acts: 0 the referee, 1 X, 2 O, 3 nobody, as the match is over."""
        with self._lock:
            self._all_told()
            return self._number("bg_party_actor")

    def options(self) -> Options:
        """What the player who acts may claim."""
        with self._lock:
            self._all_told()
            return Options(self._number("bg_party_options"))

    def standing(self) -> Standing:
        standing = calls.Standing()
        with self._lock:
            self._all_told()
            calls.must("bg_party_standing", byref(self._handle), byref(standing))
        return standing_of(standing)

    def try_action(self, player: int, action: Text) -> int:
        """The number of the entry that would answer an action of a player (1 X, 2 O); nothing is claimed."""
        with self._lock:
            self._all_told()
            return self._action("bg_party_try", player, *passed(action))

    def _action(self, name: str, *arguments: object) -> int:
        number, why = c_uint32(0), c_uint32(0)
        status = calls.ask(name, byref(self._handle), *arguments, byref(number), byref(why))
        if status != Status.OK:
            raise calls.refusal(status, name, why.value if status == Status.ILLEGAL else 0)
        return number.value

    def _free(self) -> None:
        """Nothing may change while a save is under way, and nothing is sent then."""
        if self._save is not None:
            raise Saving("say first what became of the save, by `written` or `failed`")

    def _ask(self, name: str, *arguments: object) -> Taken:
        outcome, answer = calls.Outcome(), calls.Datagram()
        with self._lock:
            self._free()
            calls.must(name, byref(self._handle), *arguments, byref(outcome), byref(answer))
        return Taken(Took(outcome.kind), outcome.number, Why(outcome.why), datagram_of(answer))

    def tick(self) -> list[Datagram]:
        """What is to be sent now: ask about once a second, and at once after a save."""
        first, second = calls.Datagram(), calls.Datagram()
        with self._lock:
            self._free()
            calls.must("bg_party_tick", byref(self._handle), byref(first), byref(second))
        return [sent for sent in map(datagram_of, (first, second)) if sent]


class Follower(Party):
    """A party that follows the referee: a seat or a watcher."""

    def take(self, packet: bytes) -> Taken:
        """Takes a packet of the referee's."""
        return self._ask("bg_party_take", *passed(packet), 0)

    def take_from(self, sender: int, packet: bytes) -> Taken:
        """The same of an authenticated sender, which has to be 0, the referee."""
        return self._ask("bg_party_take_from", sender, *passed(packet), 0)


class Watcher(Follower):
    """Whoever watches (3 to 255). It saves nothing, and begins anew each time."""

    def __init__(self, number: int, match: Match):
        super().__init__(number)
        if number < 3:
            raise calls.refusal(Status.BAD_ARGUMENT, "bg_party_begin")
        calls.must("bg_party_begin", byref(self._handle), number, *match, None, 0, None, 0)


def tick_all(parties: Sequence[Party]) -> list[Ticked]:
    """Ticks many parties by one call. Each has a status of its own: a party that refuses is no reason not to tick the
    others."""
    count = len(parties)
    ticked, sending = (calls.Ticked * count)(), c_size_t(0)
    with ExitStack() as stack:
        for party in sorted(set(parties), key=id):
            stack.enter_context(party._lock)
            party._free()
        handles = (POINTER(calls.Handle) * count)(*(pointer(party._handle) for party in parties))
        calls.must("bg_parties_tick", handles, count, ticked, byref(sending))
    return [Ticked(Status(one.status), [sent for sent in map(datagram_of, one.packets[: one.count]) if sent])
            for one in ticked]
