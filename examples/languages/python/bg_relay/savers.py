"""The parties that save: the referee and the seats. A save is a value, which says where its text goes, and is to be told
what became of the write."""
from __future__ import annotations

import secrets
from ctypes import byref, c_uint32
from typing import Callable, Optional

from . import calls
from .parties import REFEREE, Follower, Party
from .statuses import Error, Misplaced, Refused, Status, Took
from .texts import Slots, Text, passed, saved_of
from .values import Claim, Match, Saved, Taken

NO_SLOTS: Slots = (b"", b"")
Words = Callable[[], int]


def system_word() -> int:
    """A random word of the system's. Each is used once."""
    return secrets.randbits(32)


class Saver(Party):
    """A party that saves: the referee or a seat. `saved` is what its slots had when it was opened."""

    saved = Saved(False, 0, 0, 0, 0, 0)

    def __init__(self, number: int, opening: Callable, match: Match, slots: Slots):
        super().__init__(number)
        opening(self, match, slots)

    def _begin(self, match: Match, slots: Slots) -> None:
        texts = (*passed(slots[0]), *passed(slots[1]))
        calls.must("bg_party_begin", byref(self._handle), self.number, *match, *texts)

    def _resume(self, match: Match, slots: Slots) -> None:
        saved, texts = calls.Saved(), (*passed(slots[0]), *passed(slots[1]))
        calls.must("bg_party_resume", byref(self._handle), self.number, *match, *texts, byref(saved))
        self.saved = saved_of(saved)
        if self.saved.misplaced:
            self.close()
            raise Misplaced(f"a saved text of party {self.number} of match {match.id} is in the wrong slot")

    def _open(self, match: Match, slots: Slots) -> None:
        """Opens a party of which no save was ever marked: a first save may have been cut short."""
        if not any(slots):
            self._begin(match, slots)
            return
        try:
            self._resume(match, slots)
        except Refused as refused:
            if refused.status != Status.NOTHING_SAVED:
                raise
            self._begin(match, NO_SLOTS)

    def save(self) -> "Save":
        """Begins the next save. Write its text to its slot, and then say so; with `with` the end of the block does.
        Until then the party takes, adds and sends nothing."""
        slot, number = c_uint32(0), c_uint32(0)
        with self._lock:
            self._free()
            text = calls.text("bg_party_to_save", byref(self._handle), byref(slot), byref(number))
            self._save = Save(self, slot.value, number.value, text)
            return self._save


class Save:
    """A save that is under way: `text` goes whole to `slot`, and `number` is what a fence asks for."""

    def __init__(self, party: Saver, slot: int, number: int, text: bytes):
        self.slot, self.number, self.text, self._party = slot, number, text, party

    def __enter__(self) -> "Save":
        return self

    def __exit__(self, kind: Optional[type], *_: object) -> None:
        if kind is None:
            self.written()
        else:
            self.failed()

    def _ends(self) -> None:
        if self._party._save is not self:
            raise Error("this save is not under way")
        self._party._save = None

    def written(self) -> None:
        """The slot has the text, and keeps it. Now tick the party."""
        party = self._party
        with party._lock:
            self._ends()
            calls.must("bg_party_mark_saved", byref(party._handle), self.number)

    def failed(self) -> None:
        """The text was not written, or nobody knows. The party is closed: open it again from what its slots have."""
        with self._party._lock:
            self._ends()
            self._party.close()


class Referee(Saver):
    """The referee of a match, which rolls the dice by random words: each is drawn once, by `words`."""

    @classmethod
    def begin(cls, match: Match, slots: Slots = NO_SLOTS) -> "Referee":
        """Opens the referee of a new match: both slots must be empty."""
        return cls(REFEREE, Saver._begin, match, slots)

    @classmethod
    def resume(cls, match: Match, slots: Slots) -> "Referee":
        """Opens the referee of a match that goes on: the slots must have a save."""
        return cls(REFEREE, Saver._resume, match, slots)

    @classmethod
    def open(cls, match: Match, slots: Slots, was_saved: bool) -> "Referee":
        """Does the one or the other, as docs/USING.md says. `was_saved` is whether a save was ever marked."""
        return cls(REFEREE, Saver._resume if was_saved else Saver._open, match, slots)

    def saved_entries(self) -> int:
        """How many entries are saved."""
        return self._number("bg_party_saved")

    def due(self, words: Words = system_word) -> Optional[int]:
        """Adds what is the referee's to add, and gives its number; None where nothing is due. Save after a number."""
        number = c_uint32(0)
        with self._lock:
            self._free()
            status = Status.WORD_REFUSED
            while status == Status.WORD_REFUSED:
                status = calls.ask("bg_referee_due", byref(self._handle), words(), byref(number))
        if status not in (Status.OK, Status.NOT_DUE):
            raise calls.refusal(status, "bg_referee_due")
        return number.value if status == Status.OK else None

    def _take(self, name: str, words: Words, *arguments: object) -> Taken:
        while True:
            taken = self._ask(name, *arguments, words())
            if taken.kind != Took.WORD_REFUSED:
                return taken

    def take_from(self, sender: int, packet: bytes, words: Words = system_word) -> Taken:
        """Takes a packet of an authenticated sender; the exception has OTHER_SENDER where it says another one."""
        return self._take("bg_party_take_from", words, sender, *passed(packet))

    def take(self, packet: bytes, words: Words = system_word) -> Taken:
        """Takes a packet, and believes what it says of its sender."""
        return self._take("bg_party_take", words, *passed(packet))

    def heard(self, peer: int, held: int) -> Taken:
        """Hears that a peer is there and holds so many entries, as by a packet that asks for the next ones."""
        return self._ask("bg_referee_heard", peer, held)


class Seat(Follower, Saver):
    """The seat of X (1) or O (2)."""

    def __init__(self, number: int, opening: Callable, match: Match, slots: Slots):
        if number not in (1, 2):
            raise calls.refusal(Status.BAD_ARGUMENT, "bg_party_begin")
        super().__init__(number, opening, match, slots)

    @classmethod
    def begin(cls, number: int, match: Match, slots: Slots = NO_SLOTS) -> "Seat":
        """Opens a seat of a new match: both slots must be empty."""
        return cls(number, Saver._begin, match, slots)

    @classmethod
    def resume(cls, number: int, match: Match, slots: Slots) -> "Seat":
        """Opens a seat of a match that goes on: the slots must have a save."""
        return cls(number, Saver._resume, match, slots)

    @classmethod
    def open(cls, number: int, match: Match, slots: Slots, was_saved: bool) -> "Seat":
        """Does the one or the other, as docs/USING.md says. `was_saved` is whether a save was ever marked."""
        return cls(number, Saver._resume if was_saved else Saver._open, match, slots)

    def choose(self, action: Text) -> int:
        """Claims an action, and gives the number of the entry that answers it. Save then: a claim is sent once it is
        saved."""
        with self._lock:
            self._free()
            return self._action("bg_seat_choose", *passed(action))

    def claim(self) -> Optional[Claim]:
        """The last claim. It is answered once the record has so many entries."""
        number = c_uint32(0)
        with self._lock:
            action = calls.text("bg_party_claim", byref(self._handle), byref(number)).decode()
        return Claim(number.value, action) if number.value else None
