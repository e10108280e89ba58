"""What calls tell, as plain values."""
from __future__ import annotations

from dataclasses import dataclass
from typing import NamedTuple, Optional

from . import calls
from .statuses import Phase, Status, Took, Why


class Match(NamedTuple):
    """A match: its number, the points that it goes to (1 to 99), and its rules (1 or 2)."""

    id: int
    length: int
    rules: int = 1


@dataclass(frozen=True)
class Judged:
    """What is said of a transcript or a file. `number` counts its entries, or is the line that is refused."""

    is_fine: bool
    number: int
    text: str


@dataclass(frozen=True)
class Packet:
    """Whose packet it is, and of which match: to route it, before any party takes it."""

    id: int
    rules: int
    kind: int
    sender: int
    number: int
    count: int


@dataclass(frozen=True)
class Peeked:
    """What a saved text is of."""

    match: Match
    party: int
    save: int
    entries: int
    claim: int


@dataclass(frozen=True)
class Saved:
    """What two slots restore."""

    found: bool
    slot: int
    save: int
    entries: int
    claim: int
    misplaced: int


@dataclass(frozen=True)
class Datagram:
    """A packet that is to be sent to a party."""

    to: int
    packet: bytes


@dataclass(frozen=True)
class Taken:
    """What a party made of a packet. Send the answer; save after Took.ACCEPTED."""

    kind: Took
    number: int
    why: Why
    answer: Optional[Datagram]


@dataclass(frozen=True)
class Ticked:
    """What one of many parties sends at a tick, and what the call answered of it."""

    status: Status
    packets: list[Datagram]


@dataclass(frozen=True)
class Claim:
    """What a seat claimed, and the number of the entry that answers it."""

    number: int
    action: str


@dataclass(frozen=True)
class Standing:
    """Where a match stands. The checkers are numbered as in bg_standing: [0] off, [25] on the bar."""

    match_length: int
    rules: int
    game: int
    crawford: bool
    x_score: int
    o_score: int
    cube: int
    cube_owner: int
    phase: Phase
    player: int
    level: int
    dice: tuple[int, ...]
    actor: int
    x_pips: int
    o_pips: int
    x_checkers: tuple[int, ...]
    o_checkers: tuple[int, ...]


@dataclass(frozen=True)
class Shown:
    """What a party may show: so many entries, their transcript, and where the match stands after them. A referee that
    holds more has to save; a seat's claim waits for its answer while its number is more than what is held."""

    entries: int
    held: int
    claim: int
    standing: Standing
    transcript: str


def plain(kind: type, struct: object, **given: object):
    """A value whose other fields are those of a struct that have their names."""
    return kind(**{name: getattr(struct, name) for name in kind.__dataclass_fields__ if name not in given}, **given)


def standing_of(struct: calls.Standing) -> Standing:
    lists = {name: tuple(getattr(struct, name)) for name in ("dice", "x_checkers", "o_checkers")}
    return plain(Standing, struct, crawford=struct.crawford == 1, phase=Phase(struct.phase), **lists)


def datagram_of(struct: calls.Datagram) -> Optional[Datagram]:
    return Datagram(struct.to, bytes(struct.bytes[: struct.length])) if struct.length else None
