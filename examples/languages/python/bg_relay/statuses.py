"""The numbers of bg_relay.h that say what became of a call, and the exception for those that refuse one."""
from __future__ import annotations

import enum
from typing import Optional, Union


class Status(enum.IntEnum):
    """What a call answers: BG_OK and so on."""

    OK = 0
    NO_ROOM = 1
    MEMORY = 2
    BAD_ARGUMENT = 3
    NOT_OPEN = 4
    WRONG_PARTY = 5
    NOT_A_PACKET = 6
    NOT_AN_ACTION = 7
    DAMAGED = 8
    WRONG_MATCH = 9
    WRONG_SAVE = 10
    SAVES_SPENT = 11
    NOT_YOUR_TURN = 12
    ALREADY_CLAIMED = 13
    ILLEGAL = 14
    NOT_DUE = 15
    WORD_REFUSED = 16
    NOT_TO_MOVE = 17
    REFUSED = 18
    NOT_EMPTY = 19
    NOTHING_SAVED = 20
    NOT_A_SAVE = 21
    BUSY = 22
    CLOSED = 23
    COPIED = 24
    OTHER_SENDER = 25
    NO_XGID = 26


class Why(enum.IntEnum):
    """Why an action does not follow."""

    NONE = 0
    RECORD_FULL = 1
    MATCH_OVER = 2
    WRONG_PHASE = 3
    EQUAL_OPENING = 4
    MORE_CAN_BE_PLAYED = 5
    LARGER_MUST_BE_PLAYED = 6
    NO_DOUBLE_CRAWFORD = 7
    NO_DOUBLE_NOT_OWNER = 8
    NO_DOUBLE_AT_CAP = 9
    STEP_1_ILLEGAL = 11
    STEP_2_ILLEGAL = 12
    STEP_3_ILLEGAL = 13
    STEP_4_ILLEGAL = 14


class Took(enum.IntEnum):
    """What a party made of a packet."""

    NOTHING = 0
    OTHER_MATCH = 1
    ANSWERED = 2
    ACCEPTED = 3
    AHEAD = 4
    NOT_YOUR_TURN = 5
    ILLEGAL = 6
    WORD_REFUSED = 7
    GREW = 8
    GAP = 9
    CONFLICT = 10
    INVALID = 11


class Phase(enum.IntEnum):
    """What is to happen next in a match."""

    OPENING = 0
    TO_ACT = 1
    DOUBLED = 2
    TO_MOVE = 3
    RESIGNED = 4
    OVER = 5


class Options(enum.IntFlag):
    """What the player who acts may claim."""

    ROLL = 1
    DOUBLE = 2
    TAKE = 4
    DROP = 8
    TURN = 16
    RESIGN = 32
    ACCEPT = 64
    REJECT = 128


class Numbering(enum.IntEnum):
    """In whose numbers a picture has the points."""

    MOVER = 0
    X = 1


class Error(Exception):
    """Why something was not done."""


class Refused(Error):
    """A call answered another status than BG_OK. `status` is a plain number where a newer library has more of them."""

    def __init__(self, status: int, call: str, text: str = "", why: int = 0, line: Optional[int] = None):
        self.status: Union[Status, int] = Status(status) if status in list(Status) else status
        self.why = Why(why)
        self.line = line
        name = f"BG_{self.status.name}" if isinstance(self.status, Status) else f"status {status}"
        reason = f" ({self.why.name})" if self.why else ""
        super().__init__(f"{call}: {name}{reason}{': ' if text else ''}{text}")


class Misplaced(Error):
    """A slot has a saved text that belongs into the other one: whoever goes on writes over the only save."""


class Untold(Error):
    """The referee holds entries that are not saved yet, and nobody may see what they say."""


class Saving(Error):
    """A save of this party is under way: say first what became of it."""
