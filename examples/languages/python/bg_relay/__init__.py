"""The relay of bg_relay.h for Python: what a referee, a seat and a watcher of a match do, and texts of matches.

The library opens nothing and waits for nothing: the program carries the packets, and keeps the slots. include/bg_relay.h
has all that a call promises, and docs/USING.md the way from here to a server."""
from .calls import load
from .parties import NOBODY, REFEREE, Follower, Party, Watcher, tick_all
from .savers import Referee, Save, Saver, Seat, system_word
from .statuses import Error, Misplaced, Numbering, Options, Phase, Refused, Saving, Status, Took, Untold, Why
from .texts import (
    board, check, judge, mat_export, mat_import, match_id, packet_read, page, picture, position_id, saved_peek,
    slots_read, status_name, status_text, turns, version, xgid,
)
from .values import Claim, Datagram, Judged, Match, Packet, Peeked, Saved, Shown, Standing, Taken, Ticked

__all__ = [
    "NOBODY", "REFEREE", "Claim", "Datagram", "Error", "Follower", "Judged", "Match", "Misplaced", "Numbering",
    "Options", "Packet", "Party", "Peeked", "Phase", "Referee", "Refused", "Save", "Saved", "Saver", "Saving", "Seat",
    "Shown", "Standing", "Status", "Taken", "Ticked", "Took", "Untold", "Watcher", "Why", "board", "check", "judge",
    "load", "mat_export", "mat_import", "match_id", "packet_read", "page", "picture", "position_id", "saved_peek",
    "slots_read", "status_name", "status_text", "system_word", "tick_all", "turns", "version", "xgid",
]
