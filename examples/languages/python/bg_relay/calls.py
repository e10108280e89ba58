"""The calls of bg_relay.h by ctypes: its structs, what each call is handed, and the one place that makes them."""
from __future__ import annotations

import ctypes
import os
from ctypes import POINTER, byref, c_char_p, c_size_t, c_uint8, c_uint32, c_uint64
from typing import Any, Iterator, Optional

from .statuses import Refused, Status

ABI, VERSION = 2, 203
FIRST_ROOM = 1024


def numbers(*fields: str) -> Iterator[tuple]:
    """The fields of a struct that are numbers, or lists of so many, as "dice 2"."""
    for name, *count in map(str.split, fields):
        yield name, c_uint32 * int(count[0]) if count else c_uint32


class Handle(ctypes.Structure):
    """bg_party."""

    _fields_ = [("inner", ctypes.c_void_p), ("place", c_size_t), *numbers("state", "reserved 3")]


class Verdict(ctypes.Structure):
    """bg_verdict."""

    _fields_ = [*numbers("kind", "number", "reserved 2")]


class Packet(ctypes.Structure):
    """bg_packet."""

    _fields_ = [("id", c_uint64), *numbers("rules", "kind", "sender", "number", "count", "reserved 3")]


class Peeked(ctypes.Structure):
    """bg_peeked."""

    _fields_ = [("id", c_uint64), *numbers("party", "match_length", "rules", "save", "entries", "claim", "reserved 4")]


class Saved(ctypes.Structure):
    """bg_saved."""

    _fields_ = [*numbers("found", "slot", "save", "entries", "claim", "misplaced", "reserved 2")]


class Standing(ctypes.Structure):
    """bg_standing."""

    _fields_ = [*numbers("match_length", "rules", "game", "crawford", "x_score", "o_score", "cube", "cube_owner",
                         "phase", "player", "level", "dice 2", "actor", "x_pips", "o_pips", "x_checkers 26", "o_checkers 26",
                         "reserved 12")]


class Shown(ctypes.Structure):
    """bg_shown."""

    _fields_ = [*numbers("entries", "held", "claim", "reserved 5"), ("standing", Standing)]


class Datagram(ctypes.Structure):
    """bg_datagram."""

    _fields_ = [*numbers("to", "length", "reserved 2"), ("bytes", c_uint8 * 128)]


class Outcome(ctypes.Structure):
    """bg_outcome."""

    _fields_ = [*numbers("kind", "number", "why", "reserved 5")]


class Ticked(ctypes.Structure):
    """bg_ticked."""

    _fields_ = [*numbers("status", "count", "reserved 2"), ("packets", Datagram * 2)]


PARTY, NUMBER, DATAGRAM = [POINTER(Handle)], [POINTER(c_uint32)], [POINTER(Datagram)]
TEXT_IN, TEXT_OUT = [c_char_p, c_size_t], [c_char_p, c_size_t, POINTER(c_size_t)]
# The party, the match, its length and its rules; and a text of a transcript.
MATCH, TEXT_OF_TEXT = [c_uint32, c_uint64, c_uint32, c_uint32], [*TEXT_IN, *TEXT_OUT]
ARGUMENTS: dict[str, list] = {
    "bg_abi": [],
    "bg_version": [],
    "bg_version_text": [],
    "bg_status_name": [c_uint32],
    "bg_status_text": [c_uint32, *TEXT_OUT],
    "bg_judge": [*TEXT_IN, POINTER(Verdict), *TEXT_OUT],
    "bg_transcript_board": TEXT_OF_TEXT,
    "bg_transcript_turns": TEXT_OF_TEXT,
    "bg_mat_import": [c_uint32, *TEXT_IN, POINTER(Verdict), *TEXT_OUT],
    "bg_mat_export": TEXT_OF_TEXT,
    "bg_picture": [*TEXT_IN, c_uint32, *TEXT_OUT],
    "bg_page": [*TEXT_IN, *TEXT_IN, *TEXT_IN, *TEXT_IN, c_uint32, c_uint32, *TEXT_OUT],
    "bg_position_id": TEXT_OF_TEXT,
    "bg_match_id": TEXT_OF_TEXT,
    "bg_xgid": TEXT_OF_TEXT,
    "bg_check": [*TEXT_IN, *TEXT_IN, c_uint32, POINTER(Verdict), *TEXT_OUT],
    "bg_packet_read": [*TEXT_IN, POINTER(Packet)],
    "bg_saved_peek": [*TEXT_IN, POINTER(Peeked)],
    "bg_slots_read": [*MATCH, *TEXT_IN, *TEXT_IN, POINTER(Saved)],
    "bg_party_begin": [*PARTY, *MATCH, *TEXT_IN, *TEXT_IN],
    "bg_party_resume": [*PARTY, *MATCH, *TEXT_IN, *TEXT_IN, POINTER(Saved)],
    "bg_party_close": PARTY,
    "bg_party_entries": [*PARTY, *NUMBER],
    "bg_party_saved": [*PARTY, *NUMBER],
    "bg_party_told": [*PARTY, *NUMBER],
    "bg_party_board": [*PARTY, *TEXT_OUT],
    "bg_party_transcript": [*PARTY, *TEXT_OUT],
    "bg_party_turns": [*PARTY, *TEXT_OUT],
    "bg_party_entries_text": [*PARTY, c_uint32, c_uint32, *TEXT_OUT],
    "bg_party_actor": [*PARTY, *NUMBER],
    "bg_party_standing": [*PARTY, POINTER(Standing)],
    "bg_party_shown": [*PARTY, POINTER(Shown), *TEXT_OUT],
    "bg_referee_due": [*PARTY, c_uint32, *NUMBER],
    "bg_party_take": [*PARTY, *TEXT_IN, c_uint32, POINTER(Outcome), *DATAGRAM],
    "bg_party_take_from": [*PARTY, c_uint32, *TEXT_IN, c_uint32, POINTER(Outcome), *DATAGRAM],
    "bg_referee_heard": [*PARTY, c_uint32, c_uint32, POINTER(Outcome), *DATAGRAM],
    "bg_seat_choose": [*PARTY, *TEXT_IN, *NUMBER, *NUMBER],
    "bg_party_options": [*PARTY, *NUMBER],
    "bg_party_claim": [*PARTY, *NUMBER, *TEXT_OUT],
    "bg_party_try": [*PARTY, c_uint32, *TEXT_IN, *NUMBER, *NUMBER],
    "bg_party_tick": [*PARTY, *DATAGRAM, *DATAGRAM],
    "bg_parties_tick": [POINTER(POINTER(Handle)), c_size_t, POINTER(Ticked), POINTER(c_size_t)],
    "bg_party_to_save": [*PARTY, *NUMBER, *NUMBER, *TEXT_OUT],
    "bg_party_mark_saved": [*PARTY, c_uint32],
}
BITS = {c_uint32: 32, c_uint64: 64}
_library: Optional[ctypes.CDLL] = None


def load(path: Optional[str] = None) -> None:
    """Loads the shared library: the one of this path, or that BG_RELAY_LIBRARY names, or as the system finds it. Without
    this the first call does so."""
    global _library
    path = path or os.environ.get("BG_RELAY_LIBRARY") or f"libbg_relay.so.{ABI}"
    library = ctypes.CDLL(path)
    if library.bg_abi() != ABI or library.bg_version() < VERSION:
        raise ImportError(f"{path} is another version of the library")
    for name, kinds in ARGUMENTS.items():
        call = getattr(library, name)
        call.argtypes = kinds
        call.restype = c_char_p if name in ("bg_status_name", "bg_version_text") else c_uint32
    _library = library


def ask(name: str, *arguments: Any) -> Any:
    """What a call answers. ctypes would cut a number that is too large, so that is refused here."""
    if _library is None:
        load()
    for kind, value in zip(ARGUMENTS[name], arguments):
        if kind in BITS and not 0 <= value < 1 << BITS[kind]:
            raise Refused(Status.BAD_ARGUMENT, name, f"{value} is out of its range")
    return getattr(_library, name)(*arguments)


def must(name: str, *arguments: Any) -> None:
    """Makes a call that is refused unless it answers BG_OK."""
    status = ask(name, *arguments)
    if status != Status.OK:
        raise refusal(status, name)


def text(name: str, *arguments: Any) -> bytes:
    """What a call writes. It is made again where the text needs more room."""
    room, needed = FIRST_ROOM, c_size_t(0)
    while True:
        out = ctypes.create_string_buffer(room)
        status = ask(name, *arguments, out, room, byref(needed))
        if status == Status.OK:
            return out.raw[: needed.value]
        if status != Status.NO_ROOM:
            raise refusal(status, name)
        room = needed.value


def refusal(status: int, name: str, why: int = 0, line: Optional[int] = None) -> Refused:
    """The exception of a status, with what the library says of it."""
    said = "" if name == "bg_status_text" else text("bg_status_text", status).decode()
    return Refused(status, name, said, why, line)
