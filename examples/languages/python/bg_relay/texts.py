"""The calls that need no party: on transcripts, match files, packets and saved texts."""
from __future__ import annotations

from ctypes import byref
from typing import Union

from . import calls
from .statuses import Numbering, Refused, Status
from .values import Judged, Match, Packet, Peeked, Saved, plain

Text = Union[str, bytes]
Slots = tuple[bytes, bytes]


def passed(text: Text) -> tuple[bytes, int]:
    """A text as calls take it."""
    given = text.encode() if isinstance(text, str) else bytes(text)
    return given, len(given)


def version() -> str:
    """The version of the library, such as "2.3"."""
    return calls.ask("bg_version_text").decode()


def status_name(status: int) -> str:
    return calls.ask("bg_status_name", status).decode()


def status_text(status: int) -> str:
    """What a status says, in English."""
    return calls.text("bg_status_text", status).decode()


def judge(transcript: Text) -> Judged:
    """Judges a transcript: the text has the board after its longest legal part, and the verdict."""
    verdict = calls.Verdict()
    text = calls.text("bg_judge", *passed(transcript), byref(verdict))
    return Judged(verdict.kind == 0, verdict.number, text.decode())


def check(name: str, file: Text, columns: int = 0) -> Judged:
    """The line that `bg_relay check` prints of a transcript or a match file."""
    verdict = calls.Verdict()
    text = calls.text("bg_check", *passed(name), *passed(file), columns, byref(verdict))
    return Judged(verdict.kind == 0, verdict.number, text.decode())


def board(transcript: Text) -> str:
    return calls.text("bg_transcript_board", *passed(transcript)).decode()


def turns(transcript: Text) -> list[str]:
    """Each legal turn after a transcript; none where no player is to move."""
    try:
        return calls.text("bg_transcript_turns", *passed(transcript)).decode().splitlines()
    except Refused as refused:
        if refused.status == Status.NOT_TO_MOVE:
            return []
        raise


def mat_import(file: Text, rules: int = 1) -> str:
    """The transcript of the match that a match file (.mat) tells. The exception has the line that is refused."""
    verdict = calls.Verdict()
    try:
        return calls.text("bg_mat_import", rules, *passed(file), byref(verdict)).decode()
    except Refused as refused:
        if refused.status == Status.REFUSED:
            refused.line = verdict.number
        raise


def mat_export(transcript: Text) -> str:
    return calls.text("bg_mat_export", *passed(transcript)).decode()


def picture(transcript: Text, numbering: Numbering = Numbering.MOVER) -> str:
    """The position after a transcript, as SVG."""
    return calls.text("bg_picture", *passed(transcript), numbering).decode()


def page(transcript: Text, title: str, x: str = "", o: str = "", numbering: Numbering = Numbering.MOVER,
         seconds: int = 0) -> str:
    """A whole match as a page of HTML, which a browser asks for again after so many seconds, unless these are 0."""
    words = [*passed(title), *passed(x), *passed(o)]
    return calls.text("bg_page", *passed(transcript), *words, numbering, seconds).decode()


def position_id(transcript: Text) -> str:
    return calls.text("bg_position_id", *passed(transcript)).decode()


def match_id(transcript: Text) -> str:
    return calls.text("bg_match_id", *passed(transcript)).decode()


def xgid(transcript: Text) -> str:
    return calls.text("bg_xgid", *passed(transcript)).decode()


def packet_read(packet: bytes) -> Packet:
    """Whose packet it is, and of which match."""
    read = calls.Packet()
    calls.must("bg_packet_read", *passed(packet), byref(read))
    return plain(Packet, read)


def saved_peek(saved: bytes) -> Peeked:
    """Which party and which match a saved text is of."""
    peeked = calls.Peeked()
    calls.must("bg_saved_peek", *passed(saved), byref(peeked))
    return plain(Peeked, peeked, match=Match(peeked.id, peeked.match_length, peeked.rules))


def slots_read(party: int, match: Match, slots: Slots) -> Saved:
    """What the two slots of a party restore."""
    saved = calls.Saved()
    calls.must("bg_slots_read", party, *match, *passed(slots[0]), *passed(slots[1]), byref(saved))
    return saved_of(saved)


def saved_of(struct: calls.Saved) -> Saved:
    return plain(Saved, struct, found=struct.found == 1)
