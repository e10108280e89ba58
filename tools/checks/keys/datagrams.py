"""Datagrams that a party must pass over, and good ones: of a referee, a seat and a watcher of the program, each played
with by parties of the check's own."""
import time

from counting import right
from keys.running import end, make, opened, start, started, transcript
from parties import (FROM_REFEREE, GAMMON, MOST_SECONDS, OPENING, RESIGN, SIGN, TO_REFEREE, WANT, Party, Typist, comes, seal)
from program import PROGRAM

# So long nothing comes that would come at once.
QUIET = 0.5


def wrong_datagrams(match, sender, to, packet, other):
    """By what they have wrong, datagrams that tell a party a packet of another one, and that it must pass over."""
    party, way = max(sender, to), FROM_REFEREE if sender == 0 else TO_REFEREE
    good = match.sealed(sender, to, packet)
    own = {1: 2, 2: 1}.get(party, 1)
    yield "in clear", packet
    yield "with a tag of zeros", packet + bytes(16)
    yield "with the tag of no byte", packet + seal(match.key(party), way, party, b"")
    yield "under another key", seal(bytes(range(32)), way, party, packet)
    yield "under the secret", seal(match.secret, way, party, packet)
    yield "under another party's key", seal(match.key(own), way, party, packet)
    yield "of another party's number", seal(match.key(party), way, own, packet)
    yield "the other way", seal(match.key(party), 1 - way, party, packet)
    yield "under the key of another match", seal(other.key(party), way, party, packet)
    yield "cut by a byte", good[:-1]
    yield "with a byte more", good + b"\0"
    for at in (0, 12, len(packet) - 1, len(packet), len(good) - 1):
        yield f"with bit 0 of byte {at} flipped", good[:at] + bytes([good[at] ^ 1]) + good[at + 1:]


def check_referee(top, port):
    """What the referee takes from the port of a party, and what it answers."""
    table = f"{top}/referee/table"
    match, other = make(table, port), make(f"{top}/other/table", port + 300)
    with open(f"{top}/other/table/match", "w", encoding="ascii") as file:
        # Another match of the same number has other keys.
        file.write(match.line)
    other.number = match.number
    referee = start("referee", "--dir", table)
    mover = opened(table)
    seat, watcher, rival = Party(match, mover), Party(match, 9), Party(match, 3 - mover)
    ask_referee(match, other, seat, watcher)
    claim_wrongly(match, other, seat, watcher, rival)
    right(len(transcript(table)) == 1, f"a forged claim counts: {transcript(table)}")
    # The seat's own, which counts once, however often it comes.
    good = match.sealed(mover, 0, claim_of(match, mover))
    seat.send(match.port, good)
    right(comes(lambda: len(transcript(table)) == 2), "the seat's claim does not count")
    for _ in range(20):
        seat.send(match.port, good)
    seat.tell(0, SIGN)
    right(comes(lambda: seat.hears(1) == 0), "the referee does not answer behind repeated claims")
    right(len(transcript(table)) == 2, f"a repeated claim counts again: {transcript(table)}")
    end(referee)
    for party in (seat, watcher, rival):
        party.close()


def claim_of(match, mover):
    """What the seat on turn claims."""
    return match.claim(mover, 2, RESIGN, GAMMON)


def ask_referee(match, other, seat, watcher):
    """The sign of life, and a question, of a seat and of a watcher: only a good one is answered."""
    for party, packet in ((seat, SIGN), (watcher, SIGN), (seat, match.want(seat.number, 0)), (watcher, match.want(9, 0))):
        for _, datagram in wrong_datagrams(match, party.number, 0, packet, other):
            party.send(match.port, datagram)
        found = party.received(QUIET)
        right(found is None, f"the referee answered party {party.number}, one of whose datagrams was good: {found}")
        party.tell(0, packet)
        right(party.heard() is not None, f"the referee does not answer party {party.number}")
        while party.received(QUIET):
            pass


def claim_wrongly(match, other, seat, watcher, rival):
    """A watcher's key claims for no seat, from his port or from the seat's, as whoever."""
    mover = seat.number
    claim = claim_of(match, mover)
    watcher.tell(0, claim)
    watcher.send(match.port, seal(match.key(9), TO_REFEREE, mover, claim))
    seat.send(match.port, seal(match.key(9), TO_REFEREE, mover, claim))
    seat.send(match.port, seal(match.key(9), TO_REFEREE, 9, claim))
    rival.tell(0, claim)
    for _, datagram in wrong_datagrams(match, mover, 0, claim, other):
        seat.send(match.port, datagram)
    seat.tell(0, SIGN)
    right(comes(lambda: seat.hears(1) == 0), "the referee does not answer behind wrong claims")


def check_seat(top, port):
    """What a seat and a watcher take from the referee's port."""
    table = f"{top}/seat/table"
    match, other = make(table, port), make(f"{top}/other-seat/table", port + 300)
    other.number = match.number
    referee = Party(match, 0)
    for party, words in ((1, ["auto", "--player", "X", "--match", f"{table}/match-x", "--dir", f"{top}/seat/x"]),
                         (3, ["watch", "--match", f"{table}/match-watch", "--transcript", f"{top}/seat/seen"])):
        process = start(*words)
        right(referee.hears() == party, f"party {party} does not ask")
        tell_entries(match, other, referee, party)
        end(process)
    said = Typist(PROGRAM, "play", "--player", "X", "--match", f"{table}/match-x", "--dir", f"{top}/seat/silent")
    started.append(said.process)
    right(referee.hears() == 1, "the seat of X does not ask")
    be_silent(match, referee, said)
    end(said.process)
    referee.close()


def tell_entries(match, other, referee, party):
    """A party takes the first entry by a good datagram alone, however often that comes."""
    entry = match.entry(1, OPENING, 5, 6)
    for _, datagram in wrong_datagrams(match, 0, party, entry, other):
        referee.send(match.port + party, datagram)
    # What the party itself has sent comes back, and what it says in the referee's name.
    referee.send(match.port + party, match.sealed(party, 0, match.want(party, 0)))
    referee.send(match.port + party, seal(match.key(party), FROM_REFEREE, party, match.want(party, 0)))
    referee.send(match.port + party, match.sealed(0, 4, entry) if party == 3 else match.sealed(0, 2, entry))
    before = holds(referee, party)
    right(before == 0, f"party {party} takes a forged entry: it holds {before}")
    good = match.sealed(0, party, match.entry(1, OPENING, 6, 5))
    for _ in range(5):
        referee.send(match.port + party, good)
    right(comes(lambda: holds(referee, party) == 1), f"party {party} does not take the referee's entry")


def be_silent(match, referee, said):
    """The seat of X misses a referee whose signs of life are forged, and hears a good one."""
    # Three seconds in which its process runs, which are more on a busy machine.
    until = time.monotonic() + MOST_SECONDS
    while time.monotonic() < until and "no word from the referee" not in said.read():
        for datagram in (b"", SIGN, SIGN + bytes(16), seal(match.key(2), FROM_REFEREE, 1, SIGN),
                         match.sealed(1, 0, SIGN)):
            referee.send(match.port + 1, datagram)
        time.sleep(0.05)
    right("no word from the referee" in said.read(), "a sign of life that was forged counts as the referee's word")
    referee.tell(1, SIGN)
    right(said.sees("the referee is heard again"), "the referee's sign of life does not count")


def holds(referee, party):
    """How many entries a party says that it holds, in its next want or by its next claim; it asks within some seconds."""
    for _ in range(40):
        found = referee.heard(5)
        if found and found[1] == party and len(found[0]) >= 18:
            number = int.from_bytes(found[0][14:18], "big")
            return number if found[0][3] == WANT else number - 1
    return None
