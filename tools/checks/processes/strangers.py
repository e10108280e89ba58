"""Strangers who send what they like, at full speed, while a match is played."""
import time

from counting import right
from parties import OPENING, ROLL, Stranger
from processes.running import make, run, start

FLOOD_SECONDS = 3


def flood(port, packets):
    """Sends packets of strangers to the first three ports at full speed, from a port that no party has."""
    stranger = Stranger()
    until, sent = time.time() + FLOOD_SECONDS, 0
    while time.time() < until:
        for packet in packets:
            try:
                stranger.send(port + sent % 3, packet)
            except OSError:
                pass
            sent += 1
    stranger.close()
    return sent


def forged(match):
    """Rubbish, and packets with the right number: wants, a claim of each seat, and an entry; sealed, and in clear."""
    packets = [b"rubbish", bytes(300), b""]
    for party in (1, 2):
        for packet in (match.want(party, 0), match.claim(party, 2, ROLL)):
            packets += [packet, match.sealed(party, 0, packet)]
    return [*packets, match.entry(1, OPENING, 6, 5), match.sealed(0, 1, match.entry(1, OPENING, 6, 5))]


def check_strangers(room):
    """The match is played to its end all the same, and nothing is said of the strangers."""
    top = room.top
    port = room.port + 10
    table = f"{top}/strangers/table"
    match = make(table, port)
    parties = [start("referee", "--quiet", "--dir", table), start("watch", "--quiet", "--match", f"{table}/match-watch"),
               start("auto", "--player", "X", "--match", f"{table}/match-x", "--dir", f"{top}/sx"),
               start("auto", "--player", "O", "--match", f"{table}/match-o", "--dir", f"{top}/so")]
    sent = flood(port, forged(match))
    outputs = [party.communicate(timeout=600) for party in parties]
    right([party.returncode for party in parties] == [0] * 4, f"statuses after {sent} packets of strangers")
    # Their packets may crowd out the referee's, which is said.
    said = [line for _, err in outputs for line in err.decode().splitlines() if "the referee" not in line]
    right(not said, f"said: {said}")
    texts = {out for out, _ in outputs[1:]}
    right(len(texts) == 1, "the transcripts differ")
    right(run("judge", stdin=texts.pop()).returncode == 0, "the transcript is refused")
