"""A party that was not heard for a minute, beside one that was."""
import time

from counting import right
from keys.datagrams import QUIET
from keys.running import end, make, opened, start
from parties import ENTRIES, MOST_SECONDS, NORMAL, REJECT, RESIGN, Party


def check_minute(top, port):
    """Who was not heard for a minute is sent nothing of what is new, and all of it when he is heard again."""
    table = f"{top}/minute/table"
    match = make(table, port + 600)
    referee = start("referee", "--dir", table)
    mover = opened(table)
    seat, other = Party(match, mover), Party(match, 3 - mover)
    silent, heard, never = Party(match, 3), Party(match, 4), Party(match, 5)
    for watcher in (silent, heard):
        watcher.tell(0, match.want(watcher.number, 0))
        found = watcher.heard()
        right(found and found[0][3] == ENTRIES, f"a watcher that asks is sent {found}")
    begun = time.monotonic()
    # What is new is told to both, and a minute later to the one that was heard meanwhile.
    seat.tell(0, match.claim(mover, 2, RESIGN, NORMAL))
    for watcher in (silent, heard):
        right(tells(watcher, 2), f"watcher {watcher.number} is not told what is new")
        while watcher.received(QUIET):
            pass
    while time.monotonic() < begun + 65:
        time.sleep(1)
        heard.tell(0, match.want(heard.number, 2))
        while heard.received(0):
            pass
    while silent.received(0):
        pass
    other.tell(0, match.claim(3 - mover, 3, REJECT))
    right(tells(heard, 3), "a watcher that is heard is not told what is new")
    right(silent.received(3) is None, "a party that was not heard for a minute is sent something")
    right(never.received(0) is None, "a party that was never heard is sent something")
    silent.tell(0, match.want(3, 2))
    right(tells(silent, 3), "a watcher that is back is not told what it lacks")
    end(referee)
    for party in (seat, other, silent, heard, never):
        party.close()


def tells(watcher, number):
    """Whether a watcher is told the entry of this number within some seconds."""
    until = time.monotonic() + MOST_SECONDS
    while time.monotonic() < until:
        found = watcher.heard(until - time.monotonic())
        if found and found[0][3:4] == bytes([ENTRIES]):
            first = int.from_bytes(found[0][13:17], "big")
            if first <= number < first + found[0][17]:
                return True
    return False
