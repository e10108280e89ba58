"""What an operator changes at one server while others play, or are away."""
import http.client
import threading
import time

from counting import right
from etcd.seen import SEATED, act, done, greeting
from etcd.servers import same_lines
from parties import comes
from serving.operators import manage

# So often a link is made anew while another server plays, and a match deleted and restored at once.
OFTEN = 8


def play_on(server, made, number, count):
    """So many offers and refusals come behind the entry of this number."""
    for at in range(count):
        number += 1
        answer = act(server, made, number, "resign normal" if at % 2 == 0 else "reject")
        right(answer == done(number), f"entry {number} is answered {answer}")
    return number


def restore_while_away(fleet):
    """A match is deleted and restored from an early copy while a server is away, which has later entries of it."""
    made = fleet[0].make(length=3)
    name, copies = made["match"], fleet[0].folder + "-early"
    right(fleet.all_have(name, 1), "a match is not at all servers")
    right(manage(fleet[0], "--backup", copies)[0] == 0, "matches are not copied")
    play_on(fleet[0], made, 1, 6)
    right(fleet.all_have(name, 7), "entries are not at all servers")
    fleet.said.append(fleet[1].end())
    right(manage(fleet[0], "--match", name, "--delete")[0] == 0, "a match is not deleted")
    right(manage(fleet[0], "--match", name, "--restore", copies)[0] == 0, "a match is not restored")
    fleet.begin_one(fleet[1])
    right(fleet.all_have(name, 1), "a restored match is not at all servers")
    right(len(same_lines(fleet, name)) == 2, "a server goes on with what was there before a restore")
    right(act(fleet[1], made, 2, "resign gammon") == done(2), "a server that was away does not go on with what was restored")
    right(len(same_lines(fleet, name)) == 3, "servers lack an entry")


def restore_at_once(fleet):
    """A match is deleted and restored at once, over and over: it stays."""
    made = fleet[0].make(length=3)
    name, copies = made["match"], fleet[0].folder + "-again"
    right(fleet.all_have(name, 1), "a match is not at all servers")
    right(manage(fleet[0], "--backup", copies)[0] == 0, "matches are not copied")
    for at in range(OFTEN):
        right(manage(fleet[0], "--match", name, "--delete")[0] == 0, f"a match is not deleted, time {at}")
        status, _, said = manage(fleet[0], "--match", name, "--restore", copies)
        right(status == 0, f"a match is not restored, time {at}: {said}")
        right(fleet.all_have(name, 1), f"a match that was restored at once is gone, time {at}")


def renew_while_played(fleet):
    """New links that are made at one server while players act at another are good, all of them."""
    made = fleet[0].make(length=3)
    name, stop, played = made["match"], threading.Event(), []
    right(fleet.all_have(name, 1), "a match is not at all servers")

    def is_done(number, words):
        try:
            return act(fleet[1], made, number, words) == done(number)
        except (OSError, http.client.HTTPException):
            return False

    def play():
        number = 1
        while not stop.is_set():
            number += 1
            words = "resign normal" if number % 2 == 0 else "reject"
            # Who comes too early with a new link, or is let go of since a turn was lost, comes again.
            while not stop.is_set() and not is_done(number, words):
                time.sleep(0.01)
            played.append(number)

    player = threading.Thread(target=play)
    player.start()
    try:
        for at in range(OFTEN):
            seat = "xo"[at % 2]
            status, out, said = manage(fleet[0], "--match", name, "--new-link", seat)
            right(status == 0, f"a seat has no new link, time {at}: {said}")
            made[seat] = out.strip()
            secret = made[seat].split("#")[1]
            right(comes(lambda: greeting(fleet[2], secret) == SEATED), f"a new link is not good at another server, time {at}")
    finally:
        stop.set()
        player.join()
    right(len(played) > OFTEN, f"{len(played)} actions while {OFTEN} links were made anew")
