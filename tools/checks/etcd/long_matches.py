"""Matches whose saves come near the most that a store takes, and those of which it takes no more (docs/SERVING.md,
"Several servers"). As nobody plays so long, copies of a match get a longer record before they are restored."""
import itertools
import json
import os
import shutil
import time

from counting import right, slowness
from etcd.operating import play_on
from etcd.seen import act, done
from parties import comes
from serving.asking import bearer, state_of
from serving.operators import manage

# From so many bytes on a save comes near the most that a store takes.
NEAR, MOST = 405_000, 450_000
NEAR_WORDS = f"comes near the {MOST} bytes that the store takes"
FULL_WORDS = f"has more than the {MOST} bytes that the store takes: it can't go on"
# The first save of a match (docs/FORMATS.md, "Saved files"): how many bytes come before the entries, the last fields of
# these, which say that it is save 1, without a claim and with one entry, and how many bytes an opening has.
HEADER, FIRST, OPENING = 24, b"\0\0\0\1\0\0\0\0\1", 3
# An offer to resign that is rejected, in bytes; and how many more a save has with the claim of an offer.
REJECTED, CLAIM = b"\7\1\x09", 6
# A match is still where its server takes less than so many seconds of a processor in one second.
MOST_STILL = 0.1


def fill_matches(fleet):
    """A match whose saves come near the most goes on. One that is full stays as it is at all servers, while others go
    on, until it is deleted and a shorter copy is restored in its place."""
    made, other = fleet[0].make(length=3), fleet[0].make(length=3)
    name, short = made["match"], fleet[0].folder + "-short"
    right(fleet.all_have(name, 1) and fleet.all_have(other["match"], 1), "a match is not at all servers")
    for one in (made, other):
        opening = f"{fleet[0].folder}/{one['match']}/party-0.1"
        right(comes(lambda file=opening: os.path.exists(file)), "a copy lacks the opening of a match")
    right(manage(fleet[0], "--backup", short)[0] == 0, "matches are not copied")
    come_near(fleet, made, short)
    number = fill(fleet, made, short)
    play_on(fleet[0], other, 1, 4)
    right(comes(lambda: is_still(fleet[0])), "a full match takes time of a processor over and over")
    fleet.begin_again(fleet[0])
    refuse(fleet, 0, made, number, 0)
    right(comes(lambda: is_still(fleet[0])), "a full match takes time of a processor over and over after a kill")
    play_on(fleet[0], other, 5, 4)
    go_on_shorter(fleet, made, short)
    leave_out(fleet, other, short)


def come_near(fleet, made, short):
    """When a match comes near the most, the log says so once, and the match goes on."""
    longer, number = lengthened(short, made["match"], NEAR)
    put_in_place(fleet, made["match"], longer, number)
    number = play_on(fleet[0], made, number, 2)
    said = told(fleet[0], fleet)
    right(NEAR_WORDS not in said, f"a match with less than {NEAR} bytes is said to come near: {said}")
    number = play_on(fleet[0], made, number, 1)
    said = told(fleet[0], fleet)
    right(is_told(said, made, 1, 0), f"with {NEAR} bytes a match is not said once to come near: {said}")
    answer = act(fleet[0], made, number + 1, "reject")
    right(answer == done(number + 1), f"an action behind that is answered {answer}")
    play_on(fleet[0], made, number + 1, 2)
    said = told(fleet[0], fleet)
    right(is_told(said, made, 0, 0), f"a match is said again to come near: {said}")


def fill(fleet, made, short):
    """What fits is done, up to the last byte, and what does not is refused. Gives how many entries fit."""
    longer, number = lengthened(short, made["match"], MOST)
    put_in_place(fleet, made["match"], longer, number)
    number = play_on(fleet[0], made, number, 3)
    right(are_at(fleet, made["match"], number), "servers lack what fits into a match")
    refuse(fleet, 0, made, number, 1)
    refuse(fleet, 1, made, number, 0)
    return number


def go_on_shorter(fleet, made, short):
    """A shorter copy in place of a full match goes on, at each server that has refused what did not fit into that."""
    put_in_place(fleet, made["match"], short, 1)
    for number, server, words in ((2, fleet[0], "resign normal"), (3, fleet[1], "reject")):
        answer = act(server, made, number, words)
        if not right(answer == done(number), f"entry {number} of a copy in place of a full match is answered {answer}"):
            return
        right(are_at(fleet, made["match"], number), f"servers lack entry {number} of a copy in place of a full match")


def leave_out(fleet, made, short):
    """No server takes in a match that is restored with longer saves than the store takes. The server where it was restored
    names it once, and once more when it is begun anew, and then removes it."""
    name, server = made["match"], fleet[0]
    longer, _ = lengthened(short, name, MOST + CLAIM + 2 * len(REJECTED))
    right(manage(server, "--match", name, "--delete")[0] == 0, "a match is not deleted")
    told(server, fleet)
    status, _, words = manage(server, "--match", name, "--restore", longer)
    right(status == 0 and "has not answered within 5 seconds" in words, f"restoring what is too long: {status} {words}")
    name_left_out(fleet, made)
    fleet.begin_again(server)
    name_left_out(fleet, made)
    right(not os.path.exists(f"{server.folder}/{name}"), "a match that is too long is not removed")


def name_left_out(fleet, made):
    """The first server has said once that a match is too long, and no server has it."""
    said = told(fleet[0], fleet)
    right(is_told(said, made, 0, 1), f"a match that is restored is not said once to be too long: {said}")
    right(all(number_at(server, made["match"]) is None for server in fleet.servers), "a match that is too long is there")


def refuse(fleet, at, made, number, near):
    """A server refuses what does not fit behind this entry, an offer, as often as it is sent, and says once why. Since
    it was asked last, it has said so many times that the match comes near. What was done it shows, and says so where it
    is sent again. A server that has just begun may do all that in the midst of taking the match in."""
    server, actions = fleet[at], f"/matches/{made['match']}/actions"
    # The second server shows all entries, also where the first one has just begun.
    turn = state_of(fleet[1], made["match"])["turn"].lower()
    asked, offering = bearer(made[turn]), bearer(made["xo".replace(turn, "")])
    refused = b'{"re":%d,"no":"too long to be saved here"}' % (number + 1)
    for words in ("reject", "accept", "reject"):
        answer = server.ask(actions, f"{number + 1} {words}".encode(), asked)[2]
        right(answer == refused, f"{words}, which does not fit into a match, is answered {answer}")
    said = told(server, fleet)
    right(is_told(said, made, near, 1), f"a match is not said once to be full, and {near} times to come near: {said}")
    right(are_at(fleet, made["match"], number), "servers show what was refused, or lack what was done")
    answer = server.ask(actions, f"{number} resign normal".encode(), offering)[2]
    right(answer == done(number), f"the last entry of a full match is answered {answer}")


def lengthened(short, name, most):
    """A longer copy of a match that has its opening alone: all parties have a record behind which the third action is
    an offer, with whose claim a save has so many bytes. Each has it in both of its slots, the newer save in the second.
    Gives the folder, and how many entries that record has."""
    longer = f"{short}-{most}"
    shutil.copytree(f"{short}/{name}", f"{longer}/{name}")
    with open(f"{longer}/{name}/party-0.1", "rb") as file:
        text = file.read()
    right(len(text) == HEADER + OPENING and text[15:HEADER] == FIRST, f"the first save of a match is {text.hex()}")
    often = (most - CLAIM - len(text)) // len(REJECTED) - 1
    number = 1 + 2 * often
    entries = text[HEADER:] + often * REJECTED
    for party, slot in itertools.product(range(3), range(2)):
        with open(f"{longer}/{name}/party-{party}.{slot}", "wb") as file:
            front = text[:4] + bytes([party]) + text[5:15] + (slot + 2).to_bytes(4, "big") + text[19:20]
            file.write(front + number.to_bytes(4, "big") + entries)
    return longer, number


def put_in_place(fleet, name, copies, number):
    """A copy with so many entries takes the place of a match."""
    right(manage(fleet[0], "--match", name, "--delete")[0] == 0, "a match is not deleted")
    right(manage(fleet[0], "--match", name, "--restore", copies)[0] == 0, "a match is not restored")
    right(are_at(fleet, name, number), f"servers do not show the {number} entries of a match that is restored")


def are_at(fleet, name, number):
    """Whether all servers come to show a match up to this entry, and no further."""
    return comes(lambda: all(number_at(server, name) == number for server in fleet.servers))


def number_at(server, name):
    """Up to which entry a server shows a match; None where it has none of this name."""
    status, _, text = server.ask(f"/matches/{name}/state")
    return json.loads(text)["number"] if status == 200 else None


def is_told(said, made, near, full):
    """Whether a server has said so often that a match comes near the most, and so often that it is full."""
    name = made["match"]
    return (said.count(f"the match {name} {NEAR_WORDS}"), said.count(f"the match {name} {FULL_WORDS}")) == (near, full)


def told(server, fleet):
    """What a server has said since this was asked last: once it answers anew, it has said what came of the actions that
    it has answered before."""
    server.ask("/health")
    pipe = server.process.stderr
    os.set_blocking(pipe.fileno(), False)
    said = (pipe.read() or b"").decode()
    os.set_blocking(pipe.fileno(), True)
    fleet.said.append(said)
    return said


def is_still(server):
    """Whether a server takes next to no time of a processor in a second."""
    begun = server.seconds()
    time.sleep(1)
    return server.seconds() - begun < MOST_STILL * slowness()
