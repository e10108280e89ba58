"""What an operator does with matches by `manage` while a server runs, and what becomes of matches that nobody plays."""
import json
import os
import shutil
import subprocess
import time

from counting import right
from parties import comes
from program import PROGRAM
from serving.asking import bearer, begin_players, counted, has_ended, lines_of, names_on, secret_of, state_of, wait_for
from web_sockets import Socket


def manage(server, *words):
    """What `manage` does with the server's folder: its status, and what it prints."""
    done = subprocess.run([PROGRAM, "manage", "--dir", server.folder, *words], capture_output=True, check=False, text=True)
    return done.returncode, done.stdout, done.stderr


def change_while_serving(server):
    """What an operator changes of matches while the server runs, and what is refused."""
    made = server.make(length=1, x="Anna", o="Otto")
    name, copies = made["match"], os.path.join(server.folder + "-copies")
    hide_and_show(server, name)
    keep_unread(server, name)
    watcher = Socket(server.port, f"/matches/{name}/live")
    link = make_link(server, made)
    delete_and_restore(server, name, link, watcher, copies)
    seat = made["o"] if state_of(server, name)["turn"] == "O" else link
    right(server.ask(f"/matches/{name}/actions", b"2 resign normal", bearer(seat))[2] == b'{"re":2,"done":true}',
          "a restored match does not go on")
    refuse_to_manage(server, name, copies)
    refuse_referees(server, name)
    shutil.rmtree(copies)


def hide_and_show(server, name):
    """A match is hidden, shown again, and loses its names."""
    right(manage(server, "--match", name, "--hide") == (0, "", ""), "hiding a match")
    right(name not in names_on(server) and name not in names_on(server, "search=Anna"), "a hidden match is listed")
    right(server.ask(f"/matches/{name}/state")[0] == 200, "a hidden match does not go on")
    right(manage(server, "--match", name, "--show") == (0, "", "") and name in names_on(server), "a match is not shown again")
    right(manage(server, "--match", name, "--forget-names")[0] == 0, "forgetting names")
    first = json.loads(server.ask("/matches")[2])["matches"][0]
    right(first["names"] == ["", ""] and name not in names_on(server, "search=Anna"), "names are kept")


def keep_unread(server, name):
    """What the operator has changed of a match that can't be read at the moment is not lost, and the match stays."""
    file = f"{server.folder}/{name}/match"
    os.rename(file, file + "-aside")
    os.mkdir(file)
    status, _, told = manage(server, "--match", name, "--hide")
    right(status == 0 and "has not answered within 5 seconds" in told, f"hiding what can't be read: {status} {told}")
    right(name in names_on(server) and server.ask(f"/matches/{name}/state")[0] == 200, "what can't be read is not there")
    os.rmdir(file)
    os.rename(file + "-aside", file)
    right(comes(lambda: name not in names_on(server)), "a change that could not be read at first is lost")
    right(manage(server, "--match", name, "--show") == (0, "", "") and name in names_on(server), "it is not shown again")


def make_link(server, made):
    """Makes a new link of X, and gives it: the old one has no seat any more."""
    name, actions = made["match"], f"/matches/{made['match']}/actions"
    old = Socket(server.port, "/play/live")
    old.send("hello " + secret_of(made["x"]))
    right(old.message() == {"hello": True}, "a seat is not had by its link")
    status, said, _ = manage(server, "--match", name, "--new-link", "X")
    right(status == 0 and said.startswith("X plays at /play#") and has_ended(old), f"a new link: {status} {said}")
    link = said.strip()
    right(server.ask(actions, b"2 roll", bearer(made["x"]))[0] == 401, "an old link acts")
    again = Socket(server.port, "/play/live")
    again.send("hello " + secret_of(made["x"]))
    right("no such seat" in again.receive(), "an old link has its seat")
    right(server.ask(actions, b"2 roll", bearer(link))[0] == 200, "a new link does not act")
    right(server.ask(actions, b"2 roll", bearer(made["o"]))[0] == 200, "the other link is none any more")
    with open(os.path.join(server.folder, name, "seats")) as file:
        right(secret_of(link) not in file.read(), "the new secret is kept")
    return link


def delete_and_restore(server, name, link, watcher, copies):
    """A match is copied with all, deleted, and restored from its copy."""
    path = f"/matches/{name}"
    # An entry whose name is no text is no match, and in nobody's way.
    os.mkdir(os.fsencode(server.folder) + b"/\xff")
    right(manage(server, "--backup", copies)[0] == 0 and os.path.exists(f"{copies}/{name}/match"), "copies of all")
    right(manage(server, "--match", name, "--restore", copies)[0] == 2, "a match that is there is restored")
    # What a kill has left of an earlier deletion is in nobody's way.
    shutil.copytree(f"{server.folder}/{name}", f"{server.folder}/{name}.deleted")
    right(manage(server, "--match", name, "--delete") == (0, "", "") and has_ended(watcher), "deleting a match")
    is_gone = not [one for one in os.listdir(server.folder) if name in one]
    right(server.ask(path + "/state")[0] == 404 and is_gone, "a deleted match is there")
    right(server.ask(path + "/actions", b"2 roll", bearer(link))[0] == 404, "a deleted match is played")
    right(manage(server, "--restore", copies) == (0, "matches restored: 1\n", ""), "restoring what was deleted")
    right(server.ask(path + "/state")[0] == 200 and name in names_on(server), "a restored match is not there")


def refuse_to_manage(server, name, copies):
    """What `manage` refuses, by its status and its words."""
    for words, status, why in ((("--match", "none", "--hide"), 2, "has no match none"),
                               (("--match", "../x", "--delete"), 2, "has no match"),
                               (("--hide",), 2, "name the match"), (("--match", name), 2, "give one of"),
                               (("--match", name, "--hide", "--show"), 2, "give one of"),
                               (("--backup", copies), 2, "is there already: name a new folder"),
                               (("--backup", copies + "/none/new"), 2, f"{copies}/none is missing: make it first"),
                               (("--backup", f"{copies}/{name}/match/new"), 2, f"{name}/match is no folder: name another one"),
                               (("--backup", copies + "-again", "--match", name), 2, "leave out --match"),
                               (("--restore", copies, "--match", "none"), 2, "-copies has no match none"),
                               (("--restore", copies, "--match", "../x"), 2, "has no match ../x"),
                               (("--restore", copies + "/none"), 2, "/none is no folder: name one that `manage --backup` made"),
                               (("--match", name, "--new-link", "Y"), 2, "invalid value")):
        ended, _, told = manage(server, *words)
        right(ended == status and why in told, f"manage {words} ended with {ended}: {told}")


def refuse_referees(server, name):
    """No other process becomes the referee of a match that is served, or makes keys for one."""
    folder = os.path.join(server.folder, name)
    for command in ("keys", "referee"):
        done = subprocess.run([PROGRAM, command, "--dir", folder], capture_output=True, check=False, text=True, timeout=60)
        told = f"{folder} is the folder of a match of `bg_relay serve`, which runs its referee: play it in a browser"
        right(done.returncode == 2 and told in done.stderr, f"{command} over a served match: {done}")
    right("key-secret" not in os.listdir(folder), "keys were made for a served match")


def copy_while_played(server):
    """Copies that are made while matches are played are whole: each can be restored, and is a front of the match."""
    made = [server.make(length=3) for _ in range(3)]
    players = [player for one in made for player in begin_players(server, one, one["match"])]
    copies = []
    for index in range(5):
        copies.append(f"{server.folder}-copy-{index}")
        right(manage(server, "--backup", copies[-1])[0] == 0, "copying matches that are played")
    right(wait_for(players), "a match that was copied did not go on")
    for one in made:
        whole = lines_of(server, one["match"])
        for copy in copies:
            slots = [f"{copy}/{one['match']}/party-0.{slot}" for slot in (0, 1)]
            shown = subprocess.run([PROGRAM, "show", "--transcript", *slots], capture_output=True, check=False, text=True)
            lines = [line for line in shown.stdout.splitlines() if not line.startswith("match ")]
            right(shown.returncode == 0 and lines and lines[1:] == whole[1:len(lines)],
                  f"a copy of {one['match']} is no front of it: {shown}")
    for copy in copies:
        shutil.rmtree(copy)


def list_idle_apart(server):
    """A match in which nobody has acted for long leaves the live list, has no result, and comes back by an action."""
    made = server.make(length=1)
    name = made["match"]
    server.kill()
    for slot in ("party-0.0", "party-0.1"):
        old = time.time() - 721 * 3600
        if os.path.exists(os.path.join(server.folder, name, slot)):
            os.utime(os.path.join(server.folder, name, slot), (old, old))
    server.begin()
    right(name not in names_on(server) and names_on(server, "list=idle") == [name], "an idle match is listed as live")
    state = state_of(server, name)
    right(state["winner"] == "" and counted(server)['bg_relay_matches{state="idle"}'] == 1, "an idle match has a result")
    key = bearer(made[state["turn"].lower()])
    right(server.ask(f"/matches/{name}/actions", b"2 resign normal", key)[2] == b'{"re":2,"done":true}',
          "an idle match does not go on")
    right(name in names_on(server) and names_on(server, "list=idle") == [], "a match that goes on is listed as idle")
