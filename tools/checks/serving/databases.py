"""A server with a database (`--store`): matches that are played over kills, what the folders have then, and which databases are
refused."""
import os
import shutil
import subprocess
import tempfile
import time

from counting import right
from parties import MOST_SECONDS
from program import PROGRAM
from served import Served
from serving.asking import bearer, begin_players, lines_of, state_of, wait_for
from serving.kills import compare_told
from serving.operators import manage

SETTLED = "the folders are brought up to date from the database "


def serve_with_database(port):
    """Plays over kills with a database; goes on without it, with what was played; and is refused what others have."""
    room = tempfile.mkdtemp()
    tables, store = os.path.join(room, "tables"), os.path.join(room, "saves.db")
    os.mkdir(tables, 0o700)
    server = Stored(tables, port, store).begin()
    try:
        players = play_over_kills(server)
        act_and_restore(server)
        refuse_databases(server, room)
        go_on_without(server, players)
        miss_a_database(server)
    finally:
        server.kill()
        shutil.rmtree(room)


class Stored(Served):
    """A server that has a database, or none, each time that it begins."""

    def __init__(self, folder, port, store):
        super().__init__(folder, port)
        self.alone, self.store = self.command, store
        self.command = [*self.alone, "--store", store]

    def end(self):
        """Ends it, and gives what it has said."""
        self.kill()
        return self.process.stderr.read().decode()


def begin_answering(server):
    """Begins a server, and waits until it answers: its port takes connections before its database is open."""
    server.begin()
    right(server.ask("/health")[0] == 200, "a server does not answer")


def play_over_kills(server):
    """Bots play four matches to the end, while the server is killed three times."""
    made = [server.make(length=1 + index % 2, x=f"x{index}") for index in range(4)]
    seated = {one["match"]: begin_players(server, one, one["match"]) for one in made}
    for _ in range(3):
        said = server.end()
        right("can't" not in said, f"a server with a database said {said}")
        server.begin()
    players = [player for both in seated.values() for player in both]
    right(wait_for(players, 240), f"with a database a match did not end: {[player.fault for player in players]}")
    right(sum(player.conflicts for player in players) == 0, "with a database an entry was told otherwise later, or not any more")
    for name, both in seated.items():
        compare_told(server, name, both)
    for name in seated:
        compare_folder(server, name)
    modes = [os.stat(server.store + end).st_mode & 0o777 for end in ("", "-wal")]
    right(modes == [0o600, 0o600], f"a database is open to others: {[oct(mode) for mode in modes]}")
    return seated


def compare_folder(server, name):
    """The folder of a match that nobody plays any more has all of it, within some seconds."""
    files = [os.path.join(server.folder, name, f"party-0.{slot}") for slot in "01"]
    until, lines, shown = time.monotonic() + MOST_SECONDS, lines_of(server, name), None
    while shown != lines and time.monotonic() < until:
        time.sleep(0.1)
        done = subprocess.run([PROGRAM, "show", "--transcript", *files], capture_output=True, check=False, text=True)
        shown = done.stdout.splitlines()
    right(shown == lines, f"the folder of {name} has {len(shown)} lines, and not {len(lines)}")


def act_and_restore(server):
    """A match that is deleted and restored goes on from its copy, also after the server began again."""
    made = server.make(length=3)
    name, copies = made["match"], server.folder + "-copies"
    path = f"/matches/{name}/actions"
    right(manage(server, "--backup", copies)[0] == 0, "copies beside a database")
    for number, words in ((2, "resign normal"), (3, "reject"), (4, "resign gammon"), (5, "reject")):
        key = bearer(made[state_of(server, name)["turn"].lower()])
        answer = server.ask(path, f"{number} {words}".encode(), key)[2]
        right(answer == b'{"re":%d,"done":true}' % number, f"entry {number} is answered {answer}")
    right(manage(server, "--match", name, "--delete") == (0, "", ""), "deleting beside a database")
    right(manage(server, "--restore", copies)[:2] == (0, "matches restored: 1\n"), "restoring beside a database")
    before = lines_of(server, name)
    right(len(before) == 2, f"a restored match has {before}")
    server.kill()
    server.begin()
    right(lines_of(server, name) == before, f"a restored match has {lines_of(server, name)} later, and not {before}")
    key = bearer(made[state_of(server, name)["turn"].lower()])
    right(server.ask(path, b"2 resign backgammon", key)[2] == b'{"re":2,"done":true}', "a restored match does not go on")
    server.kill()
    server.begin()
    right(len(lines_of(server, name)) == 3, "what was played in a restored match is lost")
    shutil.rmtree(copies)


def refused(words, status, *said):
    """A command ends with this status, and says one line with these words."""
    done = subprocess.run([PROGRAM, *words], capture_output=True, timeout=60, check=False, text=True)
    lines = done.stderr.splitlines()
    is_right = done.returncode == status and len(lines) == 1 and all(word in lines[0] for word in said)
    right(is_right, f"{words[0]} ended with {done.returncode}, and said {lines}, and not {said}")


def refuse_databases(server, room):
    """What another server has, what has another folder's saves, and what is none."""
    other, text = os.path.join(room, "other"), os.path.join(room, "text.db")
    os.mkdir(other, 0o700)
    with open(text, "w") as file:
        file.write("no database, but a text of more than one line\n" * 100)
    serve = ["serve", "--dir", other, "--port", str(server.port + 1), "--store"]
    refused([*serve, server.store], 1, f"another process has the database {server.store}: end it first")
    refused([*serve, text], 2, f"{text} is no database of a server: name a new file")
    refused([*serve, os.path.join(room, "none", "saves.db")], 1, "none/saves.db can't be used: ",
            "; name a file in a folder that is there")
    server.kill()
    refused([*serve, server.store], 2, f"the database {server.store} has the saves of other matches: name a new file")
    right(".database" not in os.listdir(other), "a folder has a database that was refused")
    begin_answering(server)


def go_on_without(server, seated):
    """Without the option the folders have all that was played, and the database is not needed any more."""
    server.kill()
    server.command = server.alone
    server.begin()
    for name, both in seated.items():
        compare_told(server, name, both)
    said = server.end()
    right(f"{SETTLED}{server.store}\n" in said, f"a server that goes on without a database said {said}")
    right(".database" not in os.listdir(server.folder), "a folder has its database still")
    for end in ("", "-wal"):
        os.remove(server.store + end)
    begin_answering(server)
    right(SETTLED not in server.end(), "a database is looked at that is not there any more")


def miss_a_database(server):
    """Where the database is gone, nobody goes on from older files; `manage` brings the folders up to date too."""
    server.command = [*server.alone, "--store", server.store]
    server.begin()
    made = server.make(length=1)
    key = bearer(made[state_of(server, made["match"])["turn"].lower()])
    server.ask(f"/matches/{made['match']}/actions", b"2 resign normal", key)
    server.kill()
    os.rename(server.store, server.store + ".away")
    why = f"the newest saves of {server.folder} are in the database {server.store}, which is not there: bring it back"
    refused(["serve", "--dir", server.folder, "--port", str(server.port)], 1, why)
    refused(["manage", "--dir", server.folder, "--match", made["match"], "--hide"], 1, why)
    right(not os.path.exists(server.store), "a database was made in the place of one that is missing")
    os.rename(server.store + ".away", server.store)
    status, _, said = manage(server, "--match", made["match"], "--hide")
    right(status == 0 and SETTLED in said, f"manage ended with {status}, and said {said}")
    right(".database" not in os.listdir(server.folder), "manage leaves the database")
    server.command = server.alone
    server.begin()
    right(len(lines_of(server, made["match"])) == 3, "what was played is lost")
