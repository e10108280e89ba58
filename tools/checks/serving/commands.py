"""The command that serves matches: its log, also of what it can't write, the ports and folders that it refuses, and how it goes
on without files."""
import json
import os
import resource
import shutil
import signal
import socket
import subprocess
import tempfile
import time

from counting import right, slowness
from parties import MOST_SECONDS, says
from program import PROGRAM
from serving.asking import JSON, bearer, names_on, secret_of, state_of
from served import Served


def serve_with_log(port):
    """With --access-log each request has a line, without secrets and queries."""
    # In memory, where the system has a folder there: a slow disk takes less than sixty matches in a minute.
    folder = tempfile.mkdtemp(dir="/dev/shm" if os.access("/dev/shm", os.W_OK | os.X_OK) else None)
    words = [PROGRAM, "serve", "--dir", folder, "--port", str(port), "--access-log"]
    logged = Served(folder, port, words).begin()
    try:
        made = logged.make(length=1, x="Anna")
        play_logged(logged, made)
        logged.ask("/matches?search=Anna")
        logged.ask("/none")
        make_many(logged)
        # The end of a match is told within a second.
        _, lines = says(logged.process, "matches ended: ")
    finally:
        logged.kill()
        shutil.rmtree(folder, ignore_errors=True)
    lines += logged.process.stderr.read().decode()
    for line in ("POST /matches 201", f"POST /matches/{made['match']}/actions 200", "GET /matches 200", "GET /none 404"):
        right(f"bg_relay: {line}\n" in lines, f"the log lacks {line}: {lines}")
    right("bg_relay: matches ended: 1\n" in lines, f"the log lacks the end of a match: {lines}")
    right(secret_of(made["x"]) not in lines and "Anna" not in lines, "a secret or a name is in the log")


def log_faults(port):
    """A file that can't be written is logged by its path; that no match can be made is logged once, until one is made again."""
    folder = tempfile.mkdtemp()
    tables = os.path.join(folder, "tables")
    # A file that may not grow is to be told to the server, and not to end it.
    words = [PROGRAM, "serve", "--dir", tables, "--port", str(port)]
    server = Served(tables, port, ["sh", "-c", "trap '' XFSZ; exec \"$@\"", "sh", *words]).begin()
    try:
        made = server.make(length=1)
        file = fail_to_save(server, made)
        statuses = [make_without_folder(server), server.make(length=1) and 201, make_without_folder(server)]
        right(statuses == [{507}, 201, {507}], f"matches without a folder came to {statuses}")
        statuses = [server.make(length=1) and 201, make_without_room(server)]
        right(statuses == [201, {507}], f"matches without room for their files came to {statuses}")
    finally:
        server.kill()
        shutil.rmtree(folder, ignore_errors=True)
    lines = server.process.stderr.read().decode().splitlines()
    right(f"bg_relay: {file} could not be written: it is no plain file" in lines, f"the log lacks {file}: {lines}")
    told = [line for line in lines if line.startswith(f"bg_relay: no match can be made in {tables}: ")]
    right(len(told) == 3, f"matches that could not be made are logged as {lines}")


def fail_to_save(server, made):
    """Lets the player on turn act while the file of the save is none; gives its path."""
    name = made["match"]
    turn = state_of(server, name)["turn"].lower()
    files = [os.path.join(server.folder, name, f"party-{1 + 'xo'.index(turn)}.{slot}") for slot in (0, 1)]
    for file in files:
        os.mkdir(file)
    answer = server.ask(f"/matches/{name}/actions", b"2 resign normal", bearer(made[turn]))[2]
    right(answer == b'{"re":2,"no":"not saved: try again"}', f"an action that can't be saved came to {answer}")
    return files[1]


def make_without_folder(server):
    """The statuses of some requests to make a match while the folder of all matches is away."""
    away = server.folder + "-away"
    os.rename(server.folder, away)
    statuses = {server.ask("/matches", b'{"length":1}', JSON)[0] for _ in range(3)}
    os.rename(away, server.folder)
    return statuses


def make_without_room(server):
    """The statuses of some requests to make a match while no file may grow. Nothing is left of these matches."""
    before = sorted(os.listdir(server.folder))
    soft, hard = resource.prlimit(server.process.pid, resource.RLIMIT_FSIZE)
    resource.prlimit(server.process.pid, resource.RLIMIT_FSIZE, (0, hard))
    statuses = {server.ask("/matches", b'{"length":1}', JSON)[0] for _ in range(3)}
    resource.prlimit(server.process.pid, resource.RLIMIT_FSIZE, (soft, hard))
    after = sorted(os.listdir(server.folder))
    right(after == before, f"matches without room for their files leave {after}, and not {before}")
    return statuses


def die_while_making(port):
    """A server that ends while it makes a match leaves nothing that the next one takes for a match."""
    folder = tempfile.mkdtemp()
    server = Served(folder, port).begin()
    try:
        made = server.make(length=1)
        before = set(os.listdir(folder))
        hard = resource.prlimit(server.process.pid, resource.RLIMIT_FSIZE)[1]
        # Some files of a match are smaller, and some are not: these end the process.
        resource.prlimit(server.process.pid, resource.RLIMIT_FSIZE, (100, hard))
        status = status_or_none(server)
        ended = server.process.wait(MOST_SECONDS)
        right((status, ended) == (None, -signal.SIGXFSZ), f"while it made a match the server ended by {ended} and said {status}")
        left = set(os.listdir(folder)) - before
        right(left and all("." in name for name in left), f"a server that ended while it made a match left {left}")
        server.begin()
        right(names_on(server) == [made["match"]], f"after that end it lists {names_on(server)}")
    finally:
        server.kill()
        shutil.rmtree(folder, ignore_errors=True)


def status_or_none(server):
    """The status of a request to make a match, if it is answered."""
    try:
        return server.ask("/matches", b'{"length":1}', JSON)[0]
    except OSError:
        return None


def make_many(server):
    """So many matches are made that the next one in the same minute is refused, if the machine makes as many in one."""
    begun, statuses = time.monotonic(), []
    while len(statuses) < 300 and 429 not in statuses:
        statuses.append(server.ask("/matches", b'{"length":1}', JSON)[0])
    took = time.monotonic() - begun
    if set(statuses) == {201} and len(statuses) < took:
        print(f"this machine made {len(statuses)} matches in {took:.0f} seconds, so none was one too many in a minute")
        return
    right(set(statuses) == {201, 429} and len(statuses) >= 60,
          f"matches made at once came to {statuses[-3:]}, {len(statuses)} of them")


def play_logged(server, made):
    """Ends a match by what scripts do."""
    name = made["match"]
    server.ask(f"/matches/{name}/actions", b"2 roll", bearer(made["x"]))
    turn = state_of(server, name)["turn"].lower()
    for number, words, seat in ((2, "resign normal", turn), (3, "accept", "o" if turn == "x" else "x")):
        server.ask(f"/matches/{name}/actions", f"{number} {words}".encode(), bearer(made[seat]))


def serve_an_empty_folder(port):
    """Over a new folder a server makes it, has no match, and leaves nothing out."""
    folder = tempfile.mkdtemp()
    server = Served(os.path.join(folder, "new"), port).begin()
    try:
        listed = json.loads(server.ask("/matches")[2])
    finally:
        server.kill()
        shutil.rmtree(folder, ignore_errors=True)
    right(listed == {"count": 0, "page": 1, "pages": 1, "matches": []}, f"a server without matches lists {listed}")
    lines = server.process.stderr.read().decode()
    wanted = f"bg_relay: serving at http://127.0.0.1:{port}, matches: 0\n"
    right(lines == wanted, f"a server over a new folder says {lines}")


def refuse_a_taken_port(server):
    """A server whose port is taken, or whose folder another serves, says so and what to do, and leaves the first alone."""
    for folder, said in (
        (tempfile.mkdtemp(), f"port {server.port} is taken: end the process that has it, or name another by --port"),
        (server.folder, "another process "),
    ):
        words = [PROGRAM, "serve", "--dir", folder, "--port", str(server.port)]
        second = subprocess.run(words, capture_output=True, timeout=MOST_SECONDS, check=False)
        lines = second.stderr.decode().splitlines()
        right(second.returncode == 1 and len(lines) == 1 and said in lines[0], f"a second server: {second.returncode}: {lines}")
        right(second.stdout == b"", f"a second server prints {second.stdout}")
    right(server.ask("/health")[2] == b"ok\n", "the first server does not go on")


def refuse_the_folder_of_a_match(server, port):
    """The folder of one match is not served, nor managed, and stays as it is."""
    above = tempfile.mkdtemp()
    path = os.path.join(above, "one")
    made = subprocess.run([PROGRAM, "new", "--length", "1", "--port", str(port), "--dir", path], capture_output=True, check=False)
    right(made.returncode == 0, f"a match to be served was not made: {made}")
    saved = os.path.join(above, "saved")
    os.mkdir(saved)
    shutil.copy(os.path.join(server.folder, names_on(server)[0], "party-0.1"), saved)
    said = " is the folder of one match: name the folder above it\n"
    for folder in (path, path + "/", saved):
        kept = sorted(os.listdir(folder))
        for words in (["serve", "--port", str(port)], ["manage", "--match", "one", "--hide"]):
            done = subprocess.run([PROGRAM, words[0], "--dir", folder, *words[1:]], capture_output=True, check=False, text=True,
                                  timeout=MOST_SECONDS)
            right((done.returncode, done.stdout, done.stderr) == (2, "", f"bg_relay: {folder}{said}"),
                  f"{words[0]} of {folder}: {done}")
        right(sorted(os.listdir(folder)) == kept, f"{folder} has {os.listdir(folder)}")
    shutil.rmtree(above)


def serve_with_few_files(port):
    """Where no more files may be opened, connections wait, nothing is tried over and over, and then it goes on."""
    folder = tempfile.mkdtemp()
    words = ["bash", "-c", 'ulimit -n 48; exec "$@"', "-", PROGRAM, "serve", "--dir", folder, "--port", str(port)]
    few = Served(folder, port, words).begin()
    try:
        many = [socket.create_connection(("127.0.0.1", port)) for _ in range(100)]
        took, most = least_taken(few, 3, 0.3)
        right(took < most, f"without files it took {took} seconds of 3")
        for one in many:
            one.close()
        right(few.ask("/health")[2] == b"ok\n", "it does not go on after there were too many files")
        few.make(length=1)
    finally:
        few.kill()
        shutil.rmtree(folder, ignore_errors=True)


def rest(server):
    """A server of whom nobody asks anything takes next to no time."""
    took, most = least_taken(server, 5, 0.25)
    right(took < most, f"idle it took {took} seconds of 5")


def least_taken(server, seconds, most):
    """What a server takes of a processor in so many seconds, the least of some times, as it may come to rest late; and what
    it may take at most, which is more on a slow machine."""
    taken, most = [], most * slowness()
    while len(taken) < 10 and min(taken, default=most) >= most:
        started = server.seconds()
        time.sleep(seconds)
        taken.append(server.seconds() - started)
    return min(taken), most
