"""Matches that can't be read: a server leaves them out, its log says of each which file is the reason, and an operator copies
all others."""
import fcntl
import os
import shutil
import subprocess
import tempfile

from counting import right
from parties import MOST_SECONDS, says
from program import PROGRAM
from served import Served
from serving.asking import bearer, lines_of, names_on, state_of
from serving.operators import manage

SLOTS = ("party-0.0", "party-0.1")


def write(path, name, text):
    with open(os.path.join(path, name), "wb") as file:
        file.write(text)


def empty_the_match(path, _):
    write(path, "match", b"")


def damage_the_match(path, _):
    write(path, "match", b"no match\n")


def put_a_folder(path, name):
    if os.path.exists(os.path.join(path, name)):
        os.remove(os.path.join(path, name))
    os.mkdir(os.path.join(path, name))


def damage_saves(path, _):
    for slot in SLOTS:
        write(path, slot, b"no save")


def take_saves(path, other):
    for slot in SLOTS:
        if os.path.exists(os.path.join(path, slot)):
            os.remove(os.path.join(path, slot))
        if os.path.exists(os.path.join(other, slot)):
            shutil.copy(os.path.join(other, slot), path)


# What is done to a match by its folder, and by that of another match; what the log says of it then; and whether its files are
# those of a whole match nevertheless, so that it is copied.
FAULTS = (
    (empty_the_match, "its `match` is no match file: ", False),
    (damage_the_match, "its `match` is no match file: ", False),
    (lambda path, _: put_a_folder(path, "match"), "its `match` can't be used: ", False),
    (lambda path, _: write(path, "seats", b"x\n"), "its `seats` can't be used: invalid data; ", True),
    (lambda path, _: os.remove(os.path.join(path, "secret")), "its `secret` can't be used: ", True),
    (lambda path, _: write(path, "secret", bytes(32)), "its `dice` and its `secret` don't belong together: ", True),
    (lambda path, _: os.remove(os.path.join(path, "seats")), "another process uses it: ", True),
    (damage_saves, "the saves of its referee are damaged: ", False),
    (take_saves, "the saves of its referee are of another match: ", False),
    (lambda path, _: put_a_folder(path, "party-0.0"), "its `party-0.0` can't be used: ", False),
)


def leave_out(port):
    """Matches that can't be read are left out, and the log says why; what has no file `match` is none, and nothing is said of
    it. The others go on, and are copied."""
    # Each copy is synced; in memory that takes no time.
    room = tempfile.mkdtemp(dir="/dev/shm" if os.access("/dev/shm", os.W_OK | os.X_OK) else None)
    tables = os.path.join(room, "tables")
    os.mkdir(tables, 0o700)
    server = Served(tables, port).begin()
    try:
        made = [server.make(length=1) for _ in FAULTS]
        whole = server.make(length=1)
        server.kill()
        harmed = harm(tables, [one["match"] for one in made], whole["match"])
        fresh = lose_saves(server, whole["match"])
        locked = lock(server, made)
        server.begin()
        tell_reasons(server, harmed, (whole["match"], fresh))
        os.close(locked)
        go_on(server, whole)
        refuse_a_new_link(server, harmed)
        copy_others(server, room, harmed, (whole["match"], fresh))
    finally:
        server.kill()
        shutil.rmtree(room, ignore_errors=True)


def harm(tables, names, whole):
    """Does to each match one of the faults; gives by its name what is said of it, and whether it is copied."""
    for name, (do, _, _) in zip(names, FAULTS):
        do(os.path.join(tables, name), os.path.join(tables, whole))
    # What is no match.
    os.mkdir(os.path.join(tables, "none"))
    write(tables, "file", b"")
    return {name: (words, is_copied) for name, (_, words, is_copied) in zip(names, FAULTS)}


def lose_saves(server, whole):
    """Makes of a match another one, without seats, in which nothing was saved yet: such a match is served."""
    shutil.copytree(os.path.join(server.folder, whole), os.path.join(server.folder, "fresh"))
    for name in os.listdir(os.path.join(server.folder, "fresh")):
        if name.startswith("party-") or name == "seats":
            os.remove(os.path.join(server.folder, "fresh", name))
    return "fresh"


def lock(server, made):
    """Locks the folder of the match without `seats`, as another process does that plays over it."""
    [name] = [one["match"] for one in made if not os.path.exists(os.path.join(server.folder, one["match"], "seats"))]
    opened = os.open(os.path.join(server.folder, name), os.O_RDONLY)
    fcntl.flock(opened, fcntl.LOCK_EX)
    return opened


def tell_reasons(server, harmed, others):
    """The log has a line for each match that is left out, and none for anything else; it is served under no address."""
    is_said, lines = says(server.process, "matches: ")
    told = [line for line in lines.splitlines() if " is left out: " in line]
    right(is_said and f"matches: {len(others)}\n" in lines, f"a server over damaged matches says {lines}")
    right(len(told) == len(harmed), f"left out are {told}, and not {len(harmed)} matches")
    for name, (words, _) in harmed.items():
        of_it = [line for line in told if f"the match in {name} is left out: {words}" in line]
        right(len(of_it) == 1, f"of {name} the log does not say once \"{words}\": {told}")
        right(server.ask(f"/matches/{name}/state")[0] == 404, f"{name} is served, and {words}")
    right(set(names_on(server)) == set(others), f"beside matches that are left out, listed are {names_on(server)}")


def go_on(server, whole):
    """A match beside those that are left out goes on."""
    key = bearer(whole[state_of(server, whole["match"])["turn"].lower()])
    answer = server.ask(f"/matches/{whole['match']}/actions", b"2 resign normal", key)[2]
    right(answer == b'{"re":2,"done":true}', f"beside matches that are left out, an action is answered {answer}")
    right(len(lines_of(server, whole["match"])) == 3, "beside matches that are left out, a match lacks entries")


def refuse_a_new_link(server, harmed):
    """A match with a damaged file gets no new link, or keeps its names, and the file is named."""
    [seats] = [name for name, (words, _) in harmed.items() if "`seats`" in words]
    for name, words, said in ((seats, ("--new-link", "X"), "seats is damaged: nothing was changed"),
                              (next(iter(harmed)), ("--forget-names",), "match is no match file: nothing was changed")):
        status, printed, told = manage(server, "--match", name, *words)
        right((status, printed) == (1, "") and f"{server.folder}/{name}/{said}" in told, f"{words}: {status} {told}")


def copy_others(server, room, harmed, others):
    """All matches but the damaged ones are copied, and those are named; so is a damaged one that is to be restored."""
    copies, wanted = os.path.join(room, "copies"), {*others, *(name for name, (_, is_copied) in harmed.items() if is_copied)}
    status, said, told = manage(server, "--backup", copies)
    right((status, said) == (1, f"matches copied: {len(wanted)}\n"), f"copies beside damaged matches: {status} {said} {told}")
    right(set(os.listdir(copies)) == wanted, f"copied are {os.listdir(copies)}, and not {wanted}")
    named = {line.split()[1] for line in told.splitlines() if " is not copied: " in line or " could not be copied: " in line}
    right(named == set(harmed) - wanted, f"not copied are {set(harmed) - wanted}, and named {told}")
    damaged = next(iter(harmed))
    shutil.copytree(os.path.join(server.folder, damaged), os.path.join(copies, "damaged"))
    status, said, told = manage(server, "--match", "damaged", "--restore", copies)
    right((status, said) == (1, "") and "damaged is not restored: its copy is of no whole match" in told,
          f"restoring what is damaged: {status} {said} {told}")
    right(not [name for name in os.listdir(server.folder) if "damaged" in name], "a damaged copy is restored in part")
    right(manage(server, "--match", others[1], "--delete")[0] == 0, "a match is not deleted")
    right(manage(server, "--match", others[1], "--restore", copies)[0] == 0, "a copy beside damaged ones is not restored")


def refuse_empty_names(server, port):
    """An empty name of a folder or of a database is refused, as a variable of a script may be empty."""
    for words, said in ((("--match", "none", "--restore", ""), "the name of a folder is empty"),
                        (("--restore", ""), "the name of a folder is empty"),
                        (("--backup", ""), "the name of a folder is empty")):
        told = manage(server, *words)
        right(told == (2, "", f"bg_relay: {said}\n"), f"manage {words}: {told}")
    serve = [PROGRAM, "serve", "--dir", server.folder, "--port", str(port), "--store", ""]
    done = subprocess.run(serve, capture_output=True, check=False, text=True, timeout=MOST_SECONDS)
    right((done.returncode, done.stderr) == (2, "bg_relay: the name of a file is empty\n"), f"serve --store '': {done}")
