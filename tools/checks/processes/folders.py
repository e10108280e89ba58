"""Which folders a match can be made in and a seat can have, and who may read what is made there."""
import os
import shutil
import subprocess

from counting import right
from parties import MOST_SECONDS
from processes.running import check, run, start
from program import PROGRAM

# (a port above all that a check is given, as no match that lies beside may have it)
NEW = ("new", "--length", "1", "--port", "40000", "--dir")


def check_folders(room):
    """Which folders a match can be made in, and which a seat can have."""
    top = room.top
    check("folders above that are missing", 0, "length 1 rules 1 port 40000", "", *NEW, f"{top}/a/b")
    for port, told in ((39745, "40000 to 40255"), (40255, "40000 to 40255"), (39744, ""), (40256, "")):
        check(f"a match beside at port {port}", 2 if told else 0, "" if told else f"port {port}",
              f"bg_relay: the match of {top}/a/b/match has the ports {told}: " if told else "", "new", "--length",
              "1", "--port", str(port), "--dir", f"{top}/a/at-{port}")
        right(os.path.exists(f"{top}/a/at-{port}") == (not told), f"a folder for port {port} is there, or is not")
    check_told_beside(top)
    check("a folder below a file", 2, "", "can't be made: give another --dir, or the right to make it there: ", *NEW,
          f"{top}/table/match/more")
    for name in ("party-0.0", "party-0.1", "match"):
        os.mkdir(f"{top}/with-{name}")
        with open(f"{top}/with-{name}/{name}", "wb"):
            pass
        check(f"a folder that has {name}", 2, "", f"has a match already: {name}", *NEW, f"{top}/with-{name}")
    os.mkdir(f"{top}/empty")
    os.symlink(f"{top}/empty", f"{top}/link")
    os.chmod(f"{top}/empty", 0o700)
    check("a link to a folder", 0, "port 40000", "", *NEW, f"{top}/link")
    check_folders_of_seats(top)


def check_folders_of_seats(top):
    """What is no folder, or no file, for a seat, and for `new` where it is the same."""
    os.symlink(f"{top}/table/match", f"{top}/link-to-file")
    seat = ["--player", "X", "--match", f"{top}/table/match-x", "--dir"]
    seats = [["act", "--seconds", "1", *seat], ["auto", *seat], ["play", *seat]]
    for command in (NEW, *seats):
        check(f"{command[0]} in a folder without a name", 2, "", "bg_relay: the name of a folder is empty", *command, "")
        for path in (f"{top}/table/match", f"{top}/link-to-file"):
            check(f"{command[0]} in {os.path.basename(path)}", 2, "", f"bg_relay: {path} is no folder", *command, path)
        told = f"bg_relay: {top}/table is the folder of the referee: give another --dir"
        if command is not NEW:
            check(f"{command[0]} in the referee's folder", 2, "", told, *command, f"{top}/table")
    for command in (["act", "--seconds", "1"], ["auto", "--player", "X"], ["play"], ["watch"]):
        words = [*command, "--match", "", *([] if command == ["watch"] else ["--dir", f"{top}/empty"])]
        check(f"{command[0]} with a file without a name", 2, "", "bg_relay: the name of a file is empty", *words)
    os.makedirs(f"{top}/blocked/party-1.0")
    for command in seats:
        told = f"bg_relay: {top}/blocked/party-1.0 could not be read: "
        check(f"{command[0]} names the file that it can't read as it begins", 1, "", told, *command, f"{top}/blocked")
    # (a link to itself is nothing that the system can look at, for the administrator too)
    for name in ("match", "party-1.0", "party-2.1"):
        os.mkdir(f"{top}/looped-{name}")
        os.symlink(name, f"{top}/looped-{name}/{name}")
        for command in seats:
            told = f"bg_relay: {top}/looped-{name}/{name} could not be read: "
            check(f"{command[0]} where {name} can't be looked at", 1, "", told, *command, f"{top}/looped-{name}")
        left = os.listdir(f"{top}/looped-{name}")
        right(left == [name], f"a seat that can't look at {name} left {left}")


def check_told_beside(top):
    """By which path a match beside is told, whatever the folder of the new one is called; and nothing new is left."""
    os.makedirs(f"{top}/beside/empty", 0o700)
    os.symlink(f"{top}/beside/empty", f"{top}/beside-link")
    words = ["new", "--length", "1", "--port", "40200", "--dir"]
    check("a match that has one beside it", 0, "port 40000", "", *words[:4], "40000", "--dir", f"{top}/beside/b")
    for at, folder, told in (("beside", "c", "b"), ("beside", "./c/", "./b"), ("beside", "../beside/c", "../beside/b"),
                             ("beside", "empty", "b"), ("beside/empty", ".", f"{top}/beside/b"),
                             (".", "beside/empty/", "beside/b"), (".", "beside/c", "beside/b"),
                             (".", "beside-link", f"{top}/beside/b")):
        done = subprocess.run([PROGRAM, *words, folder], cwd=f"{top}/{at}", capture_output=True, text=True, check=False)
        said = f"bg_relay: the match of {told}/match has the ports 40000 to 40255: choose a port that is 256 above or below\n"
        right((done.returncode, done.stdout, done.stderr) == (2, "", said), f"{folder} in {at}: {done}")
    right(sorted(os.listdir(f"{top}/beside")) == ["b", "empty"] and not os.listdir(f"{top}/beside/empty"),
          f"what was refused left {os.listdir(f'{top}/beside')}")


def mode_of(path):
    """Who may do what with a file."""
    return os.stat(path).st_mode & 0o777


def check_modes(room):
    """What these commands make is for its owner alone, but what is kept for others is for all."""
    top, table = room.top, f"{room.top}/modes/table"
    before = os.umask(0)
    run("new", "--length", "1", "--port", str(room.port + 20), "--dir", table)
    parties = [start("referee", "--dir", table),
               start("watch", "--match", f"{table}/match-watch", "--page", f"{top}/modes/page"),
               *(start("auto", "--player", name, "--match", f"{table}/match-{name.lower()}", "--dir", f"{top}/modes/{name}")
                 for name in "XO")]
    for party in parties:
        party.communicate(timeout=MOST_SECONDS)
    os.umask(before)
    for folder in (f"{top}/modes", table, f"{top}/modes/X", f"{top}/modes/O"):
        right(mode_of(folder) == 0o700, f"{folder} has the mode {mode_of(folder):o}")
    names = ["table/match", "table/secret", "table/key-secret", "table/match-x", "table/match-o", "table/match-watch",
             "table/party-0.0", "X/party-1.1", "O/party-2.0"]
    for name in names:
        right(mode_of(f"{top}/modes/{name}") == 0o600, f"{name} has the mode {mode_of(f'{top}/modes/{name}'):o}")
    os.mkdir(f"{top}/modes/open")
    os.chmod(f"{top}/modes/open", 0o750)
    check("a folder that is open to others", 1, "", "/modes/open is open to other users: ", "act", "--player", "X",
          "--match", f"{table}/match-x", "--dir", f"{top}/modes/open", "--seconds", "1")
    right(mode_of(f"{top}/modes/page") == 0o644, f"the page has the mode {mode_of(f'{top}/modes/page'):o}")


def check_no_plain_files(room):
    """A pipe in the place of a file is refused, and not waited for."""
    folder = f"{room.top}/pipes"
    for name, what in (("match", "match could not be read: it is no plain file"),
                       ("secret", "/secret could not be read: it is no plain file"),
                       ("key-secret", "/key-secret could not be read: it is no plain file"),
                       ("party-0.1", "party-0.1 could not be read: it is no plain file\nrestore fault: device")):
        shutil.copytree(f"{room.top}/table", folder)
        if os.path.exists(f"{folder}/{name}"):
            os.remove(f"{folder}/{name}")
        os.mkfifo(f"{folder}/{name}")
        check(f"a pipe as {name}", 1, "", what, "referee", "--dir", folder)
        shutil.rmtree(folder)
