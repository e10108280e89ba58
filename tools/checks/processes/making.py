"""What `new` makes and prints, which of its arguments are refused, and the lock that it holds meanwhile."""
import hashlib
import os
import re
import signal
import subprocess

from counting import right
from parties import Match, comes, has_open, is_locked
from processes.cutting import cutter
from processes.folders import mode_of
from processes.running import check, end, make, start
from program import PROGRAM


def handed_of(table):
    """What `new` says of the key files in a folder."""
    whose = (("x", "X"), ("o", "O"), ("watch", "whoever may watch"))
    return "".join(f"hand {table}/match-{name} to {whom}\n" for name, whom in whose)


def commands_of(table, called=PROGRAM):
    """The commands that `new`, called by this name, prints for a folder whose name a shell reads as it is: each on one line
    of 80 columns, or two."""
    pairs = [("referee", f"--dir {table}"), *((f"play --match {table}/match-{name}", f"--dir {table}-{name}") for name in "xo"),
             ("watch", f"--match {table}/match-watch")]
    lines = (f"    {called} {front} {back}\n" for front, back in pairs)
    broken = (f"    {called} {front} \\\n        {back}\n" for front, back in pairs)
    return "then run, each in a terminal of its own:\n" + "".join(
        line if len(line) <= 81 else parts for line, parts in zip(lines, broken))


def check_new(room):
    """The match that most of the checks go on with."""
    table = f"{room.top}/table"
    made = check("a new match", 0, "length 1 rules 2 port", "", "new", "--length", "1", "--rules", "2", "--port",
                 str(room.port), "--dir", table)
    check_random(room.top, Match(table))
    check_made(room, table, made)
    check_called(room)
    check_untold(room)
    check_arguments(room.top, table)


def check_made(room, table, made):
    """What files a match has, and that what is printed says what they do."""
    with open(f"{table}/match", "rb") as file:
        text = file.read()
    handed = handed_of(table).encode()
    with open(f"{table}/secret", "rb") as file:
        digest = "sha256 " + hashlib.sha256(file.read()).hexdigest() + "\n"
    told = text + handed + commands_of(table).encode() + f"dice: {digest}".encode()
    right(told == made.stdout, f"the match file has {text}, and {made.stdout} was printed")
    with open(f"{table}/dice") as file:
        right(file.read() == digest, "the file of what was told of the dice has something else")
    right(re.fullmatch(rb"match (0|[1-9][0-9]*) length 1 rules 2 port %d\n" % room.port, text), f"the match file has {text}")
    names = ["dice", "key-secret", "match", "match-o", "match-watch", "match-x", "secret"]
    right(sorted(os.listdir(table)) == names, f"files: {os.listdir(table)}")
    modes = {mode_of(f"{table}/{name}") for name in names}
    right(modes == {0o600}, f"modes of the files: {modes}")


def check_called(room):
    """By which name the commands that are printed call the program."""
    names = (("bg_relay", "bg_relay"), ("./bg_relay", "./bg_relay"), ("a b/bg_relay", "'a b/bg_relay'"), ("", "bg_relay"))
    for name, called in names:
        # (each in a folder of its own, as matches beside each other have no port in common)
        folder = f"{room.top}/called-{len(name)}/table"
        done = subprocess.run([name, "new", "--length", "1", "--port", str(room.port), "--dir", folder],
                              executable=PROGRAM, capture_output=True, text=True, check=False)
        right(commands_of(folder, called) in done.stdout, f"called {name!r}: {done}")


def check_untold(room):
    """Where what is printed of a match that is made, or made again, can't be written, it is said that the match is there."""
    if not os.access("/dev/full", os.W_OK):
        return
    top = f"{room.top}/untold"
    for name in "xo":
        os.makedirs(f"{top}/{name}")
    new = ["new", "--length", "1", "--port", str(room.port), "--dir", f"{top}/new/table"]
    recover = ["recover", "--match", f"{top}/new/table/match", "--x", f"{top}/x", "--o", f"{top}/o", "--dir",
               f"{top}/recover/table"]
    for words in (new, recover):
        with open("/dev/full", "wb") as full:
            done = subprocess.run([PROGRAM, *words], stdout=full, stderr=subprocess.PIPE, text=True, check=False)
        told = f"bg_relay: {words[-1]} has the match all the same, with its key files, and the SHA-256 of the dice in `dice`: "
        lines = done.stderr.splitlines()
        right(done.returncode == 1 and lines[-1:] == [f"{told}don't run this again"], f"{words[0]} onto a full device: {done}")
        names = {"match", "match-x", "match-o", "match-watch", "dice"}
        right(names <= set(os.listdir(words[-1])), f"{words[0]} made {os.listdir(words[-1])}")


def check_arguments(top, table):
    """What no match can be made by, and the help of what goes on with one."""
    check("a second match", 2, "", "has a match already: match", "new", "--length", "1", "--port", "40000", "--dir", table)
    for port in ("1023", "65281", "x"):
        check(f"port {port}", 2, "", "--port", "new", "--length", "1", "--port", port, "--dir", f"{top}/other")
    check("a match to 0 points", 2, "", "--length", "new", "--length", "0", "--port", "40000", "--dir", f"{top}/other")
    for command in ("new", "keys", "referee", "play", "act", "auto", "watch"):
        check(f"help of {command}", 0, "bg_relay play --match table/match-o --dir table-o", "", command, "--help")


def check_random(top, match):
    """The number of a match and each part of its secret are drawn anew, of all the bits that they have."""
    other = make(f"{top}/others/table", 40000)
    numbers = [match.number, other.number]
    right(max(numbers) >= 1 << 48, f"the numbers of two matches have few bits: {numbers}")
    right(match.number != other.number, f"two matches have the number {match.number}")
    parts = [bytes(8)]
    for table in ("table", "others/table"):
        for name in ("secret", "key-secret"):
            with open(f"{top}/{table}/{name}", "rb") as file:
                secret = file.read()
            parts += [secret[at:at + 8] for at in range(0, 32, 8)]
    right(len(set(parts)) == 17, "parts of the secrets of two matches are the same, or zeros")


def check_lock_of_new(room):
    """While `new` writes its files, where a preloaded library stops it, it holds the lock of its folder."""
    library = cutter(room.top)
    if library is None:
        print("there is no C compiler here, so the lock of `new` was not looked at")
        return
    names = ("secret.new", "dice.new", "key-secret.new", "match-x.new", "match-o.new", "match-watch.new", "match.new")
    for write, name in enumerate(names, 1):
        folder = f"{room.top}/held-{write}"
        cut = {"LD_PRELOAD": library, "CUT_WRITE": str(write), "CUT_SHARE": "0", "CUT_SIGNAL": str(int(signal.SIGSTOP))}
        new = start("new", "--length", "1", "--port", "41000", "--dir", folder, environment={**os.environ, **cut})
        right(comes(lambda: has_open(new, f"{folder}/{name}")), f"new does not write {name}")
        right(is_locked(folder), f"new lets the lock of its folder go before it has written {name}")
        end(new)
