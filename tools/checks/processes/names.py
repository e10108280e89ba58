"""Names of players: which a match can have, and where they are seen."""
import os
import re
import shutil

from counting import right
from parties import MOST_SECONDS, Match
from processes.running import check, run, start

NAMES = "name-x Anna\nname-o \"\u00d6tto\" & <b>\n"


def named_files(folder):
    """The lines of names in the match file and the key files of a folder."""
    texts = []
    for name in ("match", "match-x", "match-o", "match-watch"):
        with open(f"{folder}/{name}", encoding="utf-8") as file:
            texts.append(file.read().split("\n", 1)[1].split("key ")[0])
    return texts


def check_refused_names(room):
    """Which names a match can't have: nothing is made."""
    top = room.top
    new = ["new", "--length", "1", "--port", str(room.port), "--dir", f"{top}/named/refused"]
    for option in ("--name-x", "--name-o"):
        for name, why in (("", "has 1 to 64 bytes"), ("a" * 65, "has 1 to 64 bytes"), ("\u00e4" * 33, "has 1 to 64 bytes"),
                          ("a\nb", "has no control characters"), ("\x7f", "has no control characters"),
                          ("\u202ea", "has no control characters"), (" a", "neither begins nor ends"),
                          ("a ", "neither begins nor ends")):
            check(f"the name {name!r}", 2, "", f"bg_relay: {option} is refused: a name {why}", *new, option, name)
    right(not os.path.exists(f"{top}/named/refused"), "a match whose name was refused was made")


def check_names(room):
    """A match whose players have names: what its files have, also when they are made again, and where the names are seen."""
    top = room.top
    table, port = f"{top}/named/table", room.port + 20
    os.makedirs(f"{top}/named")
    check_refused_names(room)
    done = run("new", "--length", "1", "--port", str(port), "--dir", table, "--name-o", "\"\u00d6tto\" & <b>", "--name-x", "Anna")
    match = Match(table)
    right(done.stdout.decode().startswith(f"{match.line}hand ") and b"Anna" not in done.stdout, f"a match with names: {done}")
    right(named_files(table) == [NAMES] * 4, f"the files of a match have the names {named_files(table)}")
    seen = (("X", 'Anna (X, you) against "\u00d6tto" & <b> (O)'), ("O", '"\u00d6tto" & <b> (O, you) against Anna (X)'))
    for player, line in seen:
        seat = ["--player", player, "--match", f"{table}/match-{player.lower()}", "--dir", f"{top}/named/{player}"]
        lines = run("play", *seat, stdin=b"legal\nboard\nquit\n").stdout.decode().splitlines()
        right(lines[:1] == [line] and lines.count(line) == 2, f"what {player} sees has the players {lines}")
    check("a list with names", 0, f'  {match.number}  Anna against "\u00d6tto" & <b>  0-0 of 1  ', "", "list", table)
    names = ',"names":{"x":"Anna","o":"\\"\u00d6tto\\" & <b>"},"open":'
    check("the same for programs", 0, names, "", "list", "--format", "json", table)
    title = "<title>Anna against &quot;\u00d6tto&quot; &amp; &lt;b&gt;</title>"
    for name in ("match", "match-watch"):
        check("a page with names", 0, title, "", "page", "--match", f"{table}/{name}", stdin=b"length 1\n")
    check_named_again(top, table)
    check_named_log(top, table, match, title)


def check_named_again(top, table):
    """`keys` and `recover` make files with the names that the others have."""
    kept = f"{top}/named/kept"
    shutil.copytree(table, kept)
    for name in ("match-x", "match-o", "match-watch"):
        os.remove(f"{table}/{name}")
    run("keys", "--dir", table)
    right(named_files(table) == [NAMES] * 4, f"`keys` made files with the names {named_files(table)}")
    same = [open(f"{folder}/match-x", "rb").read() for folder in (kept, table)]
    right(same[0] == same[1], f"`keys` made another file: {same}")
    for words in ([], ["--keys", kept]):
        made = f"{top}/named-again{len(words)}/table"
        os.makedirs(os.path.dirname(made))
        run("recover", "--match", f"{kept}/match-o", "--x", f"{top}/named/X", "--o", f"{top}/named/O", "--dir", made, *words)
        right(named_files(made) == [NAMES] * 4, f"`recover` made files with the names {named_files(made)}")


def check_named_log(top, table, match, title):
    """What is said of a match with names while it is played, and the page that is kept of it."""
    page = f"{top}/named/page.html"
    processes = [start("referee", "--dir", table), start("watch", "--match", f"{table}/match-watch", "--page", page),
                 *(start("auto", "--player", name, "--match", f"{table}/match-{name.lower()}", "--dir", f"{top}/named/{name}")
                   for name in "XO")]
    outputs = [process.communicate(timeout=MOST_SECONDS) for process in processes]
    for name, port, (_, err) in (("the referee", match.port, outputs[0]), ("watcher 3", match.port + 3, outputs[1])):
        said = err.decode()
        begins = f"bg_relay: {name} begins on port {port}: match {match.number}, length 1, rules 1, 0 entries, 0-0, "
        right(said.startswith(f'{begins}Anna against "\u00d6tto" & <b>\n'), f"{name} of a match with names said {said}")
        winner = r'(Anna \(X\)|"\u00d6tto" & <b> \(O\))'
        results = (f"game 1: {winner} wins \\d points?, ", f"the match is over: {winner} wins, ")
        right(all(re.search(result, said) for result in results), f"{name} said no result by name: {said}")
    with open(page, encoding="utf-8") as file:
        right(title in file.read(), "the page of a match with names has another title")
