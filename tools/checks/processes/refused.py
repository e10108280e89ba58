"""Files that are refused: those that are missing or cut, and texts that are none of a match or of a key."""
import os
import shutil

from counting import right
from processes.running import check


def check_refused(room):
    """What is no folder of a match, no key file, and not two outputs; and key files of other parties."""
    top = room.top
    told = ("/match could not be read: No such file or directory (os error 2)\n"
            "bg_relay: name the folder that `bg_relay new` made; ")
    check("no match in the folder", 1, "", told, "referee", "--dir", top)
    for what in ("none", "table/match"):
        told = f"bg_relay: {top}/{what} is no folder: name the one that `bg_relay new` made"
        check(f"{what} as a folder", 2, "", told, "referee", "--dir", f"{top}/{what}")
    with open(f"{top}/bad", "w", encoding="ascii") as file:
        file.write("match 1 length 1 rules 3 port 4000\n")
    for command in (["play", "--player", "X", "--dir", f"{top}/bad-x"], ["watch"]):
        check("no key file", 2, "", f"bg_relay: {top}/bad is no key file", *command, "--match", f"{top}/bad")
        check("a folder as a key file", 2, "", f"bg_relay: {top}/table is a folder: name the key file in it", *command,
              "--match", f"{top}/table")
    check_outputs(top)
    check_other_texts(top)
    check_other_parties(top)
    check_missing(top)
    check_served(top)


def check_outputs(top):
    """Each output of a watcher needs a file of its own."""
    for one, other in (("one", "one"), ("no-such-folder/one", "no-such-folder/one"), ("one", "./one"),
                       ("link/one", "empty/one")):
        outputs = ["--board", f"{top}/{one}", "--page", f"{top}/{other}"]
        check(f"one file for two outputs, {other}", 2, "", f"{top}/{one} is named for two outputs", "watch", "--match",
              f"{top}/bad", *outputs)
    outputs = ["--board", f"{top}/one", "--page", f"{top}/empty/one", "--transcript", f"{top}/other"]
    os.mkfifo(f"{top}/pipe")
    os.symlink("pipe", f"{top}/to-pipe")
    for option, path in (("--board", "pipe"), ("--transcript", "to-pipe"), ("--page", "empty")):
        check(f"an output that is no file, {path}", 2, "", f"{top}/{path} is no regular file: name another one", "watch",
              "--match", f"{top}/bad", option, f"{top}/{path}")
    for option in ("--board", "--transcript", "--page"):
        check(f"an output without a name, {option}", 2, "", "bg_relay: the name of a file is empty", "watch", "--match",
              f"{top}/bad", option, "")
    check("three files for three outputs", 2, "", "is no key file", "watch", "--match", f"{top}/bad", *outputs)


def check_other_texts(top):
    """What says the same as a key file or a match file, and is not its text, and what has more behind it."""
    with open(f"{top}/table/match-x", encoding="ascii") as file:
        text = file.read()
    act = ["act", "--player", "X", "--dir", f"{top}/other-x", "--seconds", "1", "--match"]
    line, key, digits = text.splitlines()[0], *text.splitlines()[1].rsplit(" ", 1)
    for index, other in enumerate([text + "x", text + 200 * "x", text + "\n", text[:-1], text.replace("\n", "\r\n"),
                                   text.replace("match ", "match +"), text.replace("length 1", "length 01"),
                                   text.replace("key 1", "key 01"), text.replace("key 1", "key 4"),
                                   text.replace("key 1", "key 0"), text.replace("key 1", "key  1"),
                                   f"{line}\n{key} {digits.upper()}\n", f"{line}\n{key} {digits[:-1]}\n",
                                   f"{line}\n{key} {digits[:-2]}\n", f"{line}\n{key} {digits}00\n",
                                   f"{line}\n{key} {digits[:-1]}g\n", f"{key} {digits}\n{line}\n"]):
        if other == text:
            continue
        with open(f"{top}/other-text", "w", encoding="ascii", newline="") as file:
            file.write(other)
        check(f"other text {index} of a key file", 2, "", f"bg_relay: {top}/other-text is no key file", *act,
              f"{top}/other-text")
    for index, other in enumerate([line, f"{line}\n\n", f"{line} \n", line.replace("rules 2", "rules 3") + "\n"]):
        shutil.copytree(f"{top}/table", f"{top}/other-line-{index}")
        with open(f"{top}/other-line-{index}/match", "w", encoding="ascii", newline="") as file:
            file.write(other)
        check(f"other text {index} of a match file", 2, "", "/match is no match file", "referee", "--dir",
              f"{top}/other-line-{index}")


def check_other_parties(top):
    """Key files of another party, and what has no key."""
    no_key = "/match has no key: hand out `match-x`, `match-o` and `match-watch`, which `bg_relay keys`"
    for command, path, told in (
            (["play", "--player", "O", "--dir", f"{top}/bad-x"], "match-x",
             "match-x is the key file of player X: for player O it is `match-o`"),
            (["auto", "--player", "X", "--dir", f"{top}/bad-x"], "match-watch",
             "match-watch is the key file of the watchers: for player X it is `match-x`"),
            (["play", "--dir", f"{top}/bad-x"], "match-watch",
             "match-watch is the key file of the watchers: for a player it is `match-x` or `match-o`"),
            (["act", "--dir", f"{top}/bad-x", "--seconds", "1"], "match", no_key),
            (["watch"], "match-o", "match-o is the key file of player O: for the watchers it is `match-watch`"),
            (["watch"], "match", no_key)):
        check(f"{command[0]} by {path}", 2, "", told, *command, "--match", f"{top}/table/{path}")
    check("no such player", 2, "", "--player", "play", "--player", "Z", "--match", f"{top}/bad", "--dir", top)


def check_missing(top):
    """Key files that are missing, and secrets that are cut: what to do is said."""
    unread = f"bg_relay: {top}/none could not be read: No such file or directory (os error 2)\nbg_relay: name "
    of_party = "the key file that `bg_relay new` made for this party, or a copy of it\n"
    for command, told in ((["play", "--dir", f"{top}/bad-x"], of_party), (["watch"], of_party),
                          (["page"], "a key file of the match, or a copy of one\n")):
        check(f"a key file that is missing, for {command[0]}", 1, "", f"{unread}{told}", *command, "--match", f"{top}/none")
    shutil.copytree(f"{top}/table", f"{top}/cut")
    for name, remedy in (("key-secret", "bg_relay: let this user read it, or put it back; "),
                         ("secret", "bg_relay: put that file back: the dice go by it; ")):
        with open(f"{top}/cut/{name}", "wb") as file:
            file.write(bytes(31))
        for told in (f"/{name} could not be read: ", f"\n{remedy}"):
            check(f"a {name} that is cut", 1, "", told, "referee", "--dir", f"{top}/cut")


def check_served(top):
    """The folder of a match that is served, which its server doesn't lock, gets no other referee, match or keys."""
    folder = f"{top}/served/table"
    shutil.copytree(f"{top}/table", folder)
    for name in ("key-secret", "match-x", "match-o", "match-watch"):
        os.remove(f"{folder}/{name}")
    with open(f"{folder}/seats", "w", encoding="ascii") as file:
        file.write(f"x {'0' * 64}\no {'1' * 64}\n")
    names = sorted(os.listdir(folder))
    told = (f"bg_relay: {folder} is the folder of a match of `bg_relay serve`, which runs its referee: "
            "play it in a browser, or name another folder\n")
    for command in ("referee", "keys"):
        check(f"{command} over a served match", 2, "", told, command, "--dir", folder)
    for name in "xo":
        os.mkdir(f"{top}/served/{name}")
    seats = ["--x", f"{top}/served/x", "--o", f"{top}/served/o"]
    told = f"bg_relay: {folder} has a match already: match; give another --dir\n"
    check("new over a served match", 2, "", told, "new", "--length", "1", "--port", "40000", "--dir", folder)
    check("recover over a served match", 2, "", told, "recover", "--match", f"{folder}/match", *seats, "--dir", folder)
    right(sorted(os.listdir(folder)) == names, f"the folder of a served match has {os.listdir(folder)}")
