"""Folders of referees that have no keys, as those of an older program, or that have key files alone."""
import os

from counting import right
from keys.running import KEY_FILES, begin_all, make, opened, put, run, text_of
from parties import MOST_SECONDS, Match

# What to do with a key file of another match.
OTHER = "put the file of this match in its place, or name another folder"


def check_carried_over(top, port):
    """A folder of an older program, and what is made of it."""
    table = f"{top}/old/table"
    match = make(table, port)
    # As an older program made it.
    for name in ("key-secret", *KEY_FILES):
        os.remove(f"{table}/{name}")
    for words, told in ((["referee", "--dir", table], f"{table} has no keys: `bg_relay keys --dir {table}` makes them"),
                        (["play", "--player", "X", "--match", f"{table}/match", "--dir", f"{top}/old/x"],
                         "which `bg_relay keys`"),
                        (["watch", "--match", f"{table}/match"], "which `bg_relay keys`")):
        done = run(*words)
        right(done.returncode == 2 and told in done.stderr, f"without keys: status {done.returncode}: {done.stderr}")
    make_keys(table, match)
    # It goes on to its end, and its referee holds the folder before the others come.
    parties = begin_all(table, f"{top}/old", lambda: check_keys_while_played(table))
    outputs = [party.communicate(timeout=MOST_SECONDS) for party in parties]
    right([party.returncode for party in parties] == [0] * 4, f"a match that was carried over: {outputs}")
    right(len({out for out, _ in outputs[1:]}) == 1, "the transcripts of a match that was carried over differ")
    for folder, told in ((f"{top}/none", "is no folder"), (f"{table}/match", "is no folder")):
        done = run("keys", "--dir", folder)
        right(done.returncode == 2 and told in done.stderr, f"keys of {folder}: status {done.returncode}: {done.stderr}")


def check_keys_while_played(table):
    """`keys` makes none over a folder whose referee runs."""
    opened(table)
    done = run("keys", "--dir", table)
    right(done.returncode == 1 and "another process plays over" in done.stderr, f"keys of a match that is played: {done}")


def make_keys(table, match):
    """`keys` makes those of a folder that has none; again, and where a file is lost, it makes the same ones."""
    done = run("keys", "--dir", table)
    right(done.returncode == 0 and "hand " in done.stdout, f"keys: status {done.returncode}: {done.stderr}")
    first = Match(table)
    right(first.line == match.line and first.secret != match.secret, "the match was changed, or its keys were not drawn anew")
    text = text_of(f"{table}/match-x")
    os.remove(f"{table}/match-x")
    done = run("keys", "--dir", table)
    right(done.returncode == 0 and text_of(f"{table}/match-x") == text, f"the file of X was not made again: {done.stderr}")


def wrong_key_files(folder, texts, other):
    """By name, what a key file may not have in a folder without a secret of keys; and what is said of it."""
    for name in texts:
        yield name, None, None
    yield "match-o", texts["match-x"], f"{folder}/match-o is the key file of player X: for player O it is `match-o`\n"
    yield "match-x", texts["match-watch"], f"{folder}/match-x is the key file of the watchers: for player X it is `match-x`\n"
    number = texts["match-x"].split()[1].decode()
    told = f"is not of match {number}, or has another length, other rules or another port: {OTHER}\n"
    for name in texts:
        yield name, text_of(f"{other}/{name}"), f"{folder}/{name} {told}"
    yield "match-o", texts["match-o"].replace(b" length 1 ", b" length 2 "), f"{folder}/match-o {told}"
    told = "is no key file: name the one that `bg_relay new` made for this party, or a copy of it\n"
    yield "match-watch", texts["match-watch"] + b"\n", f"{folder}/match-watch {told}"


def check_key_files_alone(top, port):
    """A referee's folder without a secret of keys goes by its key files, where all of them are there and its own."""
    table, other = f"{top}/alone/table", f"{top}/alone-other/table"
    make(table, port)
    make(other, port)
    texts = {name: text_of(f"{table}/{name}") for name in KEY_FILES}
    os.remove(f"{table}/key-secret")
    done = run("keys", "--dir", table)
    right(done.returncode == 0 and "hand " in done.stdout and not done.stderr, f"keys of key files: {done}")
    right(all(text_of(f"{table}/{name}") == text for name, text in texts.items()), "key files were changed")
    right(not os.path.exists(f"{table}/key-secret"), "beside key files a secret was drawn")
    for name, text, told in wrong_key_files(table, texts, other):
        told = told or (f"{table} has neither `key-secret` nor `{name}`: put a copy of `{name}` there, or remove the other"
                        f" key files, and `bg_relay keys --dir {table}` makes new ones\n")
        put(f"{table}/{name}", text)
        for command in ("referee", "keys"):
            done = run(command, "--dir", table)
            right((done.returncode, done.stdout, done.stderr) == (2, "", f"bg_relay: {told}"), f"{command}, {name}: {done}")
        put(f"{table}/{name}", texts[name])
    parties = begin_all(table, f"{top}/alone")
    outputs = [party.communicate(timeout=MOST_SECONDS) for party in parties]
    right([party.returncode for party in parties] == [0] * 4, f"a match by key files alone: {outputs}")
    right(len({out for out, _ in outputs[1:]}) == 1, "the transcripts of a match by key files alone differ")
