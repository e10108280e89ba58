"""Dice of served matches, which are checked by the secrets that are told of them."""
import hashlib
import os
import shutil
import subprocess

import dice
from counting import right
from program import PROGRAM
from serving.asking import begin_players, wait_for
from web_sockets import Socket


def told_of_dice(server, name):
    """What is told of the dice of a match, by words."""
    status, _, text = server.ask(f"/matches/{name}/dice")
    return dict(line.split(" ") for line in text.decode().splitlines()) if status == 200 else status


def ruled(server, name, secret):
    """What `dice` says of a match by this file of its secret: its status, and its lines."""
    path = os.path.join(server.folder, "dice.told")
    with open(path, "wb") as file:
        file.write(secret)
    transcript = server.ask(f"/matches/{name}/transcript")[2]
    done = subprocess.run([PROGRAM, "dice", "--secret", path], input=transcript, capture_output=True, check=False)
    os.remove(path)
    return done.returncode, done.stdout.decode().splitlines() or done.stderr.decode()


def expected_lines(server, name, secret):
    """What is to be said of each dice of a match by a secret."""
    return list(dice.lines_of(secret, server.ask(f"/matches/{name}/transcript")[2].decode()))


def check_dice(server, made):
    """The dice of matches that are over: they are made of the secret whose SHA-256 was told before."""
    other = None
    for at, one in enumerate(made):
        secret = check_dice_of(server, one, is_first=at == 0)
        if at == 1:
            check_other_secret(server, one["match"], other)
        other = secret
    refuse_secrets(server, made[-1])


def check_dice_of(server, made, is_first):
    """The dice of one match, and its secret; of the first one by each form in which a secret may stand."""
    name, told = made["match"], told_of_dice(server, made["match"])
    secret = bytes.fromhex(told["secret"])
    right(told["sha256"] == made["dice"] == hashlib.sha256(secret).hexdigest(),
          f"{name} told {told} of its dice, and before {made['dice']}")
    expected = expected_lines(server, name, secret)
    right(all(": ok" in line for line in expected), f"{name} has dice that are not made of its secret: {expected}")
    whole = [f"sha256 {told['sha256']}", *expected, f"ok {len(expected)}"]
    forms = (server.ask(f"/matches/{name}/dice")[2], f"secret {told['secret']}\n".encode(), secret)
    for text in forms if is_first else forms[:1]:
        found = ruled(server, name, text)
        right(found == (0, whole), f"the dice of {name}: {found} for {whole}")
    return secret


def check_other_secret(server, name, other):
    """What is said of a match by the secret of another one."""
    status, lines = ruled(server, name, other)
    expected = expected_lines(server, name, other)
    wrong = sum(": not" in line for line in expected)
    right((status, lines[1:]) == (2, [*expected, f"not of this secret: {wrong} of {len(expected)}"]),
          f"{name} by another secret: {lines}")


def refuse_secrets(server, made):
    """Files that have no secret, or another one than they say."""
    for text, words in ((b"", "no secret"), (b"x" * 31, "no secret"),
                        (f"sha256 {made['dice']}\n".encode(), "SHA-256 alone"),
                        (f"sha256 {made['dice']}\nsecret {'00' * 32}\n".encode(), "is another than"),
                        (b"secret 00\n", "no secret")):
        status, said = ruled(server, made["match"], text)
        right(status == 2 and words in said, f"{text} as a secret: {status} {said}")


def go_on_without_digest(server):
    """A match of an older version, which told nothing of its dice, goes on; one whose secret was exchanged is left out."""
    older, exchanged = server.make(length=1), server.make(length=1)
    server.kill()
    os.remove(os.path.join(server.folder, older["match"], "dice"))
    with open(os.path.join(server.folder, exchanged["match"], "secret"), "wb") as file:
        file.write(bytes(32))
    server.begin()
    right(server.ask(f"/matches/{exchanged['match']}/state")[0] == 404, "a match whose secret was exchanged is served")
    told = told_of_dice(server, older["match"])
    right(told == 404, f"an older match told {told} of its dice")
    watcher = Socket(server.port, f"/matches/{older['match']}/live")
    right(watcher.message()["dice"] == "", "the page of an older match has a SHA-256 of its dice")
    watcher.close()
    right(wait_for(begin_players(server, older)), "an older match did not go on")
    told = told_of_dice(server, older["match"])
    right(list(told) == ["secret"], f"an older match that is over told {told} of its dice")
    right(ruled(server, older["match"], server.ask(f"/matches/{older['match']}/dice")[2])[0] == 0, "the dice of an older match")
    shutil.rmtree(os.path.join(server.folder, exchanged["match"]))
