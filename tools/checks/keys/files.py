"""The files that have keys: what each of them has, whether one is shown anywhere, and who may read them."""
import os
import subprocess

from counting import right
from keys.running import make
from parties import MOST_SECONDS, Match
from program import PROGRAM


def keys_in(folder):
    """The keys and secrets of a match, as bytes and as digits."""
    match = Match(folder)
    with open(f"{folder}/secret", "rb") as file:
        found = [file.read(), match.secret, *(match.key(party) for party in (1, 2, 3))]
    return [*found, *(key.hex().encode() for key in found)]


def check_files(top, port):
    """Each key file has what its reader is to have, and nothing shows a key."""
    table = f"{top}/files/table"
    match = make(table, port)
    for party, name in ((1, "match-x"), (2, "match-o"), (3, "match-watch")):
        with open(f"{table}/{name}", encoding="ascii") as file:
            text = file.read()
        right(text == f"{match.line}key {party} {match.key(party).hex()}\n", f"{name} has {text}")
    shown = []
    for words in (["new", "--length", "1", "--port", "5000", "--dir", table], ["keys", "--dir", table],
                  ["play", "--player", "O", "--match", f"{table}/match-x", "--dir", f"{top}/files/o"],
                  ["watch", "--match", f"{table}/match"], ["show", table],
                  ["show", f"{table}/match-x", f"{table}/match-o"], ["show", f"{table}/key-secret", f"{table}/secret"],
                  ["referee", "--dir", f"{table}/none"],
                  ["act", "--player", "X", "--match", f"{table}/match-x", "--dir", f"{top}/files/x", "--seconds", "1"]):
        done = subprocess.run([PROGRAM, *words], capture_output=True, check=False, timeout=MOST_SECONDS)
        shown.append(done.stdout + done.stderr)
    right(not any(key in text for key in keys_in(table) for text in shown), "a key or a secret is shown")
    made = subprocess.run([PROGRAM, "new", "--length", "1", "--port", str(port + 300), "--dir", f"{table}-2"],
                          capture_output=True, check=False)
    right(not any(key in made.stdout + made.stderr for key in keys_in(f"{table}-2")), "`new` shows a key")


def check_other_user(top, port):
    """Another user of the machine reads no file of a match, where there is one that can be tried."""
    if os.geteuid() != 0:
        print("this is not root, so no other user was tried")
        return
    before = os.umask(0)
    table = f"{top}/user/table"
    make(table, port)
    os.umask(before)
    # Whatever the folders above allow.
    for folder in (top, f"{top}/user"):
        os.chmod(folder, 0o755)
    right(os.stat(table).st_mode & 0o777 == 0o700, f"the folder has the mode {os.stat(table).st_mode:o}")
    os.chmod(table, 0o755)
    for name in os.listdir(table):
        done = subprocess.run(["cat", f"{table}/{name}"], capture_output=True, check=False, user=65534, group=65534,
                              extra_groups=[])
        right(done.returncode != 0 and not done.stdout, f"another user reads {name}")
