"""A match whose folder is lost, and the keys that `recover` gives it: those that it is handed, or new ones."""
import hashlib
import os

from counting import right
from keys.folders import wrong_key_files
from keys.running import KEY_FILES, make, put, run, text_of


def dice_of(folder):
    """The line that tells the SHA-256 of the secret of a folder's dice."""
    return f"dice: sha256 {hashlib.sha256(text_of(f'{folder}/secret')).hexdigest()}\n"


def check_recovered_keys(top, port):
    """`recover` keeps the keys that it is handed, and makes others where it is handed none."""
    lost, other, keys = f"{top}/lost/table", f"{top}/lost-other/table", f"{top}/lost/keys"
    make(lost, port)
    make(other, port)
    os.mkdir(keys)
    texts = {name: text_of(f"{lost}/{name}") for name in KEY_FILES}
    for name, text in texts.items():
        put(f"{keys}/{name}", text)
    secrets = {name: text_of(f"{lost}/{name}") for name in ("secret", "key-secret")}
    for name in "xo":
        os.mkdir(f"{top}/lost/{name}")
    words = ["recover", "--match", f"{lost}/match", "--x", f"{top}/lost/x", "--o", f"{top}/lost/o", "--dir"]
    refuse_keys(words, top, keys, texts, other)
    refuse_a_transcript(words, f"{top}/lost")
    keep_keys(words, f"{top}/lost/kept", keys, texts, secrets)
    make_new_keys(words, f"{top}/lost/new", texts, secrets)


def refuse_keys(words, top, keys, texts, other):
    """`recover` is handed wrong key files, one after the other, and none."""
    for name, text, told in wrong_key_files(keys, texts, other):
        put(f"{keys}/{name}", text)
        missing = (f"{keys}/{name} could not be read: No such file or directory (os error 2)\n"
                   "bg_relay: name the key file that `bg_relay new` made for this party, or a copy of it\n")
        status, told = (2, told) if told else (1, missing)
        done = run(*words, f"{top}/lost/refused", "--keys", keys)
        right((done.returncode, done.stdout, done.stderr) == (status, "", f"bg_relay: {told}"), f"recover, {name}: {done}")
        put(f"{keys}/{name}", texts[name])
    done = run(*words, f"{top}/lost/refused", "--keys", f"{top}/nowhere")
    right(done.returncode == 1 and "nowhere/match-x could not be read" in done.stderr, f"recover by no keys: {done}")
    for seats, more in ((words[3:-1], ["--keys", ""]), (["--x", "", "--o", ""], [])):
        done = run(*words[:3], *seats, "--dir", f"{top}/lost/refused", *more)
        told = (2, "bg_relay: the name of a folder is empty\n")
        right((done.returncode, done.stderr) == told, f"recover by a folder without a name: {done}")
    right(not os.path.exists(f"{top}/lost/refused"), "a recover that was refused made a folder")


def refuse_a_transcript(words, folder):
    """`recover` says by its name which transcript is none, also where the name would clear the screen."""
    put(f"{folder}/\033[2Jheld", b"")
    done = run(*words, f"{folder}/refused", f"{folder}/\033[2Jheld")
    told = f"bg_relay: {folder}/\\u{{1b}}[2Jheld: refused at line 1: not a length line"
    lines = done.stderr.splitlines()
    right((done.returncode, done.stdout, lines[-1:]) == (2, "", [told]), f"recover by a transcript that is none: {done}")
    right(not os.path.exists(f"{folder}/refused"), "a recover that was refused made a folder")


def keep_keys(words, kept, keys, texts, secrets):
    """`recover` keeps the keys that it is handed. A secret of keys that an attempt left is not believed."""
    os.mkdir(kept, 0o700)
    put(f"{kept}/key-secret", bytes(32))
    done = run(*words, kept, "--keys", keys)
    told = "the keys are kept: X, O and the watchers continue with the key files that they have\n" + dice_of(kept)
    right((done.returncode, done.stdout) == (0, told), f"recover that keeps keys: {done}")
    names = ["dice", "match", "match-o", "match-watch", "match-x", "party-0.1", "secret"]
    right(sorted(os.listdir(kept)) == names, f"a folder with kept keys has {os.listdir(kept)}")
    right({os.stat(f"{kept}/{name}").st_mode & 0o777 for name in names} == {0o600}, "modes of a folder with kept keys")
    right(all(text_of(f"{kept}/{name}") == text for name, text in texts.items()), "keys were not kept")
    right(text_of(f"{kept}/secret") != secrets["secret"], "the dice go on by the old secret")


def make_new_keys(words, new, texts, secrets):
    """`recover` that is handed no keys makes others."""
    done = run(*words, new)
    told = f"hand {new}/match-x to X\nhand {new}/match-o to O\nhand {new}/match-watch to whoever may watch\n" + dice_of(new)
    right((done.returncode, done.stdout) == (0, told), f"recover with new keys: {done}")
    right(text_of(f"{new}/key-secret") != secrets["key-secret"], "new keys go by the old secret")
    right(all(text_of(f"{new}/{name}") != text for name, text in texts.items()), "a key that should be new is the old one")
