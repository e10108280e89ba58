"""What is said to those who lack the right to a file or a folder."""
import os
import shutil
import subprocess
import tempfile

from counting import right
from parties import MOST_SECONDS
from processes.running import make
from program import PROGRAM


def as_nobody(top):
    """Gives all below a folder to nobody, where the administrator runs this, and how to run a process as that user."""
    if os.geteuid() != 0:
        return {}
    nobody = 65534
    os.chmod(top, 0o755)
    for folder, _, names in os.walk(top):
        for name in (*names, "."):
            os.chown(f"{folder}/{name}", nobody, nobody)
    return {"user": nobody, "group": nobody, "extra_groups": []}


def check_unwritable(port):
    """A folder that takes no save is refused; the administrator, who may write anywhere, tries that as nobody."""
    with tempfile.TemporaryDirectory(prefix="check_unwritable-") as top:
        program, folder = f"{top}/bg_relay", f"{top}/x"
        shutil.copy(PROGRAM, program)
        make(f"{top}/made/table", port)
        os.chmod(program, 0o755)
        shutil.copy(f"{top}/made/table/match-x", f"{top}/match-x")
        os.mkdir(folder, 0o500)
        options = as_nobody(top)
        play = [program, "play", "--player", "X", "--match", f"{top}/match-x", "--dir", folder]
        done = subprocess.run(play, input=b"", capture_output=True, check=False, timeout=MOST_SECONDS, **options)
        told = f"bg_relay: {folder} can't be written to: give another --dir, or the right to write there: "
        is_refused = done.returncode == 2 and done.stderr.decode().startswith(told) and not done.stdout
        right(is_refused, f"an unwritable folder: {done}")
        right(os.listdir(folder) == [], f"an unwritable folder has {os.listdir(folder)}")


def check_rights(port):
    """Who lacks a right is told whose it is; the administrator, who has all, tries that as nobody."""
    with tempfile.TemporaryDirectory(prefix="check_rights-") as top:
        program = f"{top}/bg_relay"
        told = "Permission denied (os error 13); `ls -ld` says whose it is: run this as that user, "
        shutil.copy(PROGRAM, program)
        os.chmod(program, 0o755)
        make(f"{top}/made/table", port)
        for name in ("key", "match", "secret", "key-secret"):
            shutil.copytree(f"{top}/made/table", f"{top}/no-{name}")
        os.mkdir(f"{top}/x")
        os.mkdir(f"{top}/no-lock")
        options = as_nobody(top)
        for path in ("no-key/match-x", "no-match/match", "no-secret/secret", "no-key-secret/key-secret"):
            os.chmod(f"{top}/{path}", 0)
        os.chmod(f"{top}/no-lock", 0o300)
        os.chmod(f"{top}/x", 0o500)
        seat, referee = ["play", "--match", f"{top}/made/table/match-x", "--dir"], ["referee", "--dir"]
        made = "can't be made: give another --dir, or the right to make it there: Permission denied (os error 13)\n"
        rows = (([*seat[:2], f"{top}/no-key/match-x", "--dir", f"{top}/y"], 1, f"no-key/match-x could not be read: {told}"),
                ([*seat, f"{top}/no-lock"], 1, f"no-lock could not be locked: {told}"),
                ([*seat, f"{top}/x/more"], 2, f"x/more {made}"),
                ([*referee, f"{top}/no-match"], 1, f"no-match/match could not be read: {told}"),
                ([*referee, f"{top}/no-secret"], 1, f"no-secret/secret could not be read: {told}"),
                ([*referee, f"{top}/no-key-secret"], 1, f"no-key-secret/key-secret could not be read: {told}"))
        for words, status, wanted in rows:
            done = subprocess.run([program, *words], input=b"", capture_output=True, check=False, timeout=MOST_SECONDS, **options)
            said = done.stderr.decode()
            is_told = said.startswith(f"bg_relay: {top}/{wanted}") and said.count("\n") == 1
            right(done.returncode == status and is_told, f"{wanted}: {done}")
