"""GNU Backgammon's own command: what it writes and shows behind the commands that it is given."""
import os
import shutil
import subprocess

GNUBG = shutil.which("gnubg", path=f"{os.environ.get('PATH', os.defpath)}:/usr/games")


def shown_in(room):
    """What gnubg shows behind the commands of a folder's file."""
    return subprocess.run([GNUBG, "-t", "-q", "-r", "-c", "commands"], stdin=subprocess.DEVNULL, capture_output=True,
                          text=True, check=False, cwd=room, timeout=3000,
                          env={**os.environ, "HOME": room, "LC_ALL": "C"}).stdout


def commanded(commands, room):
    """What gnubg writes and shows behind these commands. From a file it does one after the other; typed, a match that it
    plays against itself goes on by itself."""
    if os.path.exists(f"{room}/theirs.mat"):
        os.remove(f"{room}/theirs.mat")
    commands += "export match mat theirs.mat\nset display on\nshow board\nshow score\n"
    with open(f"{room}/commands", "w", encoding="ascii") as file:
        file.write(commands)
    shown = shown_in(room)
    if not os.path.exists(f"{room}/theirs.mat"):
        return None, shown
    with open(f"{room}/theirs.mat", encoding="ascii") as file:
        return file.read(), shown


def imported(text, room):
    """What gnubg makes of a match file: the file that it writes, and what it shows."""
    with open(f"{room}/ours.mat", "w", encoding="ascii") as file:
        file.write(text)
    return commanded("import mat ours.mat\n", room)


def playing(seed, length, turns):
    """The commands by which gnubg plays so many turns of a match against itself."""
    players = "".join(f"set player {player} gnubg\nset player {player} chequer evaluation plies 0\n"
                      f"set player {player} cubedecision evaluation plies 0\n" for player in (0, 1))
    return f"set seed {seed}\n{players}set display off\nnew match {length}\n" + "play\n" * turns
