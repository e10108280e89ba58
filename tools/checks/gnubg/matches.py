"""Automatic matches of the program that GNU Backgammon is handed, with cubes, drops, and offers to resign."""
import re
import subprocess

from program import PROGRAM

LENGTHS = (1, 2, 3, 5, 7, 9, 11, 15, 21)
STEPS = 100000
LEVELS = ("normal", "gammon", "backgammon")
OTHER = {"X": "O", "O": "X"}


def text_of(lines):
    """The transcript that has these lines."""
    return "".join(f"{line}\n" for line in lines)


def run(*words, stdin=""):
    """What a command of the program prints, or the message by which it refuses its input."""
    words = [PROGRAM, *map(str, words)]
    done = subprocess.run(words, input=stdin, capture_output=True, text=True, check=False)
    return done.stdout if done.returncode == 0 else done.stdout + done.stderr


def judge(lines):
    """The board text of a transcript, and its verdict."""
    return run("judge", stdin=text_of(lines)).splitlines()


def played(number):
    """The lines of an automatic match."""
    length, rules = LENGTHS[number % len(LENGTHS)], number % 2 + 1
    text = run("sim", "--seed", number, "--length", length, "--rules", rules, "--watchers", 0, "--steps", STEPS)
    return text[:text.index("\nparty 0:")].splitlines()


def varied(lines, chances):
    """The same match with doubles and offers to resign before some of its lines, some of which end their game."""
    made, is_over = [], False
    for line in lines:
        is_over = is_over and not line.startswith("open")
        if is_over:
            continue
        player, last = line[0], made[-1] if made else ""
        if re.match("[XO] roll", line) and chances.random() < 0.04:
            is_over = chances.random() < 0.3
            made += [f"{player} double", f"{OTHER[player]} {'drop' if is_over else 'take'}"]
        elif re.match("[XO] (roll|move)", line) and chances.random() < (0.2 if last.endswith(" take") else 0.02):
            is_over = chances.random() < 0.6 and not (last.startswith("open") and player == "O")
            answer = "accept" if is_over else "reject"
            made += [f"{player} resign {chances.choice(LEVELS)}", f"{OTHER[player]} {answer}"]
        if not is_over:
            made.append(line)
    return made


def legal(lines):
    """The front of a match that the judge takes, and first without the doubles that he refuses: those that are taken
    are left out, and those that are dropped become offers to resign that are accepted."""
    while not (verdict := judge(lines)[-1]).startswith("ok"):
        at = int(re.search(r"line (\d+)", verdict)[1]) - 1
        behind = lines[at + 2:]
        if "no double" not in verdict or not lines[at + 1:]:
            behind = []
        elif lines[at + 1].endswith(" drop"):
            behind = [f"{lines[at][0]} resign normal", f"{lines[at + 1][0]} accept", *behind]
        lines = lines[:at] + behind
    return lines


def broken_off(lines, chances):
    """A match that breaks off somewhere, every other one as the cube is turned, or is whole: but none ends between two
    games, as no board shows what gnubg shows there, nor behind an opening that O won."""
    turns = [at for at, line in enumerate(lines, 1) if re.search(" (double|take)$", line)]
    if chances.random() < 1 / 2:
        places = turns if turns and chances.random() < 1 / 2 else range(min(12, len(lines)), len(lines) + 1)
        lines = lines[:chances.choice(places)]
    while judge(lines)[-2] == "opening" or kept(lines)[-1].startswith("open") and mover(kept(lines)) == "O":
        lines = lines[:-1]
    return lines


def kept(lines):
    """The lines of the entries that a match file keeps: no offer that was not accepted, and no answer to it."""
    answers = lines[1:] + [""]
    return [line for line, answer in zip(lines, answers)
            if not line.endswith(" reject") and not (" resign " in line and not answer.endswith(" accept"))]


def mover(lines):
    """The player on roll in gnubg: who is to act, but for an answer to a double; behind a game the one who was, and
    behind the turn by which it was won the loser."""
    words = lines[-1].split()
    if words[0] == "open":
        return "X" if words[1] > words[2] else "O"
    if words[0] == "pass":
        return OTHER[lines[-2][0]]
    return words[0] if words[1] in ("roll", "double", "resign") else OTHER[words[0]]
