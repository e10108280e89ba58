"""Match files that GNU Backgammon reads or writes: what `check` tells of them, against what it shows."""
import json
import os
import random
import re
import shutil

from gnubg.commands import commanded, playing
from gnubg.ids import STAGE_OF_GAMES, exchanged, fields_of, id_of_counts, match_id_of
from gnubg.matches import judge, mover, run, text_of
from program import TOP

DIALECTS = os.path.join(TOP, "examples", "match_files", "dialects")
# The lengths of matches that gnubg plays, and turns that the longest of them does not reach.
PLAYED_LENGTHS = (1, 3, 5, 7)
ALL_TURNS = 3000


def played_by_gnubg(seed, room, seen):
    """What is wrong with a match that gnubg played."""
    chances = random.Random(seed)
    length = chances.choice(PLAYED_LENGTHS)
    turns = ALL_TURNS if chances.random() < 1 / 2 else chances.randint(1, 10 * length)
    file, shown = commanded(playing(seed, length, turns), room)
    if file is None:
        return [f"gnubg writes nothing: {shown[-200:]}"]
    imported = run("import", stdin=file)
    if not imported.startswith("length "):
        return [imported]
    row = json.loads(run("check", "--format", "json", f"{room}/theirs.mat"))
    seen[f"played by gnubg and {row['state']}"] += 1
    return [f"{it}: {file[-200:]}" for it in read_otherwise(row, imported.splitlines(), shown, seen)]


def read_otherwise(row, lines, shown, seen):
    """How the score and the position that gnubg shows differ from those that `check` tells of a match file of these
    lines. Between two games gnubg shows the end of the last one."""
    theirs = re.findall(r"The score .* is: \S+ (\d+), \S+ (\d+) ", shown)[-1]
    if theirs != (str(row["x"]), str(row["o"])):
        yield f"gnubg says {theirs}, and here it is {row['x']}, {row['o']}"
    there, here = re.findall(r"Position ID: (\S+)", shown)[-1], row["position_id"]
    if judge(lines)[-2] == "opening":
        here = id_of_last_end(lines)
        seen["positions between games"] += 1
    if there != here:
        yield f"gnubg is at {there}, and the match is at {here}"


def id_of_last_end(lines):
    """The Position ID of the end of the last game that a transcript ends, by what its page tells of it."""
    page = run("page", stdin=text_of(lines))
    told = re.findall(r"<li id='result\d+' data-at='([a-z]{52}) ", page)[-1]
    counts = [ord(letter) - ord("a") for letter in told]
    return id_of_counts({"X": counts[:26], "O": counts[26:]}, mover(lines))


def spelling(name, room, seen):
    """What gnubg reads otherwise of a file of the dialects, where `check` accepts it."""
    shutil.copy(f"{DIALECTS}/{name}", f"{room}/ours.mat")
    row = json.loads(run("check", "--format", "json", f"{room}/ours.mat").splitlines()[0])
    seen[f"spellings {'refused' if row['verdict'] == 'refused' else 'read'}"] += 1
    if row["verdict"] == "refused":
        return []
    with open(f"{room}/ours.mat", encoding="utf-8", newline="") as file:
        lines = run("import", stdin=file.read()).splitlines()
    _, shown = commanded("import mat ours.mat\n", room)
    return [*read_otherwise(row, lines, shown, seen), *named_otherwise(row["match_id"], shown, seen)]


def named_otherwise(match_id, shown, seen):
    """How the Match ID that gnubg shows of a match file differs from this one within a game. It has the player of the
    left column at the top, and calls him O."""
    fields = fields_of(match_id)
    if fields["stage"] == STAGE_OF_GAMES:
        seen["Match IDs within games"] += 1
        there, here = re.findall(r"Match ID +: (\S+)", shown)[-1], match_id_of(exchanged(fields))
        if there != here:
            yield f"gnubg names the match {there}, and here it is {here} with X and O exchanged"
