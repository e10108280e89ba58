"""What players at terminals are told of results, of the score and of the cube, against the entries that they see."""
import re
import subprocess

from program import PROGRAM
from terminals.screens import ENTRY

ENTRY_OR_CUBE = re.compile(rf"({ENTRY.pattern})|^cube: (.*)$", re.M)
RESULT = re.compile(r"^(you win|[XO] wins) (\d+ points?: |(?:a (?:back)?gammon, \d+ points, and )?the match, )"
                    r"(\d+)(?: to |-)(\d+)$", re.M)
RESULT_OR_SCORE = re.compile(rf"{RESULT.pattern}|^score: (?:Anna \(X, you\)|X \(you\)) (\d+)(?: of \d+)?, "
                             r"(?:Otto \(O\)|O) (\d+)(?: of \d+)?$", re.M)


def check_results(people, top):
    """Both players are told each result alike, the last one as that of the match, with the score that the judge tells."""
    of_x, of_o = ([(who.split()[0], *rest) for who, *rest in RESULT.findall(person.screen)] for person in people)
    if [({"you": "X", "O": "you"}.get(who), *rest) for who, *rest in of_x] != of_o:
        return [f"the players are told other results: {of_x}, and {of_o}"]
    with open(f"{top}/w0", "rb") as file:
        judged = subprocess.run([PROGRAM, "judge"], stdin=file, capture_output=True, text=True, check=False).stdout
    score = dict(zip("XO", map(int, re.search(r" score (\d+)-(\d+) ", judged).groups())))
    won, told = {"X": 0, "O": 0}, []
    for who, what, *scores in of_o:
        winner = "O" if who == "you" else who
        ends = what.endswith("the match, ")
        if not ends:
            won[winner] += int(what.split()[0])
        counted = score if ends else won
        told.append(list(map(int, scores)) == [counted[winner], counted["XO".replace(winner, "")]])
    if not all(told) or [what.endswith("the match, ") for _, what, *_ in of_o] != [False] * (len(of_o) - 1) + [True]:
        return [f"the results are not those of the match, whose score is {score}: {of_x}"]
    return []


def check_scores(person):
    """X, who sees each result, sees the score as it is by those above."""
    own, other, wrong = 0, 0, []
    for who, _, of_winner, of_loser, *shown in RESULT_OR_SCORE.findall(person.screen):
        if who:
            own, other = map(int, (of_winner, of_loser) if who == "you win" else (of_loser, of_winner))
        elif list(map(int, shown)) != [own, other]:
            wrong.append(f"{person.player} sees the score {shown}, and not {own} to {other}")
    return wrong[:3]


def check_cubes(person):
    """X, who sees each entry, sees the cube as it is by those above."""
    number, owner, offered, wrong = 1, "in the middle", "", []
    for entry, cube in ENTRY_OR_CUBE.findall(person.screen):
        if cube and cube != f"{number} {owner}{offered}":
            wrong.append(f"{person.player} sees the cube `{cube}`, and not `{number} {owner}{offered}`")
        elif entry.startswith("open"):
            number, owner, offered = 1, "in the middle", ""
        elif entry.endswith(" double"):
            offered = f", doubled to {2 * number}"
        elif entry.endswith(" drop"):
            offered = ""
        elif entry.endswith(" take"):
            number, owner, offered = 2 * number, f"of {entry[0]}{' (you)' * entry.startswith(person.player)}", ""
    return wrong[:3]
