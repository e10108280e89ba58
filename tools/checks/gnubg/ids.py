"""Position IDs and Match IDs of GNU Backgammon, reckoned by nothing of the program."""
import base64
import itertools

from gnubg.matches import OTHER

# The fields of a Match ID, and their widths.
FIELDS = {"cube": 4, "owner": 2, "roller": 1, "crawford": 1, "stage": 3, "actor": 1, "doubled": 1, "level": 2,
          "greater die": 3, "lesser die": 3, "length": 15, "score of O": 15, "score of X": 15, "no Jacoby": 1}
STAGE_OF_GAMES = 1


def position_id(board, on_roll):
    """The Position ID of a board text: for each of the player's points and his bar, and before these for the other
    player's, as many ones as checkers stand there, and a zero; 80 bits, the lowest of each byte first, in base 64."""
    cells = dict(zip((*range(13, 25), *range(12, 0, -1)), board[2].split() + board[3].split()))
    counts = {"X": [0] * 26, "O": [0] * 26}
    for point, cell in cells.items():
        if cell != ".":
            counts[cell[0]][point if cell[0] == "X" else 25 - point] = int(cell[1:])
    words = board[5].split()
    counts["X"][25], counts["O"][25] = int(words[2]), int(words[4])
    return id_of_counts(counts, on_roll)


def id_of_counts(counts, on_roll):
    """The same of the checkers of each player on his points from 0, which is off, to 25, which is the bar."""
    bits = "".join("1" * counts[player][point] + "0" for player in (OTHER[on_roll], on_roll) for point in range(1, 26))
    number = int(bits.ljust(80, "0")[::-1], 2)
    return base64.b64encode(number.to_bytes(10, "little")).decode().rstrip("=")


def fields_of(match_id):
    """The fields that a Match ID tells."""
    number = int.from_bytes(base64.b64decode(match_id), "little")
    starts = itertools.accumulate(FIELDS.values(), initial=0)
    return {name: number >> start & (1 << width) - 1 for start, (name, width) in zip(starts, FIELDS.items())}


def match_id_of(fields):
    """The Match ID that tells these fields."""
    starts = itertools.accumulate(FIELDS.values(), initial=0)
    number = sum(fields[name] << start for start, name in zip(starts, FIELDS))
    return base64.b64encode(number.to_bytes(9, "little")).decode()


def exchanged(fields):
    """The same fields with X for O, and O for X."""
    return fields | {"owner": {0: 1, 1: 0, 3: 3}[fields["owner"]], "roller": 1 - fields["roller"],
                     "actor": 1 - fields["actor"], "score of O": fields["score of X"],
                     "score of X": fields["score of O"]}


def as_read(match_id, is_swapped):
    """The Match ID of a standing as gnubg reads it from an XGID: it takes a double that is answered for a roll that is
    to come, and X for O where these are swapped."""
    fields = fields_of(match_id)
    if fields["doubled"]:
        fields |= {"actor": fields["roller"], "doubled": 0}
    return match_id_of(exchanged(fields) if is_swapped else fields)
