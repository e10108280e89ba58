"""The bytes that plays name, packets, saves and texts, and the lists of words that they name."""


def hexadecimal(*fields):
    """The bytes of fields, each in hexadecimal digits."""
    return bytes.fromhex("".join(fields))


# What begins each packet of match 1, by the first rules, but for its kind.
WANTS, CLAIMS, TELLS = ((f"4247 02 {kind}", "0000000000000001", "01") for kind in ("01", "02", "03"))
# What begins each save of version 2, and match 1, of one point by the first rules.
SAVES, MATCH_1 = "42475332", "0000000000000001 01 01"
# Entries: X opens with 3 and O with 1; X moves 8-5 6-5.
X_OPENS, X_MOVES = "01 03 01", "06 02 0805 0605"

PACKETS_AND_SAVES = {
    # Party 3 holds nothing of match 1.
    "WANT": hexadecimal(*WANTS, "03", "00000000"),
    # The seat of X claims that entry 2 is its move.
    "CLAIM": hexadecimal(*CLAIMS, "01", "00000002", X_MOVES),
    "OPENING": hexadecimal(*TELLS, "00000001", "01", X_OPENS),
    "SECOND": hexadecimal(*TELLS, "00000002", "01", X_MOVES),
    "ENTRIES": hexadecimal(*TELLS, "00000001", "02", X_OPENS, X_MOVES),
    # X opens with 2 1 and moves, O rolls 4 3 and hits, X doubles, O takes, X rolls 6 5 and offers a gammon.
    "HIT": hexadecimal(
        *TELLS, "00000001", "08", "01 02 01", "06 02 0d0b 0605", "02 04 03", "06 02 1814 1815",
        "03", "04", "02 06 05", "07 02",
    ),
    # X opens with 3 1 and offers a backgammon, and O accepts.
    "WON": hexadecimal(*TELLS, "00000001", "03", X_OPENS, "07 03", "08"),
    # Saves 1 and 2 of the referee.
    "SAVE_1": hexadecimal(SAVES, "00", MATCH_1, "00000001", "00", "00000001", X_OPENS),
    "SAVE_2": hexadecimal(SAVES, "00", MATCH_1, "00000002", "00", "00000002", X_OPENS, X_MOVES),
    # The same two entries in save 1.
    "BOTH_1": hexadecimal(SAVES, "00", MATCH_1, "00000001", "00", "00000002", X_OPENS, X_MOVES),
    # Save 1 of the seat of X, which claims its move as entry 2, and has entry 1.
    "SEAT_1": hexadecimal(SAVES, "01", MATCH_1, "00000001", "01 00000002", X_MOVES, "00000001", X_OPENS),
    # Save 3 of the seat of O of match 258, of five points by the second rules, with the claim of a roll as entry 1.
    "SEAT_3": hexadecimal(SAVES, "02", "0000000000000102 05 02", "00000003", "01 00000001", "02", "00000000"),
    "NO_UTF": b"A\xff",
}

BOARD = """\
length 1 game 1 score 0-0 cube 1 middle crawford
  13  14  15  16  17  18  19  20  21  22  23  24
  X5   .   .   .  O3   .  O5   .   .   .   .  X2
  O5   .   .   .  X3   .  X5   .   .   .   .  O2
  12  11  10   9   8   7   6   5   4   3   2   1
bar X 0 O 0 off X 0 O 0
opening
"""

MOVED_BOARD = """\
length 1 game 1 score 0-0 cube 1 middle crawford
  13  14  15  16  17  18  19  20  21  22  23  24
  X5   .   .   .  O3   .  O5   .   .   .   .  X2
  O5   .   .   .  X2   .  X4  X2   .   .   .  O2
  12  11  10   9   8   7   6   5   4   3   2   1
bar X 0 O 0 off X 0 O 0
O to roll
"""

TEXTS = {
    "-": "",
    "BOARD": BOARD,
    "MOVED_BOARD": MOVED_BOARD,
    "HEAD": "length 1 game 1 score 0-0 cube 1 middle crawford\n",
    "FINE": "O to roll\nok 2\n",
    "EQUAL_DICE": "opening\nrefused at line 2: equal opening\n",
    "NO_LENGTH": "refused at line 1: not a length line\n",
    "FIRST_TURNS": "move 24-23 24-21\nmove 24-23 23-20\n",
    "LAST_TURN": "move 6-3 3-2\n",
    # Transcripts, and lines of them.
    "LENGTH_0": "length 0\n",
    "LENGTH_1": "length 1\n",
    "OPENED": "length 1\nopen 3 1\n",
    "OPENED_3_3": "length 1\nopen 3 3\n",
    "SHORT_MOVE": "length 1\nopen 3 1\nX move 8-5\n",
    "MOVED": "length 1\nopen 3 1\nX move 8-5 6-5\n",
    "MOVED_BY_2": "length 1 rules 2\nopen 3 1\nX move 8-5 6-5\n",
    "SEVEN": "length 7\nopen 3 1\n",
    "OPENING_LINE": "open 3 1\n",
    "MOVE_LINE": "X move 8-5 6-5\n",
    "MOVED_LINES": "open 3 1\nX move 8-5 6-5\n",
    # Match files of other programs: one of the transcript MOVED, and one that is played for money. Then what is made of
    # MOVED: X has the left column, which is 33 wide.
    "MAT": " 1 point match\n\n Game 1\n A : 0   B : 0\n 1) 31: 8/5 6/5\n",
    "MONEY": "\n 0 point match\n",
    "EXPORTED": f" 1 point match\n\n Game 1\n{' X : 0':<32}O : 0\n{'  1) 31: 8/5 6/5':<33}\n",
    # Lines of reports.
    "CHECKED": "a: ok 2, not over\n",
    "CHECKED_SHORT": "a: refused at line 3: more can be played: X move 8-5\n",
    "CHECKED_NARROW": "a: refused at line 3: more can be played: X m...\n",
    "CHECKED_MONEY": "a.mat: refused at line 2: a money game:  0 point match\n",
}

BYTES = PACKETS_AND_SAVES | {name: text.encode() for name, text in TEXTS.items()}

# Fields of bg_standing. Checkers are off, on the points from 1 to 24 as X numbers them, and on the bar.
WORDS = {
    "OF_ONE_POINT": "match_length 1 rules 1 game 1 crawford 1 cube 1",
    "AT_START": "x_pips 167 o_pips 167 x_checkers X_AT_START o_checkers O_AT_START",
    "X_AT_START": "0 0 0 0 0 0 5 0 3 0 0 0 0 5 0 0 0 0 0 0 0 0 0 0 2 0",
    "O_AT_START": "0 2 0 0 0 0 0 0 0 0 0 0 5 0 0 0 0 3 0 5 0 0 0 0 0 0",
    "X_TO_MOVE": "OF_ONE_POINT phase PHASE_TO_MOVE player 1 dice 3 1 actor 1 AT_START",
}
