"""The dice that a secret has, reckoned by a ChaCha20 of its own (docs/FORMATS.md, "Dice that can be checked")."""
import struct

DICE_STREAM, ATTEMPTS, WORDS_WITH_DICE = 1, 65536, 4294967292


def quarter(state, a, b, c, d):
    for one, two, three, turn in ((a, b, d, 16), (c, d, b, 12), (a, b, d, 8), (c, d, b, 7)):
        state[one] = (state[one] + state[two]) & 0xffffffff
        mixed = state[three] ^ state[one]
        state[three] = (mixed << turn | mixed >> 32 - turn) & 0xffffffff


def word_at(secret, stream, place):
    """The word at a place of a stream, from 0."""
    block, index = divmod(place, 16)
    start = [*struct.unpack("<4I", b"expand 32-byte k"), *struct.unpack("<8I", secret),
             block & 0xffffffff, block >> 32, stream & 0xffffffff, stream >> 32]
    state = list(start)
    for _ in range(10):
        for column in range(4):
            quarter(state, column, column + 4, column + 8, column + 12)
        for column in range(4):
            quarter(state, column, (column + 1) % 4 + 4, (column + 2) % 4 + 8, (column + 3) % 4 + 12)
    return (state[index] + start[index]) & 0xffffffff


def drawn(secret, number, opens):
    """The dice of the entry of a number, and the attempt that gave them."""
    for attempt in range(ATTEMPTS):
        word = word_at(secret, DICE_STREAM, ATTEMPTS * number + attempt)
        dice = (word % 36 // 6 + 1, word % 36 % 6 + 1)
        if word < WORDS_WITH_DICE and not (opens and dice[0] == dice[1]):
            return dice, attempt
    raise ValueError("each attempt is passed over")


def lines_of(secret, transcript):
    """The lines of `bg_relay dice` for the entries with dice of a transcript, where all are of the secret."""
    for number, line in enumerate(transcript.splitlines()[1:], 1):
        words = line.split()
        if words[0] == "open" or words[1] == "roll":
            dice, attempt = drawn(secret, number, words[0] == "open")
            if [str(die) for die in dice] == words[-2:]:
                yield f"{number} {line}: ok, attempt {attempt}"
            else:
                yield f"{number} {line}: not of this secret, which has {dice[0]} {dice[1]}, attempt {attempt}"
