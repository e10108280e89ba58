"""The boards that a terminal shows, read by their letters, for the checks that play and watch matches at terminals."""
import re

# The checkers of a point in a row, as `X5`; a row of numbers of points begins with the first of these words.
CELL = re.compile(r"([XO])(\d+)$")
NUMBERS = "  13  14"


def board_in(lines):
    """The checkers on each point that has some: player and number, from the lines of a board, drawn in any of three ways."""
    if not (lines and lines[0].startswith(NUMBERS)):
        return {int(line.split()[0]): checkers(line.split()[1]) for line in lines}
    upper, lower = rows_in(lines[1:-1]) if len(lines) == 4 else stacks_in(lines[1:-1])
    found = {**dict(zip(range(13, 25), upper)), **dict(zip(range(12, 0, -1), lower))}
    return {point: stand for point, stand in found.items() if stand}


def checkers(cell):
    """The player and the number of a cell, as `X5`; nothing where it has no checker."""
    found = CELL.match(cell)
    return (found[1], int(found[2])) if found else None


def rows_in(lines):
    """The points of two rows, from the left."""
    return [[checkers(cell) for cell in line.replace("|", " ").split()] for line in lines]


def stacks_in(lines):
    """The points of an upper and a lower half whose checkers stand one above another, from the left."""
    return [half_in(lines[:5]), half_in(lines[:5:-1])]


def half_in(lines):
    """The points of a half, from its row at the edge on."""
    rows = [line.ljust(51)[:24] + line.ljust(51)[27:] for line in lines]
    return [stack_in([row[at:at + 4].strip() for row in rows]) for at in range(0, 48, 4)]


def stack_in(column):
    """The player and the number of a stack: its marks, or what its last row says."""
    marks = [cell for cell in column if cell in ("X", "O")]
    count = int(column[-1]) if column[-1].isdigit() else len(marks)
    return (marks[0], count) if marks else None
