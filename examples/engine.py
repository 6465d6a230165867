#!/usr/bin/env python3
"""The moves of a position that were played most often where their patterns were there: engine.c in Python.

    ./shapes board < game.sgf | examples/engine.py out/libshapes.so games.dict black

engine.c says what is read and printed, and with which statuses.
"""
import signal
import sys

from shapes import Shapes, board_of

LEAST = 50
LETTERS = "abcdefghijklmnopqrstuvwxyzABCDEFGHIJKLMNOPQRSTUVWXYZ"


def refuse(why, status):
    print(f"engine: {why}", file=sys.stderr)
    return status


def board_in(text):
    """The board of rows of . X and O that are as long as one another, or None."""
    rows = text.decode("latin-1").split("\n")
    if rows[-1]:
        return None
    rows.pop()
    is_board = 0 < len(rows) <= 52 and 0 < len(rows[0]) <= 52
    is_board = is_board and all(len(row) == len(rows[0]) and set(row) <= set(".XO") for row in rows)
    return board_of(rows) if is_board else None


def moves(shapes, table, board, mover):
    """The empty points whose patterns the table has, with their entries, row by row."""
    for column, row, code in board.points():
        entry = None if code else table.find(shapes.key_of_codes("square", shapes.around(board, column, row), mover))
        if entry:
            yield LETTERS[column] + LETTERS[row], entry


def main():
    if len(sys.argv) != 4 or sys.argv[3] not in ("black", "white"):
        return refuse("usage: examples/engine.py out/libshapes.so DICTIONARY black|white < BOARD", 2)
    try:
        shapes = Shapes(sys.argv[1])
    except OSError:
        return refuse(f"{sys.argv[1]} can't be loaded: an archive has out/libshapes.so, and ./build lib makes it", 3)
    try:
        with open(sys.argv[2], "rb") as file:
            dictionary = shapes.read(file.read())
    except OSError:
        return refuse(f"{sys.argv[2]} cannot be read", 3)
    except ValueError as fault:
        return refuse(f"{sys.argv[2]}: {fault}", 3)
    table = dictionary.chosen(lambda entry: entry.there >= LEAST)
    board = board_in(sys.stdin.buffer.read())
    if board is None:
        return refuse("standard input is no board", 3)
    found = sorted(moves(shapes, table, board, sys.argv[3]), key=lambda move: -move[1].urgency)
    for point, entry in found:
        print(f"{point} {entry.urgency:.4f} {entry.there} {entry.played} {entry.shape:013x}")
    return 0


if __name__ == "__main__":
    # A reader that stops early, as head, is no fault of this program.
    signal.signal(signal.SIGPIPE, signal.SIG_DFL)
    sys.exit(main())
