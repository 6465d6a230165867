#!/usr/bin/env python3
"""Prints the canonical words of patterns, and what a dictionary says of them.

    echo 'square ......XO................. black' | examples/keys.py out/libshapes.so [DICTIONARY]

Each line of standard input is a kind, 25 glyphs row by row, and who is to move, parted by spaces. A line of output is
the canonical word; with a dictionary also how often the pattern was there and was played. So each line has its own
answer: one that is none gives `-`, and the status is 1 then. It is 3 where the dictionary is none.
"""
import signal
import sys

from shapes import Shapes


def refuse(why):
    print(f"keys: {why}", file=sys.stderr)
    return 3


def key_of(shapes, line):
    """The key that a line asks for, or None."""
    words = line.split()
    if len(words) != 3:
        return None
    kind, glyphs, mover = words
    return shapes.key(kind.decode("latin-1"), glyphs, mover.decode("latin-1"))


def main():
    if len(sys.argv) < 2:
        print("usage: examples/keys.py out/libshapes.so [DICTIONARY] < PATTERNS", file=sys.stderr)
        return 2
    try:
        shapes = Shapes(sys.argv[1])
    except OSError:
        return refuse(f"{sys.argv[1]} can't be loaded: an archive has out/libshapes.so, and ./build lib makes it")
    dictionary = None
    if len(sys.argv) > 2:
        try:
            with open(sys.argv[2], "rb") as file:
                dictionary = shapes.read(file.read())
        except OSError:
            return refuse(f"{sys.argv[2]} cannot be read")
        except ValueError as fault:
            return refuse(f"{sys.argv[2]}: {fault}")
    status = 0
    for line in sys.stdin.buffer:
        key = key_of(shapes, line)
        if key is None:
            print("-")
            status = 1
        elif dictionary is not None:
            entry = dictionary.find(key)
            print(f"{key:013x} {entry.there} {entry.played}" if entry else f"{key:013x} 0 0")
        else:
            print(f"{key:013x}")
    return status


if __name__ == "__main__":
    # A reader that stops early, as head, is no fault of this program.
    signal.signal(signal.SIGPIPE, signal.SIG_DFL)
    sys.exit(main())
