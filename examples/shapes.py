"""The library out/libshapes.so in Python: keys of patterns, dictionaries, and what lies round a board's points.

    from shapes import Shapes

    shapes = Shapes("out/libshapes.so")
    key = shapes.key("square", "......XO.................", "black")
    dictionary = shapes.read(open("games.dict", "rb").read())
    entry = dictionary.find(key)
    print(f"{key:013x}", entry.there, entry.played)

A word of 25 codes or glyphs goes row by row from the top, each row from the left. include/shapes.h says more of each
call.
"""
import ctypes
from ctypes import POINTER, Structure, byref, c_char_p, c_size_t, c_uint8, c_uint32, c_uint64

DONE, EMPTY, BLACK, WHITE, OFF_BOARD = 0, 0, 1, 2, 3
MOVERS = {"black": BLACK, "white": WHITE}
CODES = {".": EMPTY, "X": BLACK, "O": WHITE}


class Entry(Structure):
    """One pattern of a dictionary: its key, how often it was there and was played, and the first game that had it."""

    _fields_ = [(name, c_uint64) for name in ("shape", "there", "played", "first")]

    @property
    def urgency(self):
        """How likely the move was when the pattern was there."""
        return self.played / self.there


class Dictionary:
    """The entries of a dictionary, whose keys rise, in memory that the library reads."""

    def __init__(self, calls, entries, count):
        self.calls, self.entries, self.count = calls, entries, count

    def __len__(self):
        return self.count

    def __iter__(self):
        return (self.entries[place] for place in range(self.count))

    def find(self, key):
        """The entry of a key, or None where the dictionary has none."""
        entry = Entry()
        found = self.calls.shapes_find(self.entries, self.count, key, byref(entry)) == DONE
        return entry if found else None

    def chosen(self, is_wanted):
        """A dictionary of those entries alone of which `is_wanted` is true."""
        entries = [entry for entry in self if is_wanted(entry)]
        return Dictionary(self.calls, (Entry * (len(entries) + 1))(*entries), len(entries))


class Shapes:
    """The library, each call with the types that shapes.h gives it."""

    def __init__(self, path):
        calls = ctypes.CDLL(path)
        number, codes = POINTER(c_uint64), POINTER(c_uint8)
        types = {
            "square": [codes, number],
            "diamond": [codes, number],
            "square_of_glyphs": [c_char_p, c_size_t, number],
            "diamond_of_glyphs": [c_char_p, c_size_t, number],
            "around": [codes, c_size_t, c_uint32, c_uint32, c_uint32, codes],
            "canonical": [c_uint64, c_uint32, number],
            "read": [c_char_p, c_size_t, POINTER(Entry), c_size_t, number],
            "find": [POINTER(Entry), c_size_t, c_uint64, POINTER(Entry)],
        }
        for name, arguments in types.items():
            call = getattr(calls, f"shapes_{name}")
            call.argtypes, call.restype = arguments, c_uint32
        self.calls = calls
        self.of_glyphs = {"square": calls.shapes_square_of_glyphs, "diamond": calls.shapes_diamond_of_glyphs}
        self.of_codes = {"square": calls.shapes_square, "diamond": calls.shapes_diamond}

    def canonical(self, word, mover):
        """The key of a word, or None where there is no such mover."""
        key = c_uint64()
        status = self.calls.shapes_canonical(word, MOVERS.get(mover, 0), byref(key))
        return key.value if status == DONE else None

    def key(self, kind, glyphs, mover):
        """The key of a pattern in glyphs, text or bytes, or None where these are no kind, glyphs or mover."""
        glyphs, word = glyphs.encode() if isinstance(glyphs, str) else glyphs, c_uint64()
        if kind not in self.of_glyphs or self.of_glyphs[kind](glyphs, len(glyphs), byref(word)) != DONE:
            return None
        return self.canonical(word, mover)

    def key_of_codes(self, kind, codes, mover):
        """The key of a pattern in 25 codes, or None where these are no kind, codes or mover."""
        word = c_uint64()
        if kind not in self.of_codes or len(codes) != 25:
            return None
        if self.of_codes[kind]((c_uint8 * 25)(*codes), byref(word)) != DONE:
            return None
        return self.canonical(word, mover)

    def around(self, board, column, row):
        """The 25 codes of the square round a point of a board, or None where it has no such point."""
        points, codes = (c_uint8 * max(len(board.codes), 1))(*board.codes), (c_uint8 * 25)()
        status = self.calls.shapes_around(points, len(board.codes), board.columns, column, row, codes)
        return list(codes) if status == DONE else None

    def read(self, text):
        """The dictionary of a text in bytes. ValueError says which fault a text has, as shapes_read tells it."""
        room, number = len(text) // 18, c_uint64()  # A line has 18 bytes or more.
        entries = (Entry * (room + 1))()
        status = self.calls.shapes_read(text, len(text), entries, room, byref(number))
        if status != DONE:
            raise ValueError(f"X{status - 10} in line {number.value}")
        return Dictionary(self.calls, entries, number.value)


def board_of(rows):
    """A board of rows of . X and O that are as long as one another: the codes of its points, row by row from the top."""
    return Board(len(rows[0]), bytes(CODES[glyph] for row in rows for glyph in row))


class Board:
    """The codes of a board's points, row by row from the top, and how many columns it has."""

    def __init__(self, columns, codes):
        self.columns, self.codes = columns, codes

    def points(self):
        """The column, the row and the code of each point."""
        return ((place % self.columns, place // self.columns, code) for place, code in enumerate(self.codes))
