/* The keys of patterns of Go, and lookups in dictionaries of `shapes`, for a program of one's own.
 *
 * A pattern is the surroundings of a point: the square of five by five, or the diamond of the 25 points at most three
 * steps away. Its word is a number below 2^51: the sum of code * 4^cell over its cells 0 to 24, row by row from the
 * top, each row from the left, and 2^50 more for a diamond. Its canonical word is the same however the pattern is
 * turned or mirrored, and with the colours exchanged for the other mover: the key of a pattern, as dictionaries have
 * it. docs/rules.md has these rules.
 *
 * Each call returns a status, SHAPES_DONE or why not; what it was to write is as it was then, unless its comment says
 * otherwise. What is proved of each is which values it writes and which status it returns, that it touches no memory
 * but what it is given, and that it ends. How long a call takes, and how much memory, is only measured. What the caller
 * owes, which nothing checks:
 *
 * - a pointer is never null, also where a length is 0, is aligned as its type is, and what it points to is as long as
 *   is said. What a call writes to may hold anything before;
 * - what a call writes to is used by nothing else in the meantime: not by another thread, and not through another
 *   argument of the call;
 * - what a call only reads may be read by others too, and is written by nobody in the meantime: not by another thread,
 *   and where it is a mapped file not by another process. One that is cut off meanwhile ends the process;
 * - malloc, realloc and free are those of one allocator, which aligns a block to each power of two up to 16 that
 *   divides its size, as those of C libraries do. A process that replaces one of them replaces all;
 * - shapes_read is not called in a signal handler, nor in a child that a process with threads has forked.
 *
 * So any number of threads may call at the same time, each with memory of its own to write to. No call keeps anything,
 * reads or writes files, or ends the process. shapes_read alone asks for memory (malloc), and frees it before it
 * returns. The library is for x86-64 processors (x86-64-v2) under Linux. Besides its calls it has three names of its
 * own, rattle_alloc, rattle_realloc and rattle_dealloc, which only one library of a program may have:
 *
 *     cc -I include yours.c out/libshapes.a
 *     cc -I include yours.c -L out -lshapes
 */
#ifndef SHAPES_H
#define SHAPES_H

#include <stddef.h>
#include <stdint.h>

#ifdef __cplusplus
extern "C" {
#endif

/* The version of this header and of the library beside it: 10100 is 1.1.0. */
#define SHAPES_VERSION 10100

/* What a call returns. From 11 on these are the faults X1 to X8 of a dictionary's text (docs/formats.md). */
enum {
    SHAPES_DONE = 0,           /* what was asked for is written */
    SHAPES_ABSENT = 1,         /* no entry has the shape */
    SHAPES_BAD_CODE = 2,       /* a code is over 3 */
    SHAPES_BAD_WORD = 3,       /* the number is no word: it is 2^51 or more */
    SHAPES_BAD_MOVER = 4,      /* the mover is neither 1 nor 2 */
    SHAPES_BAD_LENGTH = 5,     /* there are not 25 glyphs */
    SHAPES_BAD_GLYPH = 6,      /* a byte is no glyph */
    SHAPES_NO_ROOM = 7,        /* there is not room for all entries */
    SHAPES_BAD_POINT = 8,      /* the board has no such point */
    SHAPES_BAD_HEADER = 11,    /* X1: the text does not begin with a header */
    SHAPES_BAD_LINE = 12,      /* X2: a line is missing or is none, or bytes follow the text */
    SHAPES_NOT_RISING = 13,    /* X3: a line's word is not above that of the line before */
    SHAPES_NOT_CANONICAL = 14, /* X4: a line's word is not the least of its images */
    SHAPES_WRONG_TOTALS = 15,  /* X5: the plays do not add up to the moves, or there are moves and no games */
    SHAPES_NO_MEMORY = 16,     /* X6: memory was refused */
    SHAPES_TOO_LARGE = 18      /* X8: the text has more than 2^28 bytes */
};

/* Codes of cells. The first three are also what stands on a point, and the second and third who is to move. */
enum {
    SHAPES_EMPTY = 0,
    SHAPES_BLACK = 1,
    SHAPES_WHITE = 2,
    SHAPES_OFF_BOARD = 3
};

/* A number that is not known. */
#define SHAPES_UNKNOWN UINT64_MAX

/* One pattern of a dictionary. */
struct shapes_entry {
    uint64_t shape;  /* its canonical word */
    uint64_t there;  /* how often it was there */
    uint64_t played; /* how often it was played */
    uint64_t first;  /* the first game that had it, from 0, or SHAPES_UNKNOWN */
};

/* What the header of a dictionary's text says. */
struct shapes_header {
    uint64_t games;    /* how many games were counted */
    uint64_t moves;    /* how many moves onto empty points they have */
    uint64_t squares;  /* how many squares follow */
    uint64_t diamonds; /* how many diamonds follow, or SHAPES_UNKNOWN where they were not counted */
    uint64_t patterns; /* how many lines follow: squares and diamonds, or 2^64 - 1 where they are more */
};

/* Writes the word of the square whose cells have these 25 codes.
 * SHAPES_BAD_CODE exactly where a code is over 3. */
uint32_t shapes_square(const uint8_t codes[25], uint64_t *word);

/* Writes the word of the diamond whose cells have these 25 codes: rows of one, three, five, seven, five, three and one.
 * SHAPES_BAD_CODE exactly where a code is over 3. */
uint32_t shapes_diamond(const uint8_t codes[25], uint64_t *word);

/* Writes the codes of the square round a point of a board, as shapes_square takes them: those of its points, and
 * SHAPES_OFF_BOARD off the board. The board is the codes of all its points, row by row from the top, each of
 * `columns` codes; the point's column and row are counted from 0.
 * SHAPES_BAD_POINT exactly where the column is not below `columns`, or row * columns + column not below `points`. */
uint32_t shapes_around(const uint8_t *board, size_t points, uint32_t columns, uint32_t column, uint32_t row,
                       uint8_t codes[25]);

/* Writes the canonical word of a word with this mover, SHAPES_BLACK or SHAPES_WHITE.
 * SHAPES_BAD_WORD exactly where the number is 2^51 or more, and else SHAPES_BAD_MOVER exactly where there is no such
 * mover. */
uint32_t shapes_canonical(uint64_t word, uint32_t mover, uint64_t *shape);

/* Writes the word of the square of these glyphs, cell 0 first: '.' empty, 'X' black, 'O' white, '#' off the board.
 * SHAPES_BAD_LENGTH exactly where they are not 25 bytes, and else SHAPES_BAD_GLYPH exactly where one is no glyph. */
uint32_t shapes_square_of_glyphs(const char *glyphs, size_t length, uint64_t *word);

/* The same of a diamond. */
uint32_t shapes_diamond_of_glyphs(const char *glyphs, size_t length, uint64_t *word);

/* Writes the 25 glyphs of a word, and no byte after them.
 * SHAPES_BAD_WORD exactly where the number is 2^51 or more. */
uint32_t shapes_glyphs(uint64_t word, char glyphs[25]);

/* Writes what the header of a dictionary's text says. The lines after it are not looked at, so of a text that is none
 * it may say anything: `patterns` is no size to multiply and to ask memory for, and length / 18 is one.
 * SHAPES_BAD_HEADER exactly where the bytes do not begin with a header. */
uint32_t shapes_header(const char *text, size_t length, struct shapes_header *header);

/* Reads a dictionary's text, in any of its three texts, and writes its entries, whose shapes rise, to the front of
 * `entries`, where there is room for `room` of them. What follows them stays. `number` becomes how many they are. Room
 * for length / 18 entries is always enough, since a line has 18 bytes or more.
 * SHAPES_NO_ROOM where it is not enough: `number` becomes how many there are. SHAPES_BAD_HEADER to SHAPES_TOO_LARGE for
 * the first fault of the text: `number` becomes its line, counted from 1 at the header, or 0 where it is of no line.
 * Memory is taken while it works, up to some 100 bytes an entry (measured); SHAPES_NO_MEMORY can only come after a
 * header and a first line without a fault. */
uint32_t shapes_read(const char *text, size_t length, struct shapes_entry *entries, size_t room, uint64_t *number);

/* Writes the entry of a shape among `count` entries whose shapes rise: those that shapes_read writes, or any others of
 * your own, as some that you have chosen of them. It looks at about log2 of `count` of them (measured).
 * SHAPES_ABSENT where none has the shape. Where the shapes do not rise, one that is there may be missed. */
uint32_t shapes_find(const struct shapes_entry *entries, size_t count, uint64_t shape, struct shapes_entry *entry);

#ifdef __cplusplus
}
#endif

#endif
