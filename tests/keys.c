// Calls out/libshapes.a with right and wrong inputs. All that is handed to a call lies against a page that ends the
// program when it is touched: once the page after it, once the page before it. The last line is 'N passed, M failed'.
#define _GNU_SOURCE
#include <stdio.h>
#include <stdlib.h>
#include <string.h>
#include <sys/mman.h>

#include "shapes.h"

#define PAGE 4096
#define UNTOUCHED 0x5a5a5a5a5a5a5a5aULL

static long passed, failed, refused_at, asked;
static int at_end;

void *__real_malloc(size_t size);
void *__real_realloc(void *old, size_t size);

// The library's requests for memory, of which one is refused.
void *__wrap_malloc(size_t size) { return ++asked == refused_at ? NULL : __real_malloc(size); }
void *__wrap_realloc(void *old, size_t size) { return ++asked == refused_at ? NULL : __real_realloc(old, size); }

static void check(int holds, const char *what) {
    if (holds) {
        passed++;
    } else {
        failed++;
        printf("keys: %s\n", what);
    }
}

// Room for some bytes between two pages that may not be touched, full of a pattern; it is never given back.
static void *room_for(size_t size) {
    size_t inner = (size + PAGE) / PAGE * PAGE;
    char *all = mmap(NULL, inner + 2 * PAGE, PROT_NONE, MAP_PRIVATE | MAP_ANONYMOUS, -1, 0);
    if (all == MAP_FAILED || mprotect(all + PAGE, inner, PROT_READ | PROT_WRITE)) abort();
    memset(all + PAGE, 0x5a, inner);
    return at_end ? all + PAGE + inner - size : all + PAGE;
}

static void *copy_of(const void *bytes, size_t size) { return memcpy(room_for(size), bytes, size); }

// Each code in each cell: a word is the sum of code * 4^cell, and 2^50 more for a diamond.
static void try_codes(void) {
    uint8_t *codes = memset(room_for(25), 0, 25);
    uint64_t *word = room_for(sizeof *word);
    int sums = 1, faults = 1;
    for (int cell = 0; cell < 25; cell++) {
        for (int code = 0; code < 256; code++) {
            uint64_t sum = (uint64_t)code << (2 * cell);
            codes[cell] = (uint8_t)code;
            *word = UNTOUCHED;
            uint32_t square = shapes_square(codes, word);
            if (code < 4) sums &= square == SHAPES_DONE && *word == sum;
            if (code > 3) faults &= square == SHAPES_BAD_CODE && *word == UNTOUCHED;
            *word = UNTOUCHED;
            uint32_t diamond = shapes_diamond(codes, word);
            if (code < 4) sums &= diamond == SHAPES_DONE && *word == sum + (1ULL << 50);
            if (code > 3) faults &= diamond == SHAPES_BAD_CODE && *word == UNTOUCHED;
        }
        codes[cell] = 0;
    }
    check(sums, "the word of one code");
    check(faults, "a code over 3");
    memset(codes, 3, 25);
    check(shapes_square(codes, word) == SHAPES_DONE && *word == (1ULL << 50) - 1, "a square off the board");
}

// A board of three columns and two rows, whose points have the codes 1 to 6; some calls take fewer of its points.
static void try_around(void) {
    const uint8_t points[6] = {1, 2, 3, 4, 5, 6};
    uint8_t *codes = room_for(25);
    int sums = 1, faults = 1;
    for (size_t count = 0; count <= 6; count++) {
        uint8_t *board = copy_of(points, count);
        for (uint32_t row = 0; row < 4; row++) {
            for (uint32_t column = 0; column < 5; column++) {
                int is_point = column < 3 && 3 * row + column < count;
                memset(codes, 0x5a, 25);
                uint32_t status = shapes_around(board, count, 3, column, row, codes);
                faults &= status == (is_point ? SHAPES_DONE : SHAPES_BAD_POINT) && (is_point || codes[24] == 0x5a);
                for (int cell = 0; is_point && cell < 25; cell++) {
                    int x = (int)column + cell % 5 - 2, y = (int)row + cell / 5 - 2;
                    int is_on = x >= 0 && x < 3 && y >= 0 && 3 * y + x < (int)count;
                    sums &= codes[cell] == (is_on ? 3 * y + x + 1 : SHAPES_OFF_BOARD);
                }
            }
        }
    }
    check(sums, "what stands round a point");
    check(faults, "a point that the board does not have");
    uint8_t *board = copy_of(points, 6);
    memset(codes, 0x5a, 25);
    uint32_t beyond = shapes_around(board, 6, UINT32_MAX, UINT32_MAX - 1, UINT32_MAX, codes);
    uint32_t none = shapes_around(board, 6, 0, 0, 0, codes);
    check(beyond == SHAPES_BAD_POINT && none == SHAPES_BAD_POINT && codes[0] == 0x5a, "the greatest numbers, and no columns");
}

static void try_canonical(void) {
    uint64_t *shape = room_for(sizeof *shape);
    check(shapes_canonical(0x9000, SHAPES_BLACK, shape) == SHAPES_DONE && *shape == 0x9000, "a canonical word");
    check(shapes_canonical(0x9000, SHAPES_WHITE, shape) == SHAPES_DONE && *shape == 0x6000, "one of White's");
    *shape = UNTOUCHED;
    check(shapes_canonical(1ULL << 51, 0, shape) == SHAPES_BAD_WORD && *shape == UNTOUCHED, "a number that is no word");
    check(shapes_canonical(UINT64_MAX, SHAPES_BLACK, shape) == SHAPES_BAD_WORD && *shape == UNTOUCHED, "the greatest");
    check(shapes_canonical(0, 0, shape) == SHAPES_BAD_MOVER && *shape == UNTOUCHED, "no mover");
    check(shapes_canonical(0, 3, shape) == SHAPES_BAD_MOVER && *shape == UNTOUCHED, "a third mover");
    uint64_t last = (1ULL << 51) - 1;
    check(shapes_canonical(last, SHAPES_BLACK, shape) == SHAPES_DONE && *shape == last, "the last word");
}

static void try_glyphs(void) {
    const char *wanted = ".XO..OX..X...O..X.XO....#";
    uint64_t *word = room_for(sizeof *word);
    char *glyphs = copy_of(wanted, 25), *written = room_for(25);
    check(shapes_square_of_glyphs(glyphs, 25, word) == SHAPES_DONE && shapes_glyphs(*word, written) == SHAPES_DONE &&
              memcmp(written, wanted, 25) == 0, "glyphs of a square there and back");
    check(shapes_diamond_of_glyphs(glyphs, 25, word) == SHAPES_DONE && shapes_glyphs(*word, written) == SHAPES_DONE &&
              memcmp(written, wanted, 25) == 0 && *word >> 50 == 1, "glyphs of a diamond there and back");
    *word = UNTOUCHED;
    for (size_t length = 0; length < 25; length++) {
        char *few = copy_of(wanted, length);
        uint32_t square = shapes_square_of_glyphs(few, length, word);
        uint32_t diamond = shapes_diamond_of_glyphs(few, length, word);
        check(square == SHAPES_BAD_LENGTH && diamond == square && *word == UNTOUCHED, "too few glyphs");
    }
    char *many = copy_of(".XO..OX..X...O..X.XO....#.", 26);
    check(shapes_square_of_glyphs(many, 26, word) == SHAPES_BAD_LENGTH && *word == UNTOUCHED, "26 glyphs");
    for (int cell = 0; cell < 25; cell++) {
        glyphs[cell] = 'x';
        uint32_t square = shapes_square_of_glyphs(glyphs, 25, word);
        uint32_t diamond = shapes_diamond_of_glyphs(glyphs, 25, word);
        check(square == SHAPES_BAD_GLYPH && diamond == square && *word == UNTOUCHED, "a byte that is no glyph");
        glyphs[cell] = wanted[cell];
    }
    memset(written, 'z', 25);
    check(shapes_glyphs(1ULL << 51, written) == SHAPES_BAD_WORD && *written == 'z', "glyphs of no word");
}

// The dictionary of docs/formats.md.
static const char *text = "shapes 3 games 2 moves 3 squares 3 diamonds 3\n"
                          "3fff3fcffffff 2 1 1\n3fffbfcffffff 1 1 1\n3fffffcffffff 1 1 0\n"
                          "7ffcffcffffff 2 1 1\n7ffeffcffffff 1 1 1\n7fffffcffffff 1 1 0\n";
static const struct shapes_entry wanted_entries[6] = {
    {0x3fff3fcffffff, 2, 1, 1}, {0x3fffbfcffffff, 1, 1, 1}, {0x3fffffcffffff, 1, 1, 0},
    {0x7ffcffcffffff, 2, 1, 1}, {0x7ffeffcffffff, 1, 1, 1}, {0x7fffffcffffff, 1, 1, 0},
};

static void try_reading(void) {
    size_t length = strlen(text);
    char *whole = copy_of(text, length);
    struct shapes_header *header = room_for(sizeof *header);
    check(shapes_header(whole, length, header) == SHAPES_DONE && header->games == 2 && header->moves == 3 &&
              header->squares == 3 && header->diamonds == 3 && header->patterns == 6, "a header");
    uint64_t *number = room_for(sizeof *number);
    for (size_t room = 0; room < 9; room++) {
        struct shapes_entry *entries = room_for(room * sizeof *entries);
        uint32_t status = shapes_read(whole, length, entries, room, number);
        size_t written = room < 6 ? 0 : 6;
        int holds = status == (room < 6 ? SHAPES_NO_ROOM : SHAPES_DONE) && *number == 6;
        holds &= memcmp(entries, wanted_entries, written * sizeof *entries) == 0;
        for (size_t k = written; k < room; k++) holds &= entries[k].shape == UNTOUCHED && entries[k].there == UNTOUCHED;
        check(holds, "a room that is too small, or just right, or larger");
    }
    struct shapes_entry *entries = room_for(6 * sizeof *entries);
    for (size_t cut = 0; cut < length; cut++) {
        char *front = copy_of(text, cut);
        uint64_t lines = 0;
        for (size_t k = 0; k < cut; k++) lines += front[k] == '\n';
        uint32_t status = shapes_read(front, cut, entries, 6, number);
        int is_first = lines == 0;
        int holds = status == (is_first ? SHAPES_BAD_HEADER : SHAPES_BAD_LINE) && *number == (is_first ? 0 : lines + 1);
        check(holds && entries[0].shape == UNTOUCHED, "a dictionary that is cut");
        header->games = UNTOUCHED;
        status = shapes_header(front, cut, header);
        holds = status == (is_first ? SHAPES_BAD_HEADER : SHAPES_DONE) && header->games == (is_first ? UNTOUCHED : 2);
        check(holds, "a header that is cut");
    }
    for (refused_at = 1;; refused_at++) {
        asked = 0;
        uint32_t status = shapes_read(whole, length, entries, 6, number);
        if (asked < refused_at) break;
        int holds = status == SHAPES_NO_MEMORY && *number == 0 && entries[0].shape == UNTOUCHED;
        check(holds, "a request for memory that is refused");
    }
    check(refused_at > 1, "no memory was asked for");
    refused_at = 0;
}

// A header alone may say any number of lines, whose sum stops at the greatest number.
static void try_headers(void) {
    static const struct { const char *text; uint64_t patterns; } cases[] = {
        {"shapes 1 games 0 moves 0 patterns 576460752303423488\n", 1ULL << 59},
        {"shapes 2 games 0 moves 0 squares 18446744073709551615 diamonds 1\n", UINT64_MAX},
        {"shapes 2 games 0 moves 0 squares 7 diamonds -\n", 7},
    };
    struct shapes_header *header = room_for(sizeof *header);
    struct shapes_entry *entries = room_for(4 * sizeof *entries);
    uint64_t *number = room_for(sizeof *number);
    for (size_t k = 0; k < sizeof cases / sizeof *cases; k++) {
        size_t length = strlen(cases[k].text);
        char *whole = copy_of(cases[k].text, length);
        uint32_t status = shapes_header(whole, length, header);
        check(status == SHAPES_DONE && header->patterns == cases[k].patterns, cases[k].text);
        status = shapes_read(whole, length, entries, length / 18, number);
        check(status == SHAPES_BAD_LINE && *number == 2 && entries[0].shape == UNTOUCHED, "a header alone");
    }
}

static void try_faults(void) {
    static const struct { const char *text; uint32_t status; uint64_t line; } cases[] = {
        {"shapes 4 games 0 moves 0 patterns 0\n", SHAPES_BAD_HEADER, 0},
        {"shapes 1 games 0 moves 0 patterns 0\n\n", SHAPES_BAD_LINE, 2},
        {"shapes 1 games 1 moves 2 patterns 2\n3fffffcffffff 1 1\n3fff3fcffffff 1 1\n", SHAPES_NOT_RISING, 3},
        {"shapes 1 games 1 moves 1 patterns 1\n0000000000040 1 1\n", SHAPES_NOT_CANONICAL, 2},
        {"shapes 1 games 1 moves 2 patterns 1\n3fffffcffffff 1 1\n", SHAPES_WRONG_TOTALS, 0},
        {"shapes 1 games 0 moves 0 patterns 0\n", SHAPES_DONE, 0},
    };
    struct shapes_entry *entries = room_for(4 * sizeof *entries);
    uint64_t *number = room_for(sizeof *number);
    for (size_t k = 0; k < sizeof cases / sizeof *cases; k++) {
        size_t length = strlen(cases[k].text);
        uint32_t status = shapes_read(copy_of(cases[k].text, length), length, entries, 4, number);
        check(status == cases[k].status && *number == cases[k].line && entries[0].shape == UNTOUCHED, cases[k].text);
    }
    size_t large = (1u << 28) + 1;
    char *bytes = calloc(large, 1);
    uint32_t status = bytes ? shapes_read(bytes, large, entries, 4, number) : SHAPES_NO_MEMORY;
    check(status == SHAPES_TOO_LARGE && *number == 0, "more than 2^28 bytes");
    free(bytes);
}

static void try_finding(void) {
    struct shapes_entry *entry = room_for(sizeof *entry);
    for (size_t count = 0; count <= 6; count++) {
        struct shapes_entry *entries = copy_of(wanted_entries, count * sizeof *entries);
        int holds = 1;
        for (size_t k = 0; k < 6; k++) {
            memset(entry, 0x5a, sizeof *entry);
            uint32_t status = shapes_find(entries, count, wanted_entries[k].shape, entry);
            if (k < count) holds &= status == SHAPES_DONE && memcmp(entry, &wanted_entries[k], sizeof *entry) == 0;
            else holds &= status == SHAPES_ABSENT && entry->there == UNTOUCHED;
            memset(entry, 0x5a, sizeof *entry);
            holds &= shapes_find(entries, count, wanted_entries[k].shape - 1, entry) == SHAPES_ABSENT;
            holds &= shapes_find(entries, count, wanted_entries[k].shape + 1, entry) == SHAPES_ABSENT;
            holds &= entry->there == UNTOUCHED;
        }
        check(holds, "a shape that is there, or is not");
    }
    // Some of a dictionary's entries, chosen by the caller.
    struct shapes_entry chosen[3] = {wanted_entries[0], wanted_entries[3], wanted_entries[5]};
    struct shapes_entry *entries = copy_of(chosen, sizeof chosen);
    int holds = 1;
    for (size_t k = 0; k < 6; k++) {
        int is_chosen = k == 0 || k == 3 || k == 5;
        uint32_t status = shapes_find(entries, 3, wanted_entries[k].shape, entry);
        holds &= status == (is_chosen ? SHAPES_DONE : SHAPES_ABSENT);
        if (is_chosen) holds &= memcmp(entry, &wanted_entries[k], sizeof *entry) == 0;
    }
    check(holds, "entries that the caller has chosen");
}

int main(void) {
    for (at_end = 0; at_end < 2; at_end++) {
        try_codes();
        try_around();
        try_canonical();
        try_glyphs();
        try_reading();
        try_headers();
        try_faults();
        try_finding();
    }
    printf("%ld passed, %ld failed\n", passed, failed);
    return failed != 0;
}
