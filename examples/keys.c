/* Prints the canonical words of patterns, and what a dictionary says of them.
 *
 *     cc -I include -o keys examples/keys.c out/libshapes.a
 *     echo 'square ......XO................. black' | ./keys [DICTIONARY]
 *
 * Each line of standard input is a kind, 25 glyphs row by row, and who is to move, parted by spaces. A line of output
 * is the canonical word; with a dictionary also how often the pattern was there and was played. So each line has its
 * own answer: one that is none gives `-`, and the status is 1 then. It is 3 where the dictionary is none, and 6 where
 * the answers could not be written. */
#include <inttypes.h>
#include <stdio.h>
#include <stdlib.h>
#include <string.h>

#include "shapes.h"

/* A dictionary in memory: its entries, whose shapes rise. */
struct dictionary {
    struct shapes_entry *entries;
    uint64_t count;
};

/* The bytes of a file, and how many they are; a null pointer where it cannot be read. */
static char *bytes_of(const char *name, size_t *length) {
    FILE *file = fopen(name, "rb");
    char *bytes = NULL;
    if (file && fseek(file, 0, SEEK_END) == 0) {
        long end = ftell(file);
        *length = end < 0 ? 0 : (size_t)end;
        bytes = malloc(*length + 1);
        rewind(file);
        if (bytes && fread(bytes, 1, *length, file) != *length) {
            free(bytes);
            bytes = NULL;
        }
    }
    if (file) fclose(file);
    return bytes;
}

/* Reads a dictionary's text. Returns whether it was one. */
static int read_dictionary(const char *name, struct dictionary *dictionary) {
    size_t length = 0;
    char *text = bytes_of(name, &length);
    size_t room = length / 18; /* A line has 18 bytes or more. */
    dictionary->entries = malloc((room + 1) * sizeof *dictionary->entries);
    if (!text || !dictionary->entries) {
        fprintf(stderr, "keys: %s cannot be read\n", name);
        return 0;
    }
    uint32_t status = shapes_read(text, length, dictionary->entries, room, &dictionary->count);
    free(text);
    if (status != SHAPES_DONE)
        fprintf(stderr, "keys: %s: X%" PRIu32 " in line %" PRIu64 "\n", name, status - 10, dictionary->count);
    return status == SHAPES_DONE;
}

/* The canonical word of a pattern. Returns whether these are a kind, glyphs and a mover. */
static int key_of(const char *kind, const char *glyphs, const char *mover, uint64_t *shape) {
    int is_diamond = strcmp(kind, "diamond") == 0;
    uint32_t colour = strcmp(mover, "black") == 0 ? SHAPES_BLACK : strcmp(mover, "white") == 0 ? SHAPES_WHITE : 0;
    uint64_t word;
    uint32_t status = is_diamond ? shapes_diamond_of_glyphs(glyphs, strlen(glyphs), &word)
                                 : shapes_square_of_glyphs(glyphs, strlen(glyphs), &word);
    if (!is_diamond && strcmp(kind, "square") != 0) return 0;
    return status == SHAPES_DONE && shapes_canonical(word, colour, shape) == SHAPES_DONE;
}

/* Reads one line, and its key. Returns whether it had one; `last` becomes whether the input has ended before it. */
static int read_key(FILE *input, uint64_t *shape, int *last) {
    char line[64], kind[64], glyphs[64], mover[64], more;
    int letter;
    size_t length = 0;
    while ((letter = getc(input)) != EOF && letter != '\n') {
        if (length < sizeof line) line[length] = letter ? (char)letter : '?';
        length++;
    }
    *last = letter == EOF && length == 0;
    if (length >= sizeof line) return 0; /* No pattern's line is as long. */
    line[length] = '\0';
    return sscanf(line, "%s %s %s %c", kind, glyphs, mover, &more) == 3 && key_of(kind, glyphs, mover, shape);
}

int main(int count, char **words) {
    struct dictionary dictionary = {NULL, 0};
    if (count > 1 && !read_dictionary(words[1], &dictionary)) return 3;
    int status = 0;
    for (;;) {
        uint64_t shape;
        int last, has_key = read_key(stdin, &shape, &last);
        if (last) break;
        if (!has_key) {
            puts("-");
            status = 1;
            continue;
        }
        printf("%013" PRIx64, shape);
        struct shapes_entry entry = {0, 0, 0, SHAPES_UNKNOWN};
        if (dictionary.entries) {
            shapes_find(dictionary.entries, dictionary.count, shape, &entry);
            printf(" %" PRIu64 " %" PRIu64, entry.there, entry.played);
        }
        puts("");
    }
    free(dictionary.entries);
    if (fflush(stdout) != 0 || ferror(stdout)) {
        fputs("keys: the answers could not be written\n", stderr);
        return 6;
    }
    return status;
}
