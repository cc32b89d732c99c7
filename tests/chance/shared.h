/* What the programs share that ask the calls about messages made by chance: the kinds of rows, a message with its rows, how many messages
 * are made, and the lines of a summary. */
#ifndef SHARED_H
#define SHARED_H

#include <inttypes.h>
#include <stdbool.h>
#include <stdint.h>
#include <stdio.h>
#include <stdlib.h>
#include <string.h>

#include "tanklefrost.h"

/* The kinds of rows. */
enum {
    KIND_SCALAR = 1,
    KIND_TEXT = 2,
    KIND_HIGH_PRECISION = 3,
    KIND_KEY = 4,
    KIND_ARRAY = 5,
    KIND_OBJECT = 6,
    KIND_PACKED = 7,
    KIND_TABLE = 8,
    KIND_LEAF = 9,
    KIND_SCHEMA_RECORD = 10,
    KIND_FIXED_ARRAY = 11,
    KIND_DIMENSION = 12,
    KIND_EXTENSION = 13
};

/* The orders of a packed array or a table: a plain count, or dimensions with the last or the first index fastest. */
enum { ORDER_PLAIN = 0, ORDER_LAST_FASTEST = 1, ORDER_FIRST_FASTEST = 2 };

/* A message and its rows. */
struct view {
    uint8_t *message;
    size_t length;
    uint32_t *rows;
    size_t words;
};

/* The smaller of two numbers. */
static inline size_t least(size_t a, size_t b)
{
    return a < b ? a : b;
}

/* The words of a row; zeros past the last row. */
static inline const uint32_t *row_at(const struct view *v, size_t row)
{
    static const uint32_t none[TANKLEFROST_ROW_WORDS];

    return row < v->words / TANKLEFROST_ROW_WORDS ? v->rows + row * TANKLEFROST_ROW_WORDS : none;
}

/* Fills words before a call: where the call leaves one, it shows. */
static inline void fill_words(uint32_t *words, size_t count, uint32_t with)
{
    size_t i;

    for (i = 0; i < count; i++) {
        words[i] = with;
    }
}

/* Reads a message into its rows by the new edition, over words that all hold a number. */
static inline struct tanklefrost_reading read_over(const struct view *v, uint32_t with)
{
    fill_words(v->rows, v->words, with);
    return tanklefrost_read(TANKLEFROST_NEW_EDITION, v->message, v->length, v->rows, v->words);
}

/* Whether two tables of as many words have the same words. */
static inline bool same_words(const uint32_t *a, const uint32_t *b, size_t count)
{
    return memcmp(a, b, count * sizeof *a) == 0;
}

/* Whether two readings are the same. */
static inline bool same_reading(struct tanklefrost_reading a, struct tanklefrost_reading b)
{
    return a.number == b.number && a.place == b.place && a.amount == b.amount;
}

/* How many messages are made: as many as the one argument says, or so many without an argument. */
static inline uint64_t messages_asked(int argc, char **argv, uint64_t otherwise)
{
    size_t digits;

    if (argc < 2) {
        return otherwise;
    }
    digits = strspn(argv[1], "0123456789");
    if (2 < argc || digits == 0 || argv[1][digits] != 0) {
        fprintf(stderr, "usage: %s [messages]\n", argv[0]);
        exit(2);
    }
    return strtoull(argv[1], NULL, 10);
}

/* A line of the summary: a name and a number. */
static inline void line(const char *name, uint64_t number)
{
    printf("%s: %" PRIu64 "\n", name, number);
}

#endif
