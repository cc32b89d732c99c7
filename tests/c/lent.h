/* What the tests share: memory lent between guards, words of test data, and a count of what failed. */
#ifndef LENT_H
#define LENT_H

#ifndef _GNU_SOURCE
#define _GNU_SOURCE
#endif
#include <stdint.h>
#include <stdio.h>
#include <stdlib.h>
#include <string.h>
#include <sys/mman.h>

#include "tanklefrost.h"

static unsigned long checks, failed;

#define CHECK(what) check((what), #what, __FILE__, __LINE__)

static inline void check(int held, const char *what, const char *file, int line)
{
    checks++;
    if (!held && failed++ < 20) {
        printf("%s:%d: does not hold: %s\n", file, line, what);
    }
}

static inline int report(const char *name)
{
    printf("%s: %lu checks, %lu failed\n", name, checks, failed);
    return failed != 0;
}

/* Lent bytes with a page before and a page after that can't be touched, and a mark in every other byte. They stand at one end of what
 * lies between, so that a byte too many on that side stops the test. */
enum { PAGE = 4096, GUARD = 0xA5 };

struct lent {
    unsigned char *map;
    size_t room;
    unsigned char *bytes;
    size_t size;
    unsigned char *copy;
};

static inline struct lent lend(const void *content, size_t size, int at_end)
{
    struct lent l;
    l.room = (size + 64 + PAGE - 1) / PAGE * PAGE;
    l.map = (unsigned char *)mmap(NULL, l.room + 2 * PAGE, PROT_NONE, MAP_PRIVATE | MAP_ANONYMOUS, -1, 0);
    if (l.map == MAP_FAILED || mprotect(l.map + PAGE, l.room, PROT_READ | PROT_WRITE) != 0) {
        perror("mmap");
        exit(2);
    }
    memset(l.map + PAGE, GUARD, l.room);
    l.size = size;
    l.bytes = at_end ? l.map + PAGE + l.room - size : l.map + PAGE;
    l.copy = NULL;
    if (content != NULL && size != 0) {
        memcpy(l.bytes, content, size);
        l.copy = (unsigned char *)malloc(size);
        if (l.copy == NULL) {
            exit(2);
        }
        memcpy(l.copy, content, size);
    }
    return l;
}

/* The guards are as they were, and so are bytes that were lent to be read only. */
static inline void take_back(struct lent l)
{
    size_t i, changed = 0;
    for (i = 0; i < l.room; i++) {
        unsigned char *b = l.map + PAGE + i;
        if (b < l.bytes || l.bytes + l.size <= b) {
            changed += *b != GUARD;
        }
    }
    CHECK(changed == 0);
    CHECK(l.copy == NULL || memcmp(l.copy, l.bytes, l.size) == 0);
    free(l.copy);
    munmap(l.map, l.room + 2 * PAGE);
}

/* Whether an answer is this one. */
static inline int is_reading(struct tanklefrost_reading a, uint32_t number, size_t place, size_t amount)
{
    return a.number == number && a.place == place && a.amount == amount;
}

/* How many lent bytes from one on are not zero. */
static inline size_t left_over(const struct lent *l, size_t from)
{
    size_t i, n = 0;
    for (i = from; i < l->size; i++) {
        n += l->bytes[i] != 0;
    }
    return n;
}

/* The next word of a line, cut off; NULL at its end. */
static inline char *word(char **line)
{
    char *w = *line + strspn(*line, " \n");
    if (*w == 0) {
        return NULL;
    }
    *line = w + strcspn(w, " \n");
    if (**line != 0) {
        *(*line)++ = 0;
    }
    return w;
}

/* The edition that a line names: `o` the old, `n` the new. */
static inline uint32_t edition_of(const char *letter)
{
    if (strcmp(letter, "o") != 0 && strcmp(letter, "n") != 0) {
        printf("no edition: %.20s\n", letter);
        exit(2);
    }
    return *letter == 'o' ? TANKLEFROST_OLD_EDITION : TANKLEFROST_NEW_EDITION;
}

/* Bytes in hex, in words with a space between two; `-` for none, and `0102*9` for nine times these. They are put after those that are
 * there. */
struct bytes {
    unsigned char *at;
    size_t size, room;
};

static inline void put_byte(struct bytes *b, unsigned char byte)
{
    if (b->size == b->room) {
        b->room = 2 * b->room + 64;
        b->at = (unsigned char *)realloc(b->at, b->room);
        if (b->at == NULL) {
            exit(2);
        }
    }
    b->at[b->size++] = byte;
}

static inline void put_hex(struct bytes *b, const char *hex)
{
    while (*hex != 0 && *hex != '-') {
        size_t start = b->size, count, times = 1, i;
        unsigned value;
        for (; *hex != 0 && *hex != ' ' && *hex != '*'; hex += 2) {
            if (sscanf(hex, "%2x", &value) != 1) {
                printf("not hex: %.20s\n", hex);
                exit(2);
            }
            put_byte(b, (unsigned char)value);
        }
        if (*hex == '*') {
            char *end;
            times = strtoul(hex + 1, &end, 10);
            hex = end;
        }
        count = b->size - start;
        b->size = times == 0 ? start : b->size;
        for (i = count; i < count * times; i++) {
            put_byte(b, b->at[start + i % count]);
        }
        hex += strspn(hex, " ");
    }
}

/* Numbers with a comma between two, `-` for none. */
static inline size_t numbers(const char *list, uint64_t *into, size_t room)
{
    size_t n = 0;
    while (*list != 0 && *list != '-') {
        char *end;
        uint64_t value = strtoull(list, &end, 10);
        if (end == list || n == room) {
            printf("not numbers: %.20s\n", list);
            exit(2);
        }
        into[n++] = value;
        list = *end == ',' ? end + 1 : end;
    }
    return n;
}

static inline FILE *file_of(const char *path)
{
    FILE *f = fopen(path, "r");
    if (f == NULL) {
        perror(path);
        exit(2);
    }
    return f;
}

#endif
