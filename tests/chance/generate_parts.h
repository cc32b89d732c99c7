/* What the files of the generator share: the brackets that are open, and what is written with the pen. */
#ifndef GENERATE_PARTS_H
#define GENERATE_PARTS_H

#include <stdbool.h>
#include <stddef.h>
#include <stdint.h>

#include "marks.h"
#include "pen.h"

/* One of some letters. */
uint8_t letter(const char *letters, uint32_t i);

/* Whether a byte is the mark of an integer. */
bool is_integer_mark(uint8_t byte);

/* The product, or one over the limit. */
uint32_t limited_product(uint32_t a, uint32_t b);

/* The most bytes of a payload with a type. */
enum { MOST_BYTES = 400 };

/* The most brackets that are open at once: 36 of a message's values, 11 of a schema. */
enum { MOST_OPEN = 36 };

/* A bracket: what opened it, and the members left to write. */
struct bracket {
    uint32_t form;
    uint32_t left;
};

/* The brackets that are open, the innermost last, and how many are to be opened before anything else. */
struct nesting {
    uint32_t open;
    uint32_t ahead;
    struct bracket brackets[MOST_OPEN];
};

/* Takes a bracket of so many members among those that are open. */
void nesting_open(struct nesting *nesting, uint32_t form, uint32_t members);

/* The innermost bracket that is open. */
struct bracket *nesting_top(struct nesting *nesting);

/* Writes an integer record. */
void write_integer(struct pen *pen, uint32_t number);

/* Writes no `N`, or a few. */
void write_noops(struct pen *pen);

/* Writes what a mark's bytes hold: a char below 128, a boolean's letter, or any number. */
void write_payload(struct pen *pen, uint8_t mark);

/* Writes elements of a mark. */
void write_elements(struct pen *pen, uint8_t mark, uint32_t count);

/* Writes a scalar. */
void write_scalar(struct pen *pen);

/* Writes characters of so many bytes in all. */
void write_characters(struct pen *pen, uint32_t bytes);

/* Writes a text. */
void write_text(struct pen *pen);

/* Writes a key: of few letters, so that keys repeat, none, or as many as a text. */
void write_key(struct pen *pen);

/* Writes a type: `$`, its mark, `#`. */
void write_type(struct pen *pen, uint8_t mark);

/* Writes a high-precision number. */
void write_numeral(struct pen *pen);

/* Writes an extension. */
void write_extension(struct pen *pen);

/* Writes what follows `#`: a count of elements, at most so many, or their dimensions, wrapped now and then if they may be; answers the
 * product. */
uint32_t write_count(struct pen *pen, uint32_t most, bool wraps);

/* Writes a table, by rows or by columns. */
void write_table(struct pen *pen);

#endif
