/* Packed arrays and tables of an accepted message, by the number of an element or a record: their shape, their slots and what is in
 * them. */
#ifndef GRID_H
#define GRID_H

#include "shared.h"

/* The indexes of an address; there is room for one more than an address can have. */
enum { GRID_INDEXES = 9 };

struct grid_indexes {
    size_t at[GRID_INDEXES];
    size_t count;
};

/* Word k of a row; 0 past the last row. */
size_t grid_word(const struct view *v, size_t row, size_t k);

/* Whether the row is a packed array's. */
bool grid_is_packed(const struct view *v, size_t row);

/* Whether the row is a table's. */
bool grid_is_table(const struct view *v, size_t row);

/* The row after the last row of a table's schema, which is the table's next row. */
size_t grid_schema_end(const struct view *v, size_t row);

/* How many indexes an address has. */
size_t grid_rank(const struct view *v, size_t row);

/* What index j must be below. */
size_t grid_extent(const struct view *v, size_t row, size_t j);

/* The bytes of a slot: of a packed array its payload's over its elements, of a table the leaf's. */
size_t grid_width(const struct view *v, size_t row, size_t leaf);

/* The mark of a slot. */
size_t grid_mark(const struct view *v, size_t row, size_t leaf);

/* Whether the row in the place of the leaf names slots of this packed array, which is its own row alone, or of this table. */
bool grid_names(const struct view *v, size_t row, size_t leaf);

/* How many rows name slots of it. */
size_t grid_leaves(const struct view *v, size_t row);

/* The slot of an address. */
struct tanklefrost_place grid_located(const struct view *v, size_t row, size_t leaf, const struct grid_indexes *indexes);

/* The slot of an element or a record by its number in storage order. */
struct tanklefrost_place grid_slot(const struct view *v, size_t row, size_t leaf, size_t number);

/* The value of an element or a record by its number. */
struct tanklefrost_scalar grid_value(const struct view *v, size_t row, size_t leaf, size_t number);

/* The text of a record by its number. */
struct tanklefrost_place grid_text(const struct view *v, size_t row, size_t leaf, size_t number);

#endif
