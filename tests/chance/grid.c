/* The shape of a packed array or a table, by the rows that the reader stored, and what is asked of the calls by it. */
#include "grid.h"

/* The most indexes of an address. */
enum { RANK_LIMIT = 8 };

size_t grid_word(const struct view *v, size_t row, size_t k)
{
    return row_at(v, row)[k];
}

bool grid_is_packed(const struct view *v, size_t row)
{
    return grid_word(v, row, TANKLEFROST_WORD_KIND) == KIND_PACKED;
}

bool grid_is_table(const struct view *v, size_t row)
{
    return grid_word(v, row, TANKLEFROST_WORD_KIND) == KIND_TABLE;
}

size_t grid_schema_end(const struct view *v, size_t row)
{
    return grid_word(v, row + 1, TANKLEFROST_WORD_LINK);
}

/* Whether it has a plain count, and no dimensions. */
static bool is_plain(const struct view *v, size_t row)
{
    return grid_word(v, row, TANKLEFROST_WORD_ORDER) == ORDER_PLAIN;
}

/* The row of the first dimension. */
static size_t first_dimension(const struct view *v, size_t row)
{
    return grid_is_packed(v, row) ? row + 1 : grid_schema_end(v, row);
}

size_t grid_rank(const struct view *v, size_t row)
{
    size_t first = first_dimension(v, row), end = grid_word(v, row, TANKLEFROST_WORD_LINK);

    if (is_plain(v, row)) {
        return 1;
    }
    return first < end ? least(end - first, RANK_LIMIT) : 0;
}

size_t grid_extent(const struct view *v, size_t row, size_t j)
{
    return grid_word(v, is_plain(v, row) ? row : first_dimension(v, row) + j, TANKLEFROST_WORD_COUNT);
}

/* Of so many indexes the one that moves as number i, the fastest being 0. */
static size_t moving(const struct view *v, size_t row, size_t rank, size_t i)
{
    return grid_word(v, row, TANKLEFROST_WORD_ORDER) == ORDER_FIRST_FASTEST ? i : rank - 1 - i;
}

/* The indexes of an element or a record by its number in storage order; those past the rank are 0. */
static struct grid_indexes indexes_of(const struct view *v, size_t row, size_t number)
{
    struct grid_indexes indexes = {{0}, grid_rank(v, row)};
    size_t i, rest = number;

    for (i = 0; i < indexes.count; i++) {
        size_t j = moving(v, row, indexes.count, i), below = grid_extent(v, row, j);
        indexes.at[j] = below == 0 ? 0 : rest % below;
        rest = below == 0 ? 0 : rest / below;
    }
    return indexes;
}

size_t grid_width(const struct view *v, size_t row, size_t leaf)
{
    size_t count = grid_word(v, row, TANKLEFROST_WORD_COUNT);

    if (grid_is_packed(v, row)) {
        return count == 0 ? 0 : grid_word(v, row, TANKLEFROST_WORD_LENGTH) / count;
    }
    return grid_word(v, leaf, TANKLEFROST_WORD_LENGTH);
}

size_t grid_mark(const struct view *v, size_t row, size_t leaf)
{
    return grid_word(v, grid_is_packed(v, row) ? row : leaf, TANKLEFROST_WORD_MARK);
}

bool grid_names(const struct view *v, size_t row, size_t leaf)
{
    if (grid_is_table(v, row)) {
        return grid_word(v, leaf, TANKLEFROST_WORD_KIND) == KIND_LEAF && row < leaf && leaf < grid_schema_end(v, row);
    }
    return leaf == row;
}

size_t grid_leaves(const struct view *v, size_t row)
{
    size_t end = grid_word(v, row, TANKLEFROST_WORD_LINK), r, n = 0;

    for (r = row; r < end; r++) {
        n += grid_names(v, row, r);
    }
    return n;
}

struct tanklefrost_place grid_located(const struct view *v, size_t row, size_t leaf, const struct grid_indexes *indexes)
{
    uint32_t length = (uint32_t)v->length;

    if (grid_is_packed(v, row)) {
        return tanklefrost_packed_slot(v->rows, v->words, length, row, indexes->at, indexes->count);
    }
    return tanklefrost_table_slot(v->rows, v->words, length, row, leaf, indexes->at, indexes->count);
}

struct tanklefrost_place grid_slot(const struct view *v, size_t row, size_t leaf, size_t number)
{
    struct grid_indexes indexes = indexes_of(v, row, number);

    return grid_located(v, row, leaf, &indexes);
}

struct tanklefrost_scalar grid_value(const struct view *v, size_t row, size_t leaf, size_t number)
{
    struct grid_indexes indexes = indexes_of(v, row, number);

    if (grid_is_packed(v, row)) {
        return tanklefrost_value_in_packed(v->message, v->length, v->rows, v->words, row, indexes.at, indexes.count);
    }
    return tanklefrost_value_in_table(v->message, v->length, v->rows, v->words, row, leaf, indexes.at, indexes.count);
}

struct tanklefrost_place grid_text(const struct view *v, size_t row, size_t leaf, size_t number)
{
    struct grid_indexes indexes = indexes_of(v, row, number);

    return tanklefrost_text_in_table(v->message, v->length, v->rows, v->words, row, leaf, indexes.at, indexes.count);
}
