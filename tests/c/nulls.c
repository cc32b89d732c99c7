/* Every call on NULL with length 0, alone and beside lent memory. */
#include "lent.h"
#include "tanklefrost.h"

static const uint8_t message[] = {'[', '$', 'U', '#', 'U', 2, 7, 9};

static int is_place(struct tanklefrost_place a, uint32_t number, size_t first, size_t width)
{
    return a.number == number && a.first == first && a.width == width;
}

static int is_refused(struct tanklefrost_scalar a, uint32_t number)
{
    return a.number == number && a.kind == 0 && a.value_case == 0 && a.bits == 0;
}

int main(void)
{
    uint32_t rows[TANKLEFROST_ROW_WORDS];
    size_t zero = 0;
    struct tanklefrost_member m;

    /* the empty message */
    CHECK(tanklefrost_number_and_place(NULL, 0) == TANKLEFROST_ENDS_TOO_EARLY);
    CHECK(tanklefrost_rows_needed(NULL, 0) == TANKLEFROST_ENDS_TOO_EARLY);
    CHECK(tanklefrost_slot(NULL, 0, 0, 0, 0) == TANKLEFROST_ENDS_TOO_EARLY);
    CHECK(is_reading(tanklefrost_read(TANKLEFROST_NEW_EDITION, NULL, 0, NULL, 0), TANKLEFROST_ENDS_TOO_EARLY, 0, 0));
    memset(rows, GUARD, sizeof rows);
    CHECK(is_reading(tanklefrost_read(TANKLEFROST_NEW_EDITION, NULL, 0, rows, TANKLEFROST_ROW_WORDS), TANKLEFROST_ENDS_TOO_EARLY, 0, 0));
    CHECK(rows[0] == 0 && memcmp(rows, rows + 1, sizeof rows - sizeof rows[0]) == 0);
    CHECK(is_reading(tanklefrost_rewrite(TANKLEFROST_NEW_EDITION, NULL, 0, NULL, 0, NULL, 0), TANKLEFROST_ENDS_TOO_EARLY, 0, 0));

    /* a number that names no edition */
    CHECK(is_reading(tanklefrost_read(0, NULL, 0, NULL, 0), TANKLEFROST_ROWS_DONT_FIT, 0, 0));
    CHECK(is_reading(tanklefrost_rewrite(3, NULL, 0, NULL, 0, NULL, 0), TANKLEFROST_ROWS_DONT_FIT, 0, 0));
    CHECK(is_reading(tanklefrost_rewrite(UINT32_MAX, message, sizeof message, NULL, 0, NULL, 0), TANKLEFROST_ROWS_DONT_FIT, 0, 0));

    /* no rows */
    CHECK(is_reading(tanklefrost_rewrite(TANKLEFROST_NEW_EDITION, message, sizeof message, NULL, 0, NULL, 0), TANKLEFROST_NO_ROW_LEFT, 0, 0));
    CHECK(is_reading(tanklefrost_read(TANKLEFROST_NEW_EDITION, message, sizeof message, NULL, 0), TANKLEFROST_NO_ROW_LEFT, 0, 0));
    CHECK(is_place(tanklefrost_packed_slot(NULL, 0, 0, 0, NULL, 0), TANKLEFROST_ROWS_DONT_FIT, 0, 0));
    CHECK(is_place(tanklefrost_table_slot(NULL, 0, 0, 0, 0, NULL, 0), TANKLEFROST_ROWS_DONT_FIT, 0, 0));
    CHECK(is_refused(tanklefrost_value_at_row(NULL, 0, NULL, 0, 0), TANKLEFROST_ROWS_DONT_FIT));
    CHECK(is_refused(tanklefrost_value_in_packed(NULL, 0, NULL, 0, 0, NULL, 0), TANKLEFROST_ROWS_DONT_FIT));
    CHECK(is_refused(tanklefrost_value_in_table(NULL, 0, NULL, 0, 0, 0, NULL, 0), TANKLEFROST_ROWS_DONT_FIT));
    CHECK(is_place(tanklefrost_text_at_row(NULL, 0, NULL, 0, 0), TANKLEFROST_ROWS_DONT_FIT, 0, 0));
    CHECK(is_place(tanklefrost_text_in_table(NULL, 0, NULL, 0, 0, 0, NULL, 0), TANKLEFROST_ROWS_DONT_FIT, 0, 0));
    m = tanklefrost_lookup(NULL, 0, NULL, 0, 0, NULL, 0);
    CHECK(m.number == TANKLEFROST_ROWS_DONT_FIT && m.row == 0);

    /* rows, and NULL for the rest: no index, no bytes, the empty name */
    CHECK(is_reading(tanklefrost_read(TANKLEFROST_NEW_EDITION, message, sizeof message, rows, TANKLEFROST_ROW_WORDS), 0, 0, 1));
    CHECK(is_place(tanklefrost_packed_slot(rows, TANKLEFROST_ROW_WORDS, sizeof message, 0, NULL, 0), TANKLEFROST_NOT_THERE, 0, 0));
    CHECK(is_place(tanklefrost_packed_slot(rows, TANKLEFROST_ROW_WORDS, sizeof message, 0, &zero, 1), 0, 6, 1));
    CHECK(is_refused(tanklefrost_value_in_packed(message, sizeof message, rows, TANKLEFROST_ROW_WORDS, 0, NULL, 0), TANKLEFROST_NOT_THERE));
    CHECK(is_refused(tanklefrost_value_in_packed(NULL, 0, rows, TANKLEFROST_ROW_WORDS, 0, &zero, 1), TANKLEFROST_ROWS_DONT_FIT));
    CHECK(is_reading(tanklefrost_read(TANKLEFROST_NEW_EDITION, (const uint8_t *)"{}", 2, rows, TANKLEFROST_ROW_WORDS), 0, 0, 1));
    m = tanklefrost_lookup(NULL, 0, rows, TANKLEFROST_ROW_WORDS, 0, NULL, 0);
    CHECK(m.number == TANKLEFROST_NOT_THERE && m.row == 0);

    /* rows, and no room for the house form */
    memset(rows, GUARD, sizeof rows);
    CHECK(is_reading(tanklefrost_rewrite(TANKLEFROST_NEW_EDITION, message, sizeof message, rows, TANKLEFROST_ROW_WORDS, NULL, 0), TANKLEFROST_OUTPUT_TOO_LONG, 0, 0));
    CHECK(rows[0] == 0 && memcmp(rows, rows + 1, sizeof rows - sizeof rows[0]) == 0);
    return report("nulls");
}
