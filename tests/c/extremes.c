/* The calls at the ends of their numbers: the longest message and one byte more, the highest rows and indexes, and rows made up by
 * chance, always the same. */
#include "lent.h"
#include "tanklefrost.h"

static int is_place(struct tanklefrost_place a, uint32_t number, size_t first, size_t width)
{
    return a.number == number && a.first == first && a.width == width;
}

static int is_refused(struct tanklefrost_scalar a, uint32_t number)
{
    return a.number == number && a.kind == 0 && a.value_case == 0 && a.bits == 0;
}

static void long_messages(void)
{
    size_t over = TANKLEFROST_LIMIT + 1;
    struct lent l = lend(NULL, over, 1);
    uint64_t a;
    memset(l.bytes, 'N', over);
    CHECK(tanklefrost_number_and_place(l.bytes, over) == TANKLEFROST_MESSAGE_TOO_LONG);
    CHECK(tanklefrost_rows_needed(l.bytes, over) == TANKLEFROST_MESSAGE_TOO_LONG);
    CHECK(tanklefrost_slot(l.bytes, over, 0, 0, 0) == TANKLEFROST_MESSAGE_TOO_LONG);
    a = tanklefrost_number_and_place(l.bytes + 1, over - 1);
    CHECK(tanklefrost_answer_number(a) == TANKLEFROST_ENDS_TOO_EARLY && tanklefrost_answer_place(a) == TANKLEFROST_LIMIT);
    CHECK(tanklefrost_slot(l.bytes + 1, over - 1, 0, 0, 0) == TANKLEFROST_ENDS_TOO_EARLY);
    memset(l.bytes, 'Z', over);
    l.bytes[1] = '[';
    l.bytes[over - 1] = ']';
    a = tanklefrost_rows_needed(l.bytes + 1, over - 1);
    CHECK(tanklefrost_answer_number(a) == 0 && tanklefrost_answer_place(a) == 0 && tanklefrost_answer_rows(a) == TANKLEFROST_LIMIT - 1);
    CHECK(tanklefrost_slot(l.bytes + 1, over - 1, 0, 0, 0) == TANKLEFROST_NOT_THERE);
    take_back(l);
}

enum { FOUR_ROWS = 4 * TANKLEFROST_ROW_WORDS };

static void high_numbers(void)
{
    static const uint8_t table[] = {'[', '$', '{', 'U', 1, 'a', 'U', '}', '#', 'U', 2, 5, 6};
    static const uint8_t array[] = {'[', '$', 'U', '#', 'U', 2, 5, 6};
    uint32_t rows[FOUR_ROWS];
    size_t zero = 0, most = SIZE_MAX;
    struct tanklefrost_member m;

    CHECK(tanklefrost_slot(table, sizeof table, SIZE_MAX, 0, 0) == TANKLEFROST_NOT_THERE);
    CHECK(tanklefrost_slot(table, sizeof table, 0, SIZE_MAX, 0) == TANKLEFROST_NOT_THERE);
    CHECK(tanklefrost_slot(table, sizeof table, 0, 0, SIZE_MAX) == TANKLEFROST_NOT_THERE);
    CHECK(tanklefrost_read(TANKLEFROST_NEW_EDITION, table, sizeof table, rows, FOUR_ROWS).number == 0);
    CHECK(is_place(tanklefrost_table_slot(rows, FOUR_ROWS, sizeof table, 0, 3, &zero, 1), 0, 11, 1));
    CHECK(is_place(tanklefrost_table_slot(rows, FOUR_ROWS, sizeof table, SIZE_MAX, 3, &zero, 1), TANKLEFROST_ROWS_DONT_FIT, 0, 0));
    CHECK(is_place(tanklefrost_table_slot(rows, FOUR_ROWS, sizeof table, 0, SIZE_MAX, &zero, 1), TANKLEFROST_ROWS_DONT_FIT, 0, 0));
    CHECK(is_place(tanklefrost_table_slot(rows, FOUR_ROWS, sizeof table, 0, 3, &most, 1), TANKLEFROST_NOT_THERE, 0, 0));
    CHECK(is_refused(tanklefrost_value_in_table(table, sizeof table, rows, FOUR_ROWS, 0, 3, &most, 1), TANKLEFROST_NOT_THERE));
    CHECK(is_refused(tanklefrost_value_in_table(table, sizeof table, rows, FOUR_ROWS, 0, SIZE_MAX, &zero, 1), TANKLEFROST_ROWS_DONT_FIT));
    CHECK(is_place(tanklefrost_text_in_table(table, sizeof table, rows, FOUR_ROWS, 0, 3, &zero, 1), TANKLEFROST_ROWS_DONT_FIT, 0, 0));
    CHECK(is_place(tanklefrost_text_at_row(table, sizeof table, rows, FOUR_ROWS, SIZE_MAX), TANKLEFROST_ROWS_DONT_FIT, 0, 0));
    CHECK(is_refused(tanklefrost_value_at_row(table, sizeof table, rows, FOUR_ROWS, SIZE_MAX), TANKLEFROST_ROWS_DONT_FIT));
    m = tanklefrost_lookup(table, sizeof table, rows, FOUR_ROWS, SIZE_MAX, (const uint8_t *)"a", 1);
    CHECK(m.number == TANKLEFROST_ROWS_DONT_FIT && m.row == 0);
    CHECK(tanklefrost_read(TANKLEFROST_NEW_EDITION, array, sizeof array, rows, FOUR_ROWS).number == 0);
    CHECK(is_place(tanklefrost_packed_slot(rows, FOUR_ROWS, sizeof array, 0, &most, 1), TANKLEFROST_NOT_THERE, 0, 0));
    CHECK(is_place(tanklefrost_packed_slot(rows, FOUR_ROWS, 0, 0, &zero, 1), TANKLEFROST_ROWS_DONT_FIT, 0, 0));
    CHECK(is_place(tanklefrost_packed_slot(rows, FOUR_ROWS, UINT32_MAX, 0, &zero, 1), 0, 6, 1));
}

static uint64_t state = 88172645463325252u;

static uint32_t chance(uint32_t below)
{
    state ^= state << 13;
    state ^= state >> 7;
    state ^= state << 17;
    return (uint32_t)(state >> 32) % below;
}

/* How many of the calls on made-up rows answered a slot of a table. */
static size_t in_tables;

/* A refusal is 10 or 12 and beside it stands nothing; what is answered lies in the message. */
static void fits(struct tanklefrost_place a, size_t length)
{
    CHECK(a.number == 0 || a.number == TANKLEFROST_NOT_THERE || a.number == TANKLEFROST_ROWS_DONT_FIT);
    CHECK(a.number == 0 ? a.first <= length && a.width <= length - a.first : a.first == 0 && a.width == 0);
}

/* The rows of a table, with up to three words changed. */
static void changed_rows(uint8_t *bytes, uint32_t *words, size_t row_words)
{
    static const uint8_t table[] = {'[', '$', '{', 'U', 1, 'a', 'U', 'U', 1, 'b', 'S', 'U', 2, '}', '#', 'U', 2, 5, 'x', 'y', 6, 'z', 'w'};
    size_t i, changes = chance(4);
    memcpy(bytes, table, sizeof table);
    CHECK(tanklefrost_read(TANKLEFROST_NEW_EDITION, table, sizeof table, words, row_words).number == 0);
    for (i = 0; i < changes; i++) {
        words[chance((uint32_t)row_words)] = chance(2) == 0 ? chance(70) : UINT32_MAX - chance(3);
    }
}

static void made_up(int at_end)
{
    static const uint32_t marks[] = {'[', '{', 'S', 'U', 'I', 'T', 'Z', 'H', 'd', 'C', 'E'};
    uint8_t bytes[64];
    uint32_t words[8 * TANKLEFROST_ROW_WORDS];
    size_t indexes[2], i, count = chance(3), row = chance(9), leaf = chance(9);
    struct lent l, r, x;
    struct tanklefrost_member m;
    struct tanklefrost_place p;

    for (i = 0; i < sizeof bytes; i++) {
        bytes[i] = (uint8_t)chance(256);
    }
    for (i = 0; i < sizeof words / sizeof *words; i++) {
        size_t word = i % TANKLEFROST_ROW_WORDS, own = i / TANKLEFROST_ROW_WORDS;
        words[i] = chance(20) == 0 ? UINT32_MAX - chance(3)
            : word == TANKLEFROST_WORD_KIND   ? 1 + chance(13)
            : word == TANKLEFROST_WORD_MARK   ? marks[chance(11)]
            : word == TANKLEFROST_WORD_LINK   ? (uint32_t)own + chance(4)
            : word == TANKLEFROST_WORD_ORDER  ? chance(3)
            : word == TANKLEFROST_WORD_PARENT ? chance((uint32_t)own + 1)
                                              : chance(70);
    }
    for (i = 0; i < 2; i++) {
        indexes[i] = chance(3);
    }
    if (chance(2) == 0) {
        changed_rows(bytes, words, sizeof words / sizeof *words);
        count = 1;
        row = 0;
        leaf = 3 + 2 * chance(2);
    }
    l = lend(bytes, chance(65), at_end);
    r = lend(words, sizeof words, at_end);
    x = lend(indexes, count * sizeof *indexes, at_end);
    fits(tanklefrost_packed_slot((uint32_t *)r.bytes, r.size / 4, (uint32_t)l.size, row, (size_t *)x.bytes, count), l.size);
    p = tanklefrost_table_slot((uint32_t *)r.bytes, r.size / 4, (uint32_t)l.size, row, leaf, (size_t *)x.bytes, count);
    fits(p, l.size);
    in_tables += p.number == 0;
    fits(tanklefrost_text_at_row(l.bytes, l.size, (uint32_t *)r.bytes, r.size / 4, row), l.size);
    fits(tanklefrost_text_in_table(l.bytes, l.size, (uint32_t *)r.bytes, r.size / 4, row, leaf, (size_t *)x.bytes, count), l.size);
    m = tanklefrost_lookup(l.bytes, l.size, (uint32_t *)r.bytes, r.size / 4, row, l.bytes, l.size / 16);
    CHECK(m.number == 0 ? m.row < 8 : m.row == 0 && (m.number == TANKLEFROST_NOT_THERE || m.number == TANKLEFROST_ROWS_DONT_FIT));
    for (i = 0; i < 3; i++) {
        struct tanklefrost_scalar v =
            i == 0 ? tanklefrost_value_at_row(l.bytes, l.size, (uint32_t *)r.bytes, r.size / 4, row)
            : i == 1 ? tanklefrost_value_in_packed(l.bytes, l.size, (uint32_t *)r.bytes, r.size / 4, row, (size_t *)x.bytes, count)
                     : tanklefrost_value_in_table(l.bytes, l.size, (uint32_t *)r.bytes, r.size / 4, row, leaf, (size_t *)x.bytes, count);
        CHECK(v.number == 0 ? v.kind == (i == 0 ? 1u : i == 1 ? 7u : 9u) && v.value_case <= TANKLEFROST_BYTE
                            : is_refused(v, TANKLEFROST_NOT_THERE) || is_refused(v, TANKLEFROST_ROWS_DONT_FIT));
    }
    take_back(x);
    take_back(r);
    take_back(l);
}

int main(void)
{
    int i;
    long_messages();
    high_numbers();
    for (i = 0; i < 5000; i++) {
        made_up(i % 2);
    }
    CHECK(in_tables >= 500 && in_tables <= 2500);
    return report("extremes");
}
