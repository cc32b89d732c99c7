/* The checked examples of document 01, by both editions, and the records whose size it gives. */
#include "lent.h"
#include "tanklefrost.h"

static struct bytes m;
static uint32_t rows[64 * TANKLEFROST_ROW_WORDS];

static void message(const char *hex)
{
    m.size = 0;
    put_hex(&m, hex);
}

static uint32_t row_word(size_t row, size_t k)
{
    return rows[row * TANKLEFROST_ROW_WORDS + k];
}

/* Number and place, by the panel's calls and by reading with rows enough. */
static int answers(const char *hex, uint32_t number, size_t place)
{
    uint64_t a;
    struct tanklefrost_reading o, r;
    message(hex);
    a = tanklefrost_number_and_place(m.at, m.size);
    o = tanklefrost_read(TANKLEFROST_OLD_EDITION, m.at, m.size, rows, sizeof rows / sizeof *rows);
    r = tanklefrost_read(TANKLEFROST_NEW_EDITION, m.at, m.size, rows, sizeof rows / sizeof *rows);
    return tanklefrost_answer_number(a) == number && tanklefrost_answer_place(a) == place && r.number == number && r.place == place
        && o.number == number && o.place == place;
}

/* The first rows are these. */
static int has_rows_by(uint32_t edition, const uint32_t *expected, size_t count)
{
    uint64_t a = tanklefrost_rows_needed(m.at, m.size);
    struct tanklefrost_reading r = tanklefrost_read(edition, m.at, m.size, rows, sizeof rows / sizeof *rows);
    return r.number == 0 && r.amount == count && tanklefrost_answer_number(a) == 0 && tanklefrost_answer_rows(a) == count
        && memcmp(rows, expected, count * TANKLEFROST_ROW_WORDS * sizeof *rows) == 0;
}

static int has_rows(const uint32_t *expected, size_t count)
{
    return has_rows_by(TANKLEFROST_OLD_EDITION, expected, count) && has_rows_by(TANKLEFROST_NEW_EDITION, expected, count);
}

/* The slot at (1,0) of the packed array, and its value. */
static int at_one_zero(const char *hex, size_t first, uint64_t value)
{
    size_t indexes[2] = {1, 0};
    struct tanklefrost_place p;
    struct tanklefrost_scalar v;
    if (!answers(hex, 0, 0)) {
        return 0;
    }
    p = tanklefrost_packed_slot(rows, sizeof rows / sizeof *rows, (uint32_t)m.size, 0, indexes, 2);
    v = tanklefrost_value_in_packed(m.at, m.size, rows, sizeof rows / sizeof *rows, 0, indexes, 2);
    return p.number == 0 && p.first == first && p.width == 1 && v.number == 0 && v.kind == 7 && v.value_case == TANKLEFROST_UNSIGNED
        && v.bits == value;
}

static int single_of(const char *hex, uint64_t bits)
{
    struct tanklefrost_scalar v;
    if (!answers(hex, 0, 0)) {
        return 0;
    }
    v = tanklefrost_value_at_row(m.at, m.size, rows, sizeof rows / sizeof *rows, 0);
    return v.number == 0 && v.kind == 1 && v.value_case == TANKLEFROST_SINGLE && v.bits == bits;
}

/* The record of x, y (`d` or `D`), id `m`, active `T`: its leaves' rows, and the bits that record r has for each. */
enum { PARTICLES = 3, X_ROW = 3, ID = 2, ACTIVE = 3, PARTICLE_LEAVES = 4 };

static uint64_t particle(char mark, size_t leaf, size_t r)
{
    static const uint32_t singles[2][PARTICLES] = {{0x3F000000, 0x3FC00000, 0x40200000}, {0xBE800000, 0xBFA00000, 0xC0100000}};
    static const uint64_t doubles[2][PARTICLES] = {
        {0x3FE0000000000000, 0x3FF8000000000000, 0x4004000000000000}, {0xBFD0000000000000, 0xBFF4000000000000, 0xC002000000000000}};
    if (leaf == ID) {
        return 0x01020304 * (r + 1);
    }
    if (leaf == ACTIVE) {
        return r % 2;
    }
    return mark == 'd' ? singles[leaf][r] : doubles[leaf][r];
}

static void put_particle(char mark, size_t leaf, size_t r, size_t width)
{
    uint64_t bits = particle(mark, leaf, r);
    if (leaf == ACTIVE) {
        bits = bits == 1 ? 'T' : 'F';
    }
    for (; width != 0; width--, bits >>= 8) {
        put_byte(&m, (unsigned char)bits);
    }
}

/* Three such records, by rows (`[`) or by columns (`{`). */
static void particles(char opening, char mark, const size_t *widths)
{
    char head[64];
    size_t i, leaf, r;
    m.size = 0;
    snprintf(head, sizeof head, "%c${U\001x%cU\001y%cU\002idmU\006activeT}#U\003", opening, mark, mark);
    for (i = 0; head[i] != 0; i++) {
        put_byte(&m, (unsigned char)head[i]);
    }
    for (i = 0; i < PARTICLES * PARTICLE_LEAVES; i++) {
        leaf = opening == '[' ? i % PARTICLE_LEAVES : i / PARTICLES;
        r = opening == '[' ? i / PARTICLE_LEAVES : i % PARTICLES;
        put_particle(mark, leaf, r, widths[leaf]);
    }
}

/* Their slots by both calls, P + rR + o by rows and P + Nf + rw + (o - f) by columns, and the values there. */
static void particle_slots(char opening, char mark, const size_t *widths, size_t size)
{
    uint32_t x_case = mark == 'd' ? TANKLEFROST_SINGLE : TANKLEFROST_DOUBLE;
    uint32_t cases[PARTICLE_LEAVES] = {x_case, x_case, TANKLEFROST_UNSIGNED, TANKLEFROST_BOOLEAN};
    size_t words = sizeof rows / sizeof *rows, begin = rows[3], offset = 0, leaf, r;
    for (leaf = 0; leaf < PARTICLE_LEAVES; leaf++) {
        size_t row = X_ROW + 2 * leaf;
        CHECK(row_word(row, TANKLEFROST_WORD_KIND) == 9 && row_word(row, TANKLEFROST_WORD_PAYLOAD) == offset
            && row_word(row, TANKLEFROST_WORD_LENGTH) == widths[leaf]);
        for (r = 0; r < PARTICLES; r++) {
            size_t first = begin + (opening == '[' ? r * size + offset : PARTICLES * offset + r * widths[leaf]);
            struct tanklefrost_place p = tanklefrost_table_slot(rows, words, (uint32_t)m.size, 0, row, &r, 1);
            struct tanklefrost_scalar v = tanklefrost_value_in_table(m.at, m.size, rows, words, 0, row, &r, 1);
            uint64_t slot = tanklefrost_slot(m.at, m.size, 0, leaf, r);
            CHECK(p.number == 0 && p.first == first && p.width == widths[leaf]);
            CHECK(slot == ((uint64_t)widths[leaf] << 32 | (uint64_t)first << 8));
            CHECK(v.number == 0 && v.kind == 9 && v.value_case == cases[leaf] && v.bits == particle(mark, leaf, r));
        }
        offset += widths[leaf];
    }
    CHECK(offset == size);
}

/* "a record of x `d`, y `d`, id `m`, active `T` is 13 bytes, and 21 with `D`", in both layouts and by both editions; one byte less or
 * more than so many records is refused. */
static void records_of_13_and_21(void)
{
    static const char openings[2] = {'[', '{'}, marks[2] = {'d', 'D'};
    static const size_t sizes[2] = {13, 21};
    uint32_t edition;
    size_t i;
    for (i = 0; i < 8; i++) {
        char opening = openings[i % 2], mark = marks[i / 2 % 2];
        size_t size = sizes[i / 2 % 2], x_width = mark == 'd' ? 4 : 8, widths[PARTICLE_LEAVES] = {x_width, x_width, 4, 1};
        edition = i < 4 ? TANKLEFROST_OLD_EDITION : TANKLEFROST_NEW_EDITION;
        particles(opening, mark, widths);
        CHECK(is_reading(tanklefrost_read(edition, m.at, m.size, rows, sizeof rows / sizeof *rows), 0, 0, 10));
        CHECK(rows[1] == (uint32_t)opening && rows[4] == PARTICLES * size && rows[3] + rows[4] == m.size && rows[5] == PARTICLES);
        CHECK(row_word(1, TANKLEFROST_WORD_KIND) == 10 && row_word(1, TANKLEFROST_WORD_LENGTH) == size && row_word(1, TANKLEFROST_WORD_COUNT) == PARTICLE_LEAVES);
        particle_slots(opening, mark, widths, size);
        CHECK(tanklefrost_slot(m.at, m.size - 1, 0, 0, 0) == TANKLEFROST_ENDS_TOO_EARLY);
        put_byte(&m, 0);
        CHECK(tanklefrost_slot(m.at, m.size, 0, 0, 0) == TANKLEFROST_BYTES_AFTER);
    }
}

/* Of example 12's rows, with each parent and each depth changed in turn: a slot is refused with 12 where a row on the way to its leaf names
 * another parent, but for the table's row, which is named, and those after the leaf; a depth is never asked; lookup asks neither, nor does the text at a row. */
static void parents_asked(void)
{
    size_t words = sizeof rows / sizeof *rows, row, leaf, zero = 0;
    for (row = 0; row < 6; row++) {
        uint32_t *parent = &rows[row * TANKLEFROST_ROW_WORDS + TANKLEFROST_WORD_PARENT], *depth = parent + 1, own = *parent, changed;
        for (changed = 0; changed < 8; changed++) {
            *parent = changed;
            for (leaf = 3; leaf < 6; leaf += 2) {
                struct tanklefrost_place p = tanklefrost_table_slot(rows, words, (uint32_t)m.size, 0, leaf, &zero, 1);
                struct tanklefrost_scalar v = tanklefrost_value_in_table(m.at, m.size, rows, words, 0, leaf, &zero, 1);
                int followed = changed == own || row == 0 || leaf < row;
                CHECK(p.number == (followed ? 0 : TANKLEFROST_ROWS_DONT_FIT) && v.number == p.number && p.width == (followed ? 1u : 0u));
            }
            CHECK(tanklefrost_lookup(m.at, m.size, rows, words, 1, (const uint8_t *)"b", 1).row == 5);
            CHECK(tanklefrost_text_at_row(m.at, m.size, rows, words, 4).number == 0);
        }
        *parent = own;
        *depth += 3;
        CHECK(tanklefrost_table_slot(rows, words, (uint32_t)m.size, 0, 5, &zero, 1).number == 0);
        CHECK(tanklefrost_lookup(m.at, m.size, rows, words, 1, (const uint8_t *)"b", 1).row == 5);
        *depth -= 3;
    }
}

int main(void)
{
    static const uint32_t null_row[] = {1, 90, 0, 1, 0, 0, 1, 0, 0, 0};
    static const uint32_t table_rows[] = {
        8, 91, 0, 15, 4, 2, 6, 0, 0, 0, 10, 123, 2, 0, 2, 2, 6, 0, 1, 1, 4, 83, 3, 5, 1, 0, 3, 0, 2, 2,
        9, 85, 6, 0, 1, 0, 4, 0, 2, 2,  4, 83, 7, 9, 1, 0, 5, 0, 2, 2,   9, 84, 10, 1, 1, 0, 6, 0, 2, 2};
    size_t one = 1;
    struct tanklefrost_place p;
    struct tanklefrost_scalar v;
    struct tanklefrost_member n;
    uint64_t slot;

    CHECK(answers("-", 2, 0));
    CHECK(answers("5A", 0, 0) && has_rows(null_row, 1));
    CHECK(answers("4E4E", 2, 2));
    CHECK(answers("5A5A", 9, 1));
    CHECK(answers("5369FF", 6, 1));
    CHECK(answers("4380", 4, 1));
    CHECK(answers("5B24645D", 3, 3));
    CHECK(answers("5B*33", 7, 32));
    CHECK(answers("5B*32 5D*32", 0, 0));
    CHECK(at_one_zero("5B2455235B690269035D010203040506", 13, 4));
    CHECK(at_one_zero("5B2455235B5B690269035D5D010203040506", 13, 2));
    CHECK(answers("5B247B55016155550162547D23550205540646", 0, 0) && has_rows(table_rows, 6));
    parents_asked();

    /* record 1 of b, by rows and by columns; the leaf's name leads to its row */
    slot = tanklefrost_slot(m.at, m.size, 0, 1, 1);
    CHECK(tanklefrost_answer_number(slot) == 0 && tanklefrost_answer_first(slot) == 18 && tanklefrost_answer_width(slot) == 1);
    n = tanklefrost_lookup(m.at, m.size, rows, sizeof rows / sizeof *rows, 1, (const uint8_t *)"b", 1);
    CHECK(n.number == 0 && n.row == 5);
    v = tanklefrost_value_in_table(m.at, m.size, rows, sizeof rows / sizeof *rows, 0, n.row, &one, 1);
    CHECK(v.number == 0 && v.kind == 9 && v.value_case == TANKLEFROST_BOOLEAN && v.bits == 0);
    CHECK(answers("7B247B55016155550162547D23550205065446", 0, 0));
    p = tanklefrost_table_slot(rows, sizeof rows / sizeof *rows, (uint32_t)m.size, 0, 5, &one, 1);
    CHECK(p.number == 0 && p.first == 18 && p.width == 1);
    slot = tanklefrost_slot(m.at, m.size, 0, 1, 1);
    CHECK(tanklefrost_answer_number(slot) == 0 && tanklefrost_answer_first(slot) == 18 && tanklefrost_answer_width(slot) == 1);
    CHECK(tanklefrost_slot(m.at, m.size, 1, 0, 0) == TANKLEFROST_NOT_THERE);
    CHECK(tanklefrost_slot(m.at, m.size, 0, 2, 0) == TANKLEFROST_NOT_THERE);
    CHECK(tanklefrost_slot(m.at, m.size, 0, 0, 2) == TANKLEFROST_NOT_THERE);
    CHECK(tanklefrost_slot(m.at, m.size - 1, 0, 0, 0) == TANKLEFROST_ENDS_TOO_EARLY);

    /* half to single; signed numbers */
    CHECK(single_of("68007E", 0x7FC00000));
    CHECK(single_of("680100", 0x33800000));
    CHECK(single_of("68003C", 0x3F800000) && tanklefrost_single(0x3F800000) == 1.0f);
    CHECK(answers("6980", 0, 0));
    v = tanklefrost_value_at_row(m.at, m.size, rows, sizeof rows / sizeof *rows, 0);
    CHECK(v.number == 0 && v.value_case == TANKLEFROST_SIGNED && tanklefrost_signed(v.bits) == -128);
    CHECK(answers("4C0000000000000080", 0, 0));
    v = tanklefrost_value_at_row(m.at, m.size, rows, sizeof rows / sizeof *rows, 0);
    CHECK(v.number == 0 && v.value_case == TANKLEFROST_SIGNED && tanklefrost_signed(v.bits) == INT64_MIN);
    CHECK(answers("44000000000000F03F", 0, 0));
    v = tanklefrost_value_at_row(m.at, m.size, rows, sizeof rows / sizeof *rows, 0);
    CHECK(v.number == 0 && v.value_case == TANKLEFROST_DOUBLE && tanklefrost_double(v.bits) == 1.0);
    records_of_13_and_21();
    free(m.at);
    return report("examples");
}
