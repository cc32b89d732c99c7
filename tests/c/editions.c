/* The edition that a call names: extensions by the old and the new, the messages of crates/vectors by both, and numbers that name none. */
#include "lent.h"
#include "tanklefrost.h"

enum { WORDS = 16 * TANKLEFROST_ROW_WORDS };

static struct bytes m;
static uint32_t rows[WORDS];

/* The old edition refuses the first `E`; the new one, with rows enough, and the panel's calls answer number, place and rows. */
static int answers(const char *hex, size_t first_e, uint32_t number, size_t place, size_t amount)
{
    struct tanklefrost_reading o, n;
    uint64_t a, needed;
    m.size = 0;
    put_hex(&m, hex);
    o = tanklefrost_read(TANKLEFROST_OLD_EDITION, m.at, m.size, rows, WORDS);
    n = tanklefrost_read(TANKLEFROST_NEW_EDITION, m.at, m.size, rows, WORDS);
    a = tanklefrost_number_and_place(m.at, m.size);
    needed = tanklefrost_rows_needed(m.at, m.size);
    return is_reading(o, TANKLEFROST_NOT_ALLOWED, first_e, 0) && is_reading(n, number, place, amount)
        && tanklefrost_answer_number(a) == number && tanklefrost_answer_place(a) == place
        && tanklefrost_answer_number(needed) == number && tanklefrost_answer_place(needed) == place
        && tanklefrost_answer_rows(needed) == amount;
}

static int has_row(size_t row, const uint32_t *expected)
{
    return memcmp(rows + row * TANKLEFROST_ROW_WORDS, expected, TANKLEFROST_ROW_WORDS * sizeof *rows) == 0;
}

/* Rewritten by the new edition, and refused by the old one. */
static int rewrites(const char *hex, const char *house)
{
    static uint8_t output[64];
    struct bytes h = {NULL, 0, 0};
    struct tanklefrost_reading o, n;
    int held;
    m.size = 0;
    put_hex(&m, hex);
    put_hex(&h, house);
    o = tanklefrost_rewrite(TANKLEFROST_OLD_EDITION, m.at, m.size, rows, WORDS, output, sizeof output);
    n = tanklefrost_rewrite(TANKLEFROST_NEW_EDITION, m.at, m.size, rows, WORDS, output, sizeof output);
    held = o.number == TANKLEFROST_NOT_ALLOWED && o.amount == 0 && is_reading(n, 0, 0, h.size) && memcmp(output, h.at, h.size) == 0;
    free(h.at);
    return held;
}

static void extensions(void)
{
    static const uint32_t opaque[] = {13, 69, 0, 5, 3, 200, 1, 0, 0, 0}, highest[] = {13, 69, 0, 8, 0, UINT32_MAX, 1, 0, 0, 0};
    static const uint32_t sized[] = {13, 69, 2, 11, 4, 1, 3, 0, 1, 1}, empty[] = {13, 69, 4, 9, 0, 0, 3, 0, 1, 1};
    struct tanklefrost_member found;

    /* payload, id and the id's mark, from the row */
    CHECK(answers("45 55C8 5503 616263", 0, 0, 0, 1) && has_row(0, opaque));
    CHECK(m.at[rows[2] + 1] == 'U' && memcmp(m.at + rows[3], "abc", rows[4]) == 0);
    CHECK(tanklefrost_value_at_row(m.at, m.size, rows, WORDS, 0).number == TANKLEFROST_ROWS_DONT_FIT);
    CHECK(tanklefrost_text_at_row(m.at, m.size, rows, WORDS, 0).number == TANKLEFROST_ROWS_DONT_FIT);

    /* the highest id, one more, and a negative one */
    CHECK(answers("45 6DFFFFFFFF 5500", 0, 0, 0, 1) && has_row(0, highest));
    CHECK(answers("45 4CFFFFFFFF00000000 5500", 0, 0, 0, 1) && rows[5] == UINT32_MAX);
    CHECK(answers("45 4C0000000001000000 5500", 0, TANKLEFROST_OVER_LIMIT, 1, 0));
    CHECK(answers("45 69FF 5500", 0, TANKLEFROST_WRONG_INTEGER, 1, 0));

    /* an id's size; another one, with no payload there; and what comes before that */
    CHECK(answers("5B 5A 45 6D01000000 490400 01020304 5D", 2, 0, 0, 3) && has_row(2, sized));
    CHECK(answers("5B 5A 45 6D01000000 490500", 2, TANKLEFROST_WRONG_CONTENT, 2, 0));
    CHECK(answers("45 5501 6D01001000", 0, TANKLEFROST_OVER_LIMIT, 3, 0));
    CHECK(answers("45 5501 69FF", 0, TANKLEFROST_WRONG_INTEGER, 3, 0));
    CHECK(answers("45 5501 5504 010203", 0, TANKLEFROST_ENDS_TOO_EARLY, 8, 0));

    /* a member of an object; and a mark that neither edition takes for a type */
    CHECK(answers("7B 550161 45 5500 5500 7D", 4, 0, 0, 3) && has_row(2, empty));
    found = tanklefrost_lookup(m.at, m.size, rows, WORDS, 0, (const uint8_t *)"a", 1);
    CHECK(found.number == 0 && found.row == 2);
    CHECK(answers("5B 2445 235500", 2, TANKLEFROST_NOT_ALLOWED, 2, 0));

    /* the id and its mark are kept, and the length gets the smallest mark */
    CHECK(rewrites("45 4C0500000000000000 4C0400000000000000 01020304", "45 4C0500000000000000 5504 01020304"));
    CHECK(rewrites("5B 4E 45 55C8 490200 6162 5D", "5B235501 45 55C8 5502 6162"));
}

/* The messages of crates/vectors by both editions: they answer the same and leave the same words, except where the old one refuses an `E`. */
static void stored_lines(void)
{
    static char line[1 << 20];
    FILE *in = file_of("crates/vectors/stdin");
    size_t alike = 0, others = 0;

    while (fgets(line, sizeof line, in) != NULL) {
        char *rest = line, *w = word(&rest);
        size_t words = strtoul(word(&rest), NULL, 10) * TANKLEFROST_ROW_WORDS;
        struct lent a = lend(NULL, words * sizeof(uint32_t), 1), b = lend(NULL, words * sizeof(uint32_t), 1);
        struct tanklefrost_reading o, n;
        m.size = 0;
        while ((w = word(&rest)) != NULL) {
            put_hex(&m, w);
        }
        o = tanklefrost_read(TANKLEFROST_OLD_EDITION, m.at, m.size, (uint32_t *)a.bytes, words);
        n = tanklefrost_read(TANKLEFROST_NEW_EDITION, m.at, m.size, (uint32_t *)b.bytes, words);
        if (is_reading(n, o.number, o.place, o.amount)) {
            CHECK(words == 0 || memcmp(a.bytes, b.bytes, a.size) == 0);
            alike++;
        } else {
            CHECK(o.number == TANKLEFROST_NOT_ALLOWED && m.at[o.place] == 'E');
            others++;
        }
        take_back(b);
        take_back(a);
    }
    CHECK(alike > 4500 && others > 200);
    fclose(in);
}

/* Refused whatever the message is; all words and bytes that were lent are zero. */
static void no_edition(uint32_t edition, const uint8_t *message, size_t length, size_t words, size_t room, int at_end)
{
    struct lent r = lend(NULL, words * sizeof(uint32_t), at_end), output = lend(NULL, room, at_end);

    CHECK(is_reading(tanklefrost_read(edition, message, length, (uint32_t *)r.bytes, words), TANKLEFROST_ROWS_DONT_FIT, 0, 0));
    CHECK(left_over(&r, 0) == 0);
    memset(r.bytes, GUARD, r.size);
    CHECK(is_reading(
        tanklefrost_rewrite(edition, message, length, (uint32_t *)r.bytes, words, output.bytes, room), TANKLEFROST_ROWS_DONT_FIT, 0, 0));
    CHECK(left_over(&r, 0) == 0 && left_over(&output, 0) == 0);
    take_back(output);
    take_back(r);
}

static void other_numbers(void)
{
    static const uint32_t numbers[] = {0, 3, 4, 255, 256, 257, 258, 0x10001, 0x1000002, 0x80000001, UINT32_MAX - 1, UINT32_MAX};
    struct lent whole = lend("[]", 2, 1), over = lend(NULL, TANKLEFROST_LIMIT + 1, 1);
    size_t i, lengths;

    memset(over.bytes, 'N', over.size);
    for (i = 0; i < sizeof numbers / sizeof *numbers; i++) {
        for (lengths = 0; lengths < 20; lengths++) {
            int at_end = lengths % 2 == 0;
            no_edition(numbers[i], whole.bytes, 2, lengths, 20 - lengths, at_end);
            no_edition(numbers[i], NULL, 0, lengths * 9, lengths * 300, at_end);
            /* over the limit, and bytes that can't be read: the message isn't looked at */
            no_edition(numbers[i], over.bytes, over.size, lengths, lengths, at_end);
            no_edition(numbers[i], whole.map, PAGE, lengths, lengths, at_end);
        }
    }
    take_back(over);
    take_back(whole);
}

int main(void)
{
    extensions();
    stored_lines();
    other_numbers();
    free(m.at);
    return report("editions");
}
