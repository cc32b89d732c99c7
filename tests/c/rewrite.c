/* Rewriting to house form: an example of document 01, no room, the lines of crates/house, and every accepted message of
 * tests/c/panel.txt rewritten twice, which changes nothing the second time. */
#include "lent.h"
#include "tanklefrost.h"

/* By an edition, with so many rows and bytes of room lent: the answer, the rows as the reader leaves them, and zeros after what was written. */
static struct tanklefrost_reading rewrite_in(
    uint32_t edition, const uint8_t *message, size_t length, size_t lent_rows, size_t output_room, int at_end, uint8_t *written)
{
    size_t words = lent_rows * TANKLEFROST_ROW_WORDS;
    struct lent l = lend(message, length, at_end), rows = lend(NULL, words * sizeof(uint32_t), at_end), output = lend(NULL, output_room, at_end);
    struct lent same = lend(NULL, words * sizeof(uint32_t), at_end);
    struct tanklefrost_reading a = tanklefrost_rewrite(edition, l.bytes, l.size, (uint32_t *)rows.bytes, words, output.bytes, output.size);
    struct tanklefrost_reading r = tanklefrost_read(edition, l.bytes, l.size, (uint32_t *)same.bytes, words);

    CHECK(a.number == (r.number != 0 ? r.number : a.number == 0 ? 0 : TANKLEFROST_OUTPUT_TOO_LONG));
    CHECK(a.place == (a.number == r.number ? r.place : 0));
    CHECK(a.amount <= output.size && (a.number == 0 || a.amount == 0));
    CHECK(left_over(&output, a.amount) == 0);
    if (a.number == 0) {
        CHECK(rows.size == 0 || memcmp(rows.bytes, same.bytes, rows.size) == 0);
    } else {
        CHECK(left_over(&rows, 0) == 0);
    }
    if (a.amount != 0) {
        memcpy(written, output.bytes, a.amount);
    }
    take_back(same);
    take_back(output);
    take_back(rows);
    take_back(l);
    return a;
}

/* By the new edition, with rows enough. */
static struct tanklefrost_reading rewrite(const uint8_t *message, size_t length, size_t output_room, int at_end, uint8_t *written)
{
    return rewrite_in(TANKLEFROST_NEW_EDITION, message, length, length, output_room, at_end, written);
}

/* The lines of crates/house: number, place, bytes written, and the house form. */
static void stored_lines(void)
{
    static char line[1 << 20], expected[1 << 20];
    static uint8_t written[TANKLEFROST_LIMIT];
    struct bytes m = {NULL, 0, 0}, house = {NULL, 0, 0};
    FILE *in = file_of("crates/house/stdin"), *out = file_of("crates/house/stdout");
    size_t lines = 0;

    while (fgets(line, sizeof line, in) != NULL && fgets(expected, sizeof expected, out) != NULL) {
        char *rest = line, *answer = expected, *w;
        uint32_t edition = edition_of(word(&rest));
        size_t lent_rows = strtoul(word(&rest), NULL, 10), room = strtoul(word(&rest), NULL, 10);
        uint32_t number = (uint32_t)strtoul(word(&answer), NULL, 10);
        size_t place = strtoul(word(&answer), NULL, 10), amount = strtoul(word(&answer), NULL, 10);
        struct tanklefrost_reading a;
        m.size = 0;
        house.size = 0;
        while ((w = word(&rest)) != NULL) {
            put_hex(&m, w);
        }
        while ((w = word(&answer)) != NULL) {
            put_hex(&house, w);
        }
        a = rewrite_in(edition, m.at, m.size, lent_rows, room, lines % 2 == 0, written);
        CHECK(a.number == number && a.place == place && a.amount == amount && house.size == amount);
        CHECK(a.amount == 0 || (house.size == a.amount && memcmp(written, house.at, a.amount) == 0));
        lines++;
    }
    CHECK(lines > 2700 && feof(in));
    fclose(in);
    fclose(out);
    free(m.at);
    free(house.at);
}

int main(void)
{
    static char line[1 << 16];
    static uint8_t once[1 << 16], twice[1 << 16];
    static const uint8_t house[] = {'[', '#', 'U', 0};
    struct bytes m = {NULL, 0, 0};
    struct tanklefrost_reading a;
    FILE *f = file_of("tests/c/panel.txt");
    int at_end = 0;

    a = rewrite((const uint8_t *)"[]", 2, 4, 1, once);
    CHECK(a.number == 0 && a.place == 0 && a.amount == 4 && memcmp(once, house, 4) == 0);
    a = rewrite((const uint8_t *)"[]", 2, 3, 1, once);
    CHECK(a.number == TANKLEFROST_OUTPUT_TOO_LONG && a.place == 0 && a.amount == 0);
    stored_lines();

    while (fgets(line, sizeof line, f) != NULL) {
        char *rest = line, *call = word(&rest);
        if (call == NULL || call[0] == '#') {
            continue;
        }
        m.size = 0;
        put_hex(&m, word(&rest));
        at_end = !at_end;
        a = rewrite(m.at, m.size, 4 * m.size + 16, at_end, once);
        CHECK(a.number != TANKLEFROST_OUTPUT_TOO_LONG);
        if (a.number == 0) {
            struct tanklefrost_reading again = rewrite(once, a.amount, a.amount, at_end, twice);
            CHECK(again.number == 0 && again.amount == a.amount && memcmp(once, twice, a.amount) == 0);
            CHECK(rewrite(m.at, m.size, a.amount - 1, at_end, twice).number == TANKLEFROST_OUTPUT_TOO_LONG);
        }
    }
    fclose(f);
    free(m.at);
    return report("rewrite");
}
