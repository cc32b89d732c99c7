/* Reading to rows on the lines of crates/vectors: number, place, rows used and every lent word. */
#include "lent.h"
#include "tanklefrost.h"

/* The answer as the program vectors writes it: of more than forty rows the first three. */
static void show(char *into, size_t room, struct tanklefrost_reading a, const uint32_t *rows)
{
    size_t n = (size_t)snprintf(into, room, "%u %zu %zu", (unsigned)a.number, a.place, a.amount), i;
    size_t shown = a.amount <= 40 ? a.amount : 3;
    for (i = 0; i < shown * TANKLEFROST_ROW_WORDS; i++) {
        const char *before = i == 0 ? " | " : i % TANKLEFROST_ROW_WORDS == 0 ? " / " : ",";
        n += (size_t)snprintf(into + n, room - n, "%s%u", before, (unsigned)rows[i]);
    }
    snprintf(into + n, room - n, "%s\n", shown < a.amount ? " / ..." : "");
}

/* By an edition, with so many rows lent and a remainder, which hold another word before. */
static void reads(uint32_t edition, const struct bytes *m, size_t lent_rows, size_t remainder, int at_end, const char *expected)
{
    static char answer[1 << 20];
    size_t words = lent_rows * TANKLEFROST_ROW_WORDS + remainder, i, left = 0;
    struct lent l = lend(m->at, m->size, at_end), rows = lend(NULL, words * sizeof(uint32_t), at_end);
    struct tanklefrost_reading a = tanklefrost_read(edition, l.bytes, l.size, (uint32_t *)rows.bytes, words);

    show(answer, sizeof answer, a, (uint32_t *)rows.bytes);
    CHECK(strcmp(answer, expected) == 0);
    for (i = a.amount * TANKLEFROST_ROW_WORDS; i < words; i++) {
        left += ((uint32_t *)rows.bytes)[i] != 0;
    }
    CHECK(left == 0);
    take_back(rows);
    take_back(l);
}

int main(void)
{
    static char line[1 << 20], expected[1 << 20];
    struct bytes m = {NULL, 0, 0};
    FILE *in = file_of("crates/vectors/stdin"), *out = file_of("crates/vectors/stdout");
    size_t lines = 0;

    while (fgets(line, sizeof line, in) != NULL && fgets(expected, sizeof expected, out) != NULL) {
        char *rest = line, *w;
        uint32_t edition = edition_of(word(&rest));
        size_t lent_rows = strtoul(word(&rest), NULL, 10);
        m.size = 0;
        while ((w = word(&rest)) != NULL) {
            put_hex(&m, w);
        }
        reads(edition, &m, lent_rows, lines % TANKLEFROST_ROW_WORDS, 0, expected);
        reads(edition, &m, lent_rows, (lines + 5) % TANKLEFROST_ROW_WORDS, 1, expected);
        lines++;
    }
    CHECK(lines > 5900 && feof(in));
    fclose(in);
    fclose(out);
    free(m.at);
    return report("read");
}
