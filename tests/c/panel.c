/* The panel's calls on tests/c/panel.txt: answers of another implementation, and what the calls with a row table answer. */
#include "lent.h"
#include "slot_by_rows.h"
#include "tanklefrost.h"

/* The three calls against the calls with a row table by the new edition, for the tables, leaves and records that are there and some that are not. */
static void against_rows(const uint8_t *message, size_t length, int at_end)
{
    uint64_t place = tanklefrost_number_and_place(message, length);
    uint64_t needed = tanklefrost_rows_needed(message, length);
    struct lent rows = lend(NULL, length * TANKLEFROST_ROW_WORDS * sizeof(uint32_t), at_end);
    struct tanklefrost_reading read =
        tanklefrost_read(TANKLEFROST_NEW_EDITION, message, length, (uint32_t *)rows.bytes, length * TANKLEFROST_ROW_WORDS);
    size_t table, leaf, record;

    CHECK(tanklefrost_answer_number(place) == read.number);
    CHECK(tanklefrost_answer_place(place) == read.place);
    CHECK(place >> 32 == 0);
    CHECK(tanklefrost_answer_number(needed) == read.number);
    CHECK(tanklefrost_answer_place(needed) == read.place);
    CHECK(tanklefrost_answer_rows(needed) == read.amount);
    for (table = 0; table < 3; table++) {
        for (leaf = 0; leaf < 7; leaf++) {
            for (record = 0; record < 5; record++) {
                uint64_t slot = tanklefrost_slot(message, length, table, leaf, record);
                CHECK(slot == slot_by_rows(message, length, table, leaf, record));
            }
        }
    }
    take_back(rows);
}

int main(void)
{
    static char line[1 << 16];
    struct bytes m = {NULL, 0, 0};
    FILE *f = file_of("tests/c/panel.txt");
    unsigned long lines = 0;

    while (fgets(line, sizeof line, f) != NULL) {
        char *rest = line, *call = word(&rest);
        uint64_t n[6] = {0, 0, 0, 0, 0, 0};
        size_t i;
        int at_end;
        if (call == NULL || call[0] == '#') {
            continue;
        }
        m.size = 0;
        put_hex(&m, word(&rest));
        for (i = 0; i < 6; i++) {
            char *w = word(&rest);
            n[i] = w == NULL ? 0 : strtoull(w, NULL, 10);
        }
        for (at_end = 0; at_end < 2; at_end++) {
            struct lent l = lend(m.at, m.size, at_end);
            if (strcmp(call, "number") == 0) {
                uint64_t a = tanklefrost_number_and_place(l.bytes, l.size);
                CHECK(tanklefrost_answer_number(a) == n[0]);
                CHECK(tanklefrost_answer_place(a) == n[1]);
            } else if (strcmp(call, "rows") == 0) {
                uint64_t a = tanklefrost_rows_needed(l.bytes, l.size);
                CHECK(tanklefrost_answer_number(a) == n[0]);
                CHECK(tanklefrost_answer_rows(a) == n[1]);
            } else {
                uint64_t a = tanklefrost_slot(l.bytes, l.size, n[0], n[1], n[2]);
                CHECK(strcmp(call, "slot") == 0);
                CHECK(tanklefrost_answer_number(a) == n[3]);
                CHECK(tanklefrost_answer_first(a) == n[4]);
                CHECK(tanklefrost_answer_width(a) == n[5]);
            }
            against_rows(l.bytes, l.size, at_end);
            take_back(l);
        }
        lines++;
    }
    CHECK(lines == LINES);
    fclose(f);
    free(m.at);
    return report("panel");
}
