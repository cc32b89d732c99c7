/* The calls over rows on the lines of crates/calls. */
#include "lent.h"
#include "tanklefrost.h"

static struct lent l, r, x, n;
static size_t row, leaf;

/* The answer as the program calls writes it. */
static void place(char *into, size_t room, struct tanklefrost_place a)
{
    snprintf(into, room, "%u %zu %zu\n", (unsigned)a.number, a.first, a.width);
}

static void scalar(char *into, size_t room, struct tanklefrost_scalar a)
{
    static const char *const names[] = {"null", "boolean", "signed", "unsigned", "single", "double", "char", "byte"};
    if (a.value_case == TANKLEFROST_SIGNED) {
        snprintf(into, room, "%u %u signed %lld\n", (unsigned)a.number, (unsigned)a.kind, (long long)tanklefrost_signed(a.bits));
        return;
    }
    snprintf(into, room, "%u %u %s %llu\n", (unsigned)a.number, (unsigned)a.kind, a.value_case < 8 ? names[a.value_case] : "?",
             (unsigned long long)a.bits);
}

static void ask(const char *call, char *into, size_t room)
{
    const uint8_t *message = l.bytes;
    const uint32_t *rows = (uint32_t *)r.bytes;
    const size_t *indexes = (size_t *)x.bytes;
    size_t words = r.size / sizeof *rows, count = x.size / sizeof *indexes;

    if (strcmp(call, "packed_slot") == 0) {
        place(into, room, tanklefrost_packed_slot(rows, words, (uint32_t)l.size, row, indexes, count));
    } else if (strcmp(call, "table_slot") == 0) {
        place(into, room, tanklefrost_table_slot(rows, words, (uint32_t)l.size, row, leaf, indexes, count));
    } else if (strcmp(call, "value_at_row") == 0) {
        scalar(into, room, tanklefrost_value_at_row(message, l.size, rows, words, row));
    } else if (strcmp(call, "value_in_packed") == 0) {
        scalar(into, room, tanklefrost_value_in_packed(message, l.size, rows, words, row, indexes, count));
    } else if (strcmp(call, "value_in_table") == 0) {
        scalar(into, room, tanklefrost_value_in_table(message, l.size, rows, words, row, leaf, indexes, count));
    } else if (strcmp(call, "text_at_row") == 0) {
        place(into, room, tanklefrost_text_at_row(message, l.size, rows, words, row));
    } else if (strcmp(call, "text_in_table") == 0) {
        place(into, room, tanklefrost_text_in_table(message, l.size, rows, words, row, leaf, indexes, count));
    } else {
        struct tanklefrost_member a = tanklefrost_lookup(message, l.size, rows, words, row, n.bytes, n.size);
        CHECK(strcmp(call, "lookup") == 0);
        snprintf(into, room, "%u %zu\n", (unsigned)a.number, a.row);
    }
}

int main(void)
{
    static char line[1 << 20], expected[1 << 12], answer[1 << 12];
    static uint64_t list[1 << 16];
    static uint32_t rows[1 << 16];
    struct bytes m = {NULL, 0, 0}, name = {NULL, 0, 0};
    FILE *in = file_of("crates/calls/stdin"), *out = file_of("crates/calls/stdout");
    size_t lines = 0;

    while (fgets(line, sizeof line, in) != NULL && fgets(expected, sizeof expected, out) != NULL) {
        char *rest = line, *call = word(&rest), *numeral;
        size_t words, indexes[64], count, i;
        int at_end;
        m.size = name.size = 0;
        put_hex(&m, word(&rest));
        words = numbers(word(&rest), list, 1 << 16);
        for (i = 0; i < words; i++) {
            rows[i] = (uint32_t)list[i];
        }
        numeral = word(&rest);
        row = strtoull(numeral, NULL, 10);
        numeral = word(&rest);
        leaf = *numeral == '-' ? 0 : strtoull(numeral, NULL, 10);
        count = numbers(word(&rest), list, 64);
        for (i = 0; i < count; i++) {
            indexes[i] = list[i];
        }
        put_hex(&name, word(&rest));
        for (at_end = 0; at_end < 2; at_end++) {
            l = lend(m.at, m.size, at_end);
            r = lend(rows, words * sizeof *rows, at_end);
            x = lend(indexes, count * sizeof *indexes, at_end);
            n = lend(name.at, name.size, at_end);
            ask(call, answer, sizeof answer);
            CHECK(strcmp(answer, expected) == 0);
            take_back(n);
            take_back(x);
            take_back(r);
            take_back(l);
        }
        lines++;
    }
    CHECK(lines > 3600 && feof(in));
    fclose(in);
    fclose(out);
    free(m.at);
    free(name.at);
    return report("rows");
}
