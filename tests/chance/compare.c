/* Runs the two readers on the same messages, which are made by chance and always the same, by both editions, and compares number, place,
 * rows used and every lent word; also those of the two editions, which may differ only where the old one refuses an `E`. Lists where
 * there is a difference, and what the messages were. */
#include "generate.h"
#include "second.h"
#include "shared.h"

/* How many messages are made without an argument. */
enum { MESSAGES = 500000 };

/* The words lent at most: those of a row to each byte of a message, and ten more. */
enum { MOST_WORDS = (GENERATE_ROOM + 1) * TANKLEFROST_ROW_WORDS };

/* What is compared, with its name in a listed difference. */
enum sort { BY_NEW, BY_OLD, EDITIONS, SORTS };
static const char *const sort_names[SORTS] = {"new edition", "old edition", "editions"};

/* What some row of a message may have beside a kind from 1 to 13: the orders, and a table by columns. */
enum { SLOWEST = 16, FASTEST = 17, COLUMNS = 18, TRAITS = 19 };

/* The numbers of answers that are counted apart; all others are counted together. */
enum { NUMBERS = 14 };

/* What is counted: the messages; those where a comparison finds a difference; the checksum of all answers and rows; of the old edition the
 * accepted messages, the refused ones, those refused at an `E`, and those of these that the new edition accepts; the new edition's answers
 * by number, and its accepted messages by what their rows have. */
static struct {
    uint64_t messages;
    uint64_t different[SORTS];
    uint64_t checksum;
    uint64_t old_accepted;
    uint64_t old_refused;
    uint64_t at_extension;
    uint64_t new_accepted;
    uint64_t by_number[NUMBERS + 1];
    uint64_t by_trait[TRAITS];
} counts;

/* A message, its number, and how many words are lent for its rows. */
struct question {
    uint64_t number;
    const uint8_t *message;
    size_t length;
    size_t words;
};

/* What a reader answers: the reading, and the words that it was lent. */
struct answer {
    struct tanklefrost_reading reading;
    const uint32_t *words;
};

/* What the first reader answers, over words that are not zero. */
static struct answer by_first(const struct question *q, uint32_t edition, uint32_t *words)
{
    fill_words(words, q->words, 0xAAAAAAAA);
    return (struct answer){tanklefrost_read(edition, q->message, q->length, words, q->words), words};
}

/* What the second reader answers, over other words. */
static struct answer by_second(const struct question *q, uint32_t edition, uint32_t *words)
{
    fill_words(words, q->words, 0x55555555);
    return (struct answer){second_read(edition, q->message, q->length, words, q->words), words};
}

/* ---- What is counted of answers */

/* A checksum with one number more. */
static uint64_t mixed(uint64_t sum, uint64_t number)
{
    return ((sum << 7) ^ (sum >> 9)) + number;
}

/* Takes an answer and its rows into the checksum. */
static void mix(const struct question *q, struct answer a)
{
    size_t used = least(a.reading.amount, q->words / TANKLEFROST_ROW_WORDS) * TANKLEFROST_ROW_WORDS, i;
    uint64_t sum = mixed(mixed(mixed(counts.checksum, a.reading.number), a.reading.place), a.reading.amount);
    for (i = 0; i < used; i++) {
        sum = mixed(sum, a.words[i]);
    }
    counts.checksum = sum;
}

/* What a row has, as bits. */
static uint32_t row_traits(const uint32_t *row)
{
    uint32_t kind = row[TANKLEFROST_WORD_KIND], order = row[TANKLEFROST_WORD_ORDER];
    bool columns = kind == KIND_TABLE && row[TANKLEFROST_WORD_MARK] == '{';
    return UINT32_C(1) << kind % 32 | (uint32_t)(order == ORDER_LAST_FASTEST) << SLOWEST |
        (uint32_t)(order == ORDER_FIRST_FASTEST) << FASTEST | (uint32_t)columns << COLUMNS;
}

/* What some row has, as bits. */
static uint32_t traits(const struct question *q, struct answer a)
{
    size_t used = least(a.reading.amount, q->words / TANKLEFROST_ROW_WORDS), row;
    uint32_t bits = 0;
    for (row = 0; row < used; row++) {
        bits |= row_traits(a.words + row * TANKLEFROST_ROW_WORDS);
    }
    return bits;
}

/* Counts an accepted message under each thing that a row of it has. */
static void add_traits(uint32_t bits)
{
    int trait;
    for (trait = 1; trait < TRAITS; trait++) {
        counts.by_trait[trait] += bits >> trait & 1;
    }
}

/* Counts an answer by the old edition. */
static void add_old(const struct question *q, struct answer a)
{
    if (a.reading.number == TANKLEFROST_DONE) {
        counts.old_accepted++;
    } else {
        counts.old_refused++;
    }
    mix(q, a);
}

/* Counts an answer by the new edition. */
static void add_new(const struct question *q, struct answer a)
{
    counts.messages++;
    counts.by_number[least(a.reading.number, NUMBERS)]++;
    add_traits(traits(q, a));
    mix(q, a);
}

/* ---- What is compared */

/* Writes an answer. */
static void show_reading(struct tanklefrost_reading a)
{
    printf(" %" PRIu32 " at %zu, rows %zu;", a.number, a.place, a.amount);
}

/* Writes the bytes of a message, in hex. */
static void show_hex(const struct question *q)
{
    size_t i;
    for (i = 0; i < q->length; i++) {
        printf("%02x", q->message[i]);
    }
}

/* Lists a message for which two answers differ: what was compared, its number, the words lent, both answers, its bytes. */
static void show_different(const struct question *q, enum sort sort, struct answer a, struct answer b)
{
    printf("different, %s: message %" PRIu64 ", words %zu:", sort_names[sort], q->number, q->words);
    show_reading(a.reading);
    show_reading(b.reading);
    printf(" ");
    show_hex(q);
    printf("\n");
}

/* Compares two answers, and the words that go with them. */
static void compare(const struct question *q, enum sort sort, struct answer a, struct answer b)
{
    if (same_reading(a.reading, b.reading) && same_words(a.words, b.words, q->words)) {
        return;
    }
    counts.different[sort]++;
    show_different(q, sort, a, b);
}

/* Whether an answer refuses a byte of the message that is an `E`. */
static bool is_extension_refused(const struct question *q, struct tanklefrost_reading a)
{
    return a.number == TANKLEFROST_NOT_ALLOWED && a.place < q->length && q->message[a.place] == 'E';
}

/* Compares the answers of the two editions: only where the old one refuses an `E` may the new one answer otherwise. */
static void compare_editions(const struct question *q, struct answer by_old, struct answer by_new)
{
    if (!is_extension_refused(q, by_old.reading)) {
        compare(q, EDITIONS, by_old, by_new);
        return;
    }
    counts.at_extension++;
    if (by_new.reading.number == TANKLEFROST_DONE) {
        counts.new_accepted++;
    }
}

/* ---- The runs */

/* Reads a message by both editions with both readers, and compares. Its rows stand at the end of their memory, so that a sanitizer sees a
 * word too many. */
static void ask(const struct question *q)
{
    static uint32_t one[MOST_WORDS], other[MOST_WORDS];
    uint32_t *first = one + MOST_WORDS - q->words, *second = other + MOST_WORDS - q->words;
    struct answer by_old = by_first(q, TANKLEFROST_OLD_EDITION, first), by_new;

    add_old(q, by_old);
    compare(q, BY_OLD, by_old, by_second(q, TANKLEFROST_OLD_EDITION, second));
    by_new = by_first(q, TANKLEFROST_NEW_EDITION, second);
    add_new(q, by_new);
    compare_editions(q, by_old, by_new);
    compare(q, BY_NEW, by_new, by_second(q, TANKLEFROST_NEW_EDITION, first));
}

/* Makes a message, at the end of its memory as its rows are, and asks for it. */
static void ask_by_number(uint64_t number)
{
    static uint8_t buffer[GENERATE_ROOM];
    struct question q = {.number = number, .length = generate_message(number, buffer, sizeof buffer)};
    q.message = memmove(buffer + sizeof buffer - q.length, buffer, q.length);
    q.words = least(generate_words(number, q.length), MOST_WORDS);
    ask(&q);
}

/* Asks for a message of one byte over the limit, all `N`. */
static void ask_long(uint64_t number)
{
    static uint8_t message[TANKLEFROST_LIMIT + 1];
    struct question q = {number, message, sizeof message, MOST_WORDS};
    memset(message, 'N', sizeof message);
    ask(&q);
}

/* ---- The summary */

/* A line for each number from the first on, before the end. */
static void lines(const char *name, const uint64_t *by, unsigned first, unsigned end)
{
    unsigned n;
    for (n = first; n < end; n++) {
        printf("%s %u: %" PRIu64 "\n", name, n, by[n]);
    }
}

/* Writes the summary. */
static void summary(void)
{
    line("messages", counts.messages);
    line("accepted", counts.by_number[TANKLEFROST_DONE]);
    lines("refused with", counts.by_number, TANKLEFROST_MESSAGE_TOO_LONG, TANKLEFROST_BYTES_AFTER + 1);
    lines("refused with", counts.by_number, TANKLEFROST_NOT_BUILT, TANKLEFROST_NOT_BUILT + 1);
    lines("accepted, with a row of kind", counts.by_trait, KIND_SCALAR, KIND_EXTENSION + 1);
    line("accepted, with dimensions, first index slowest", counts.by_trait[SLOWEST]);
    line("accepted, with dimensions, first index fastest", counts.by_trait[FASTEST]);
    line("accepted, with a table by columns", counts.by_trait[COLUMNS]);
    line("checksum of answers and rows", counts.checksum);
    line("accepted by the old edition", counts.old_accepted);
    line("refused by the old edition", counts.old_refused);
    line("of these with 3 at an E", counts.at_extension);
    line("of these accepted by the new edition", counts.new_accepted);
    line("different, the readers by the new edition", counts.different[BY_NEW]);
    line("different, the readers by the old edition", counts.different[BY_OLD]);
    line("different, the editions but at an E", counts.different[EDITIONS]);
}

int main(int argc, char **argv)
{
    uint64_t messages = messages_asked(argc, argv, MESSAGES), number;
    for (number = 0; number < messages; number++) {
        ask_by_number(number);
    }
    ask_long(messages);
    summary();
    return counts.different[BY_NEW] != 0 || counts.different[BY_OLD] != 0 || counts.different[EDITIONS] != 0;
}
