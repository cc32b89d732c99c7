/* Rewrites messages made by chance, reads each house form again with both readers, compares it with the message, and rewrites it again.
 * An argument says how many messages are made. The exit status is 1 if there was a fault. */
#include "generate.h"
#include "marks.h"
#include "second.h"
#include "shared.h"

/* How many messages are made without an argument. */
enum { MESSAGES = 200000 };

/* The most bytes of output that are lent, and the most words: a row to each byte of a message, and a remainder. */
enum { OUTPUT_ROOM = GENERATE_ROOM * 4 + 64, WORDS = (GENERATE_ROOM + 1) * TANKLEFROST_ROW_WORDS };

/* The sorts of faults. */
enum sort {
    /* A refused message with another answer than the reader's. */
    REFUSAL,
    /* Words or bytes that are not zero after a refusal. */
    LEFT,
    /* An accepted message that is not rewritten, though there is room. */
    ANSWER,
    /* Rows that are not the reader's, or bytes after the house form that are not zero. */
    ROWS,
    /* A house form that the reader refuses, or of which it uses another number of rows. */
    AGAIN,
    /* A house form for which the second reader gives another answer or other words. */
    SECOND,
    /* A row of another meaning. */
    MEANING,
    /* A payload with other bytes. */
    PAYLOADS,
    /* An extension's id with another mark or another number. */
    IDS,
    /* What is not in house form. */
    FORM,
    /* A house form that is changed by rewriting it. */
    TWICE,
    /* An answer other than 11 at 0 where the room is a byte less than needed. */
    ROOM,
    SORTS
};

/* The sorts as the summary names them. */
static const char *const sort_names[SORTS] = {
    [REFUSAL] = "refused with another answer",
    [LEFT] = "words or bytes left after a refusal",
    [ANSWER] = "not rewritten",
    [ROWS] = "rows other than the reader's, or bytes left",
    [AGAIN] = "read again with another answer",
    [SECOND] = "the second reader differs",
    [MEANING] = "rows of another meaning",
    [PAYLOADS] = "payloads with other bytes",
    [IDS] = "ids with other bytes",
    [FORM] = "not in house form",
    [TWICE] = "changed by rewriting again",
    [ROOM] = "another answer with a byte less",
};

/* The places for rows by kind, and the most messages with a fault that are listed. */
enum { KINDS = 16, LISTED = 8 };

/* What is counted: the numbers of the summary, the rows compared by kind, the faults by sort, and the first messages with a fault. */
struct tally {
    uint64_t messages, accepted, rewritten, unchanged, changed, bytes_read, bytes_written;
    uint64_t by_kind[KINDS];
    uint64_t faults, by_sort[SORTS];
    uint64_t faulty, first[LISTED];
};

/* The message at hand, of which so many rows are used, and its house form, each with the reader's rows; the room for the house form; the
 * rows of the second reader and of the rewriter; what is rewritten again; and what is counted. */
struct work {
    struct view message, form;
    size_t used, room;
    uint32_t *third;
    uint8_t *other;
    struct tally tally;
};

/* A fault of a sort, unless what is told holds. */
static void expect(struct tally *t, enum sort sort, bool holds)
{
    t->faults += !holds;
    t->by_sort[sort] += !holds;
}

/* Lists a message, if there are more faults than before it. */
static void list_faulty(struct tally *t, uint64_t number, uint64_t before)
{
    if (before == t->faults) {
        return;
    }
    if (t->faulty < LISTED) {
        t->first[t->faulty] = number;
    }
    t->faulty++;
}

/* ---- Answers, and the calls that give them: each over words and bytes that are not zero */

/* Whether an answer is this one. */
static bool is_reading(struct tanklefrost_reading a, uint32_t number, size_t place, size_t amount)
{
    return a.number == number && a.place == place && a.amount == amount;
}

/* What the reader answers. */
static struct tanklefrost_reading by_reader(const struct view *v)
{
    return read_over(v, 0xAAAAAAAA);
}

/* What the second reader answers, with its rows in the third table. */
static struct tanklefrost_reading by_second(struct work *w, const struct view *v)
{
    fill_words(w->third, v->words, 0x55555555);
    return second_read(TANKLEFROST_NEW_EDITION, v->message, v->length, w->third, v->words);
}

/* What the rewriter answers, with its rows in the third table. */
static struct tanklefrost_reading by_rewriter(struct work *w, const struct view *v, uint8_t *output, size_t room)
{
    fill_words(w->third, v->words, 0x33333333);
    memset(output, 0x33, room);
    return tanklefrost_rewrite(TANKLEFROST_NEW_EDITION, v->message, v->length, w->third, v->words, output, room);
}

/* ---- Bytes */

/* Whether bytes are zero. */
static bool all_zero(const void *bytes, size_t count)
{
    const uint8_t *at = bytes, *end = at + count;

    while (at < end && *at == 0) {
        at++;
    }
    return at == end;
}

/* The byte of a message at a place; 0 where there is none. */
static uint8_t byte_at(const struct view *v, size_t at)
{
    return at < v->length ? v->message[at] : 0;
}

/* Whether the n bytes from a place on are the same as those of another message from another place on. */
static bool same_part(const struct view *a, size_t first, const struct view *b, size_t other, size_t n)
{
    size_t i = 0;

    while (i < n && byte_at(a, first + i) == byte_at(b, other + i)) {
        i++;
    }
    return i == n;
}

/* ---- Whether two messages have the same meaning, as document 01 and requests No. 1 and No. 8 say it: row by row, word by word, and the
 * bytes of the payloads and of the ids */

/* Whether a row's mark has a meaning: not that of a dimension, which may be written with another. */
static bool mark_counts(uint32_t kind)
{
    return kind != KIND_DIMENSION;
}

/* Whether its payload's place has one: only in a schema, where it is an offset. */
static bool offset_counts(uint32_t kind)
{
    return kind == KIND_LEAF || kind == KIND_SCHEMA_RECORD || kind == KIND_FIXED_ARRAY;
}

/* Whether its length has one: not in arrays, objects and dimensions, whose headers or bytes may be others. */
static bool length_counts(uint32_t kind)
{
    return kind != KIND_ARRAY && kind != KIND_OBJECT && kind != KIND_DIMENSION;
}

/* Whether it has a payload of its own: scalars, texts, keys, packed arrays, tables and extensions; in others there are tokens below. */
static bool has_payload(uint32_t kind)
{
    switch (kind) {
    case KIND_SCALAR:
    case KIND_TEXT:
    case KIND_HIGH_PRECISION:
    case KIND_KEY:
    case KIND_PACKED:
    case KIND_TABLE:
    case KIND_EXTENSION:
        return true;
    default:
        return false;
    }
}

/* Whether a word is the same in two rows. */
static bool same_word(const uint32_t *a, const uint32_t *b, int word)
{
    return a[word] == b[word];
}

/* Whether two rows are the same in the words that every kind has: kind, count, link, order, parent and depth. */
static bool same_shape(const uint32_t *a, const uint32_t *b)
{
    return same_word(a, b, TANKLEFROST_WORD_KIND) && same_word(a, b, TANKLEFROST_WORD_COUNT) && same_word(a, b, TANKLEFROST_WORD_LINK)
        && same_word(a, b, TANKLEFROST_WORD_ORDER) && same_word(a, b, TANKLEFROST_WORD_PARENT)
        && same_word(a, b, TANKLEFROST_WORD_DEPTH);
}

/* Whether they are the same in mark, offset and length, where these have a meaning. */
static bool same_rest(const uint32_t *a, const uint32_t *b)
{
    uint32_t kind = a[TANKLEFROST_WORD_KIND];

    return (same_word(a, b, TANKLEFROST_WORD_MARK) || !mark_counts(kind))
        && (same_word(a, b, TANKLEFROST_WORD_PAYLOAD) || !offset_counts(kind))
        && (same_word(a, b, TANKLEFROST_WORD_LENGTH) || !length_counts(kind));
}

/* Whether the payload of a row has the same bytes. */
static bool same_payload(const struct work *w, const uint32_t *a, const uint32_t *b)
{
    size_t first = a[TANKLEFROST_WORD_PAYLOAD], other = b[TANKLEFROST_WORD_PAYLOAD], length = a[TANKLEFROST_WORD_LENGTH];

    return !has_payload(a[TANKLEFROST_WORD_KIND])
        || (same_word(a, b, TANKLEFROST_WORD_LENGTH) && same_part(&w->message, first, &w->form, other, length));
}

/* Whether an extension's id has the same bytes: its mark, which stands after the `E`, and its number. */
static bool same_id(const struct work *w, const uint32_t *a, const uint32_t *b)
{
    size_t first = (size_t)a[TANKLEFROST_WORD_FIRST] + 1, other = (size_t)b[TANKLEFROST_WORD_FIRST] + 1;

    return a[TANKLEFROST_WORD_KIND] != KIND_EXTENSION
        || same_part(&w->message, first, &w->form, other, 1 + width_of(byte_at(&w->message, first)));
}

/* Compares the rows of the message with those of its house form. */
static void compare_meanings(struct work *w)
{
    size_t row;

    for (row = 0; row < w->used; row++) {
        const uint32_t *a = row_at(&w->message, row), *b = row_at(&w->form, row);
        w->tally.by_kind[a[TANKLEFROST_WORD_KIND] % KINDS]++;
        expect(&w->tally, MEANING, same_shape(a, b) && same_rest(a, b));
        expect(&w->tally, PAYLOADS, same_payload(w, a, b));
        expect(&w->tally, IDS, same_id(w, a, b));
    }
}

/* ---- Whether an accepted message is in house form, as its rows tell: the smallest mark of every length, count and dimension; a count in
 * every array and object, and no type; and no more bytes than these, marks and payloads take, so no `N` and no longer vector */

/* The smallest mark of an integer. */
static uint8_t smallest_mark(uint32_t n)
{
    return n < 256 ? 'U' : n < 65536 ? 'u' : 'm';
}

/* The bytes of an integer with the smallest mark. */
static size_t integer_bytes(uint32_t n)
{
    return 1 + width_of(smallest_mark(n));
}

/* The bytes of a count or of the brackets around the dimensions. */
static size_t shape_bytes(const uint32_t *r)
{
    switch (r[TANKLEFROST_WORD_ORDER]) {
    case ORDER_PLAIN:
        return integer_bytes(r[TANKLEFROST_WORD_COUNT]);
    case ORDER_LAST_FASTEST:
        return 2;
    default:
        return 4;
    }
}

/* The bytes of a schema leaf. */
static size_t leaf_bytes(const uint32_t *r)
{
    return r[TANKLEFROST_WORD_MARK] == 'S' ? 1 + integer_bytes(r[TANKLEFROST_WORD_LENGTH]) : 1;
}

/* The bytes of an extension before its payload: the `E`, the id with its own mark, the length. */
static size_t extension_bytes(const struct view *form, const uint32_t *r)
{
    uint8_t mark = byte_at(form, (size_t)r[TANKLEFROST_WORD_FIRST] + 1);

    return 2 + width_of(mark) + integer_bytes(r[TANKLEFROST_WORD_LENGTH]);
}

/* The bytes of a token, without those of the tokens below it and without its payload. */
static size_t header_bytes(const struct view *form, const uint32_t *r)
{
    switch (r[TANKLEFROST_WORD_KIND]) {
    case KIND_SCALAR:
        return 1;
    case KIND_TEXT:
    case KIND_HIGH_PRECISION:
        return 1 + integer_bytes(r[TANKLEFROST_WORD_LENGTH]);
    case KIND_KEY:
        return integer_bytes(r[TANKLEFROST_WORD_LENGTH]);
    case KIND_ARRAY:
    case KIND_OBJECT:
        return 2 + integer_bytes(r[TANKLEFROST_WORD_COUNT]);
    case KIND_PACKED:
        return 4 + shape_bytes(r);
    case KIND_TABLE:
        return 3 + shape_bytes(r);
    case KIND_LEAF:
        return leaf_bytes(r);
    case KIND_DIMENSION:
        return integer_bytes(r[TANKLEFROST_WORD_COUNT]);
    case KIND_EXTENSION:
        return extension_bytes(form, r);
    default:
        return 2;
    }
}

/* The bytes of a token, without those of the tokens below it. */
static size_t token_bytes(const struct view *form, const uint32_t *r)
{
    return header_bytes(form, r) + (has_payload(r[TANKLEFROST_WORD_KIND]) ? r[TANKLEFROST_WORD_LENGTH] : 0);
}

/* Whether the smallest mark of n stands right before a payload, with its number between. */
static bool is_before(const struct view *form, size_t payload, uint32_t n)
{
    size_t size = integer_bytes(n);

    return size <= payload && byte_at(form, payload - size) == smallest_mark(n);
}

/* Whether an array or an object is counted and has no type. */
static bool is_counted(const struct view *form, const uint32_t *r)
{
    return byte_at(form, (size_t)r[TANKLEFROST_WORD_FIRST] + 1) == '#'
        && is_before(form, r[TANKLEFROST_WORD_PAYLOAD], r[TANKLEFROST_WORD_COUNT]);
}

/* Whether the integer of a token, if it has one, has the smallest mark. */
static bool is_smallest(const struct view *form, const uint32_t *r)
{
    size_t first = r[TANKLEFROST_WORD_FIRST], payload = r[TANKLEFROST_WORD_PAYLOAD];
    uint32_t length = r[TANKLEFROST_WORD_LENGTH], count = r[TANKLEFROST_WORD_COUNT];

    switch (r[TANKLEFROST_WORD_KIND]) {
    case KIND_TEXT:
    case KIND_HIGH_PRECISION:
    case KIND_KEY:
    case KIND_EXTENSION:
        return is_before(form, payload, length);
    case KIND_ARRAY:
    case KIND_OBJECT:
        return is_counted(form, r);
    case KIND_PACKED:
    case KIND_TABLE:
        return r[TANKLEFROST_WORD_ORDER] != ORDER_PLAIN || is_before(form, payload, count);
    case KIND_LEAF:
        return r[TANKLEFROST_WORD_MARK] != 'S' || byte_at(form, first + 1) == smallest_mark(length);
    case KIND_DIMENSION:
        return byte_at(form, first) == smallest_mark(count);
    default:
        return true;
    }
}

/* Looks at all rows of the house form. */
static void judge_form(struct work *w)
{
    size_t row, bytes = 0;

    for (row = 0; row < w->used; row++) {
        const uint32_t *r = row_at(&w->form, row);
        expect(&w->tally, FORM, is_smallest(&w->form, r));
        bytes += token_bytes(&w->form, r);
    }
    expect(&w->tally, FORM, bytes == w->form.length);
}

/* ---- The messages, each by its number */

/* Expects all words of the third table and all bytes zero, after a refusal. */
static void expect_zero(struct work *w, const uint8_t *output, size_t room)
{
    expect(&w->tally, LEFT, all_zero(w->third, w->message.words * sizeof *w->third) && all_zero(output, room));
}

/* Looks at what the rewriter answered and left: the reader's rows, and zeros after the house form. */
static void judge_answer(struct work *w, struct tanklefrost_reading answer)
{
    size_t n = w->form.length;
    bool kept = same_words(w->message.rows, w->third, w->message.words);

    expect(&w->tally, ANSWER, is_reading(answer, TANKLEFROST_DONE, 0, n));
    expect(&w->tally, ROWS, kept && all_zero(w->form.message + n, w->room - n));
}

/* Counts a message that is rewritten. */
static void count_rewritten(struct work *w)
{
    size_t length = w->message.length;
    bool same = w->form.length == length && same_part(&w->message, 0, &w->form, 0, length);

    w->tally.rewritten++;
    w->tally.bytes_read += length;
    w->tally.bytes_written += w->form.length;
    w->tally.unchanged += same;
    w->tally.changed += !same;
}

/* Reads the house form with both readers. */
static void read_again(struct work *w)
{
    struct tanklefrost_reading a = by_reader(&w->form), b = by_second(w, &w->form);

    expect(&w->tally, AGAIN, is_reading(a, TANKLEFROST_DONE, 0, w->used));
    expect(&w->tally, SECOND, same_reading(a, b) && same_words(w->form.rows, w->third, w->form.words));
}

/* Rewrites the house form, into just as much room as it takes. */
static void rewrite_again(struct work *w)
{
    size_t n = w->form.length;
    struct tanklefrost_reading a = by_rewriter(w, &w->form, w->other, n);
    bool kept = memcmp(w->form.message, w->other, n) == 0 && same_words(w->form.rows, w->third, w->form.words);

    expect(&w->tally, TWICE, is_reading(a, TANKLEFROST_DONE, 0, n) && kept);
}

/* Rewrites the message into a byte less than its house form takes. */
static void rewrite_short(struct work *w)
{
    size_t room = w->form.length == 0 ? 0 : w->form.length - 1;
    struct tanklefrost_reading a = by_rewriter(w, &w->message, w->other, room);

    expect(&w->tally, ROOM, is_reading(a, TANKLEFROST_OUTPUT_TOO_LONG, 0, 0));
    expect_zero(w, w->other, room);
}

/* Rewrites an accepted message, and compares its house form with it. */
static void go_through_accepted(struct work *w)
{
    struct tanklefrost_reading a = by_rewriter(w, &w->message, w->form.message, w->room);

    w->form.length = least(a.amount, w->room);
    judge_answer(w, a);
    count_rewritten(w);
    read_again(w);
    compare_meanings(w);
    judge_form(w);
    rewrite_again(w);
    rewrite_short(w);
}

/* Rewrites a message that the reader refused with this answer. */
static void go_through_refused(struct work *w, struct tanklefrost_reading answer)
{
    struct tanklefrost_reading a = by_rewriter(w, &w->message, w->form.message, w->room);

    expect(&w->tally, REFUSAL, same_reading(a, answer));
    expect_zero(w, w->form.message, w->room);
}

/* Makes message so and so, lends it words and room, and goes on by the reader's answer. */
static void go_through_message(struct work *w, uint64_t number)
{
    size_t length = generate_message(number, w->message.message, GENERATE_ROOM);
    size_t words = least(generate_words(number, length), WORDS);
    struct tanklefrost_reading a;

    w->message.length = length;
    w->message.words = w->form.words = words;
    w->room = length * 4 + 64;
    w->tally.messages++;
    a = by_reader(&w->message);
    if (a.number == TANKLEFROST_DONE) {
        w->tally.accepted++;
        w->used = a.amount;
        go_through_accepted(w);
    } else {
        go_through_refused(w, a);
    }
}

/* ---- The summary */

/* A line for each kind: the rows compared. */
static void show_kinds(const struct tally *t)
{
    int kind;

    for (kind = KIND_SCALAR; kind <= KIND_EXTENSION; kind++) {
        printf("rows compared, of kind %d", kind);
        line("", t->by_kind[kind]);
    }
}

/* A line for each sort of faults. */
static void show_sorts(const struct tally *t)
{
    int sort;

    for (sort = 0; sort < SORTS; sort++) {
        printf("faults, ");
        line(sort_names[sort], t->by_sort[sort]);
    }
}

/* A line for each of the first messages with a fault. */
static void show_faulty(const struct tally *t)
{
    size_t i;

    for (i = 0; i < LISTED && i < t->faulty; i++) {
        line("a message with a fault", t->first[i]);
    }
}

/* All lines. */
static void show(const struct tally *t)
{
    line("messages", t->messages);
    line("accepted", t->accepted);
    line("rewritten", t->rewritten);
    line("in house form already", t->unchanged);
    line("changed", t->changed);
    line("bytes read", t->bytes_read);
    line("bytes written", t->bytes_written);
    show_kinds(t);
    show_sorts(t);
    line("messages with a fault", t->faulty);
    show_faulty(t);
}

/* Goes through as many messages as are asked for. */
int main(int argc, char **argv)
{
    static uint8_t message[GENERATE_ROOM], output[OUTPUT_ROOM], other[OUTPUT_ROOM];
    static uint32_t rows[WORDS], again[WORDS], third[WORDS];
    static struct work w = {.message = {message, 0, rows, 0}, .form = {output, 0, again, 0}, .third = third, .other = other};
    uint64_t messages = messages_asked(argc, argv, MESSAGES), number;

    for (number = 0; number < messages; number++) {
        uint64_t before = w.tally.faults;
        go_through_message(&w, number);
        list_faulty(&w.tally, number, before);
    }
    show(&w.tally);
    return w.tally.faults != 0;
}
