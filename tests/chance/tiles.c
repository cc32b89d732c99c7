/* Asks for every slot of messages made by chance, and for addresses beside them; changes slots, and compares all others. An argument
 * says how many messages are made. The exit status is 1 if there was a fault. */
#include "generate.h"
#include "grid.h"
#include "pen.h"
#include "shared.h"

/* How many messages are made without an argument. */
enum { MESSAGES = 40000 };

/* The slots that a packed array or a table may have to be gone through, and those of a message that are listed. */
enum { SLOTS = 256, ENTRIES = 1024 };

/* The changes that are tried for a message. */
enum { CHANGES = 4 };

/* A slot: the row of its packed array or table, the row of its leaf (of a packed array the same row), the number of its element or
 * record, its first byte, its width. */
struct entry {
    size_t row, leaf, number, first, width;
};

/* The numbers of the summary. */
struct tally {
    uint64_t messages, accepted, packed, tables, skipped, asked, outside, read, changes, kept, compared, checksum, faults;
};

/* An accepted message, of which so many rows are used; the same message with a slot changed; the list of its slots; what is counted. */
struct work {
    struct view before, after;
    size_t used;
    struct entry list[ENTRIES];
    size_t listed;
    struct tally tally;
};

/* A fault, unless what is told holds. */
static void expect(struct work *w, bool holds)
{
    w->tally.faults += !holds;
}

/* Takes a number into the checksum. */
static void mix(struct work *w, size_t x)
{
    uint64_t sum = w->tally.checksum;

    w->tally.checksum = (sum << 5) ^ (sum >> 59) ^ x;
}

/* ---- Answers */

/* Whether the answer is the slot of an entry. */
static bool is_slot(struct tanklefrost_place answer, const struct entry *e)
{
    return answer.number == TANKLEFROST_DONE && answer.first == e->first && answer.width == e->width;
}

/* Whether the answer is this refusal. */
static bool is_refusal(struct tanklefrost_place answer, uint32_t number)
{
    return answer.number == number && answer.first == 0 && answer.width == 0;
}

/* Whether two slot answers are the same. */
static bool same_slot(struct tanklefrost_place a, struct tanklefrost_place b)
{
    return a.number == b.number && a.first == b.first && a.width == b.width;
}

/* Whether two value answers are the same. */
static bool same_value(struct tanklefrost_scalar a, struct tanklefrost_scalar b)
{
    return a.number == b.number && a.kind == b.kind && a.value_case == b.value_case && a.bits == b.bits;
}

/* Where a slot ends, or the message where that is first. */
static size_t end_of(const struct entry *e, size_t length)
{
    return e->first < length && e->width < length - e->first ? e->first + e->width : length;
}

/* Whether two messages of the same length have the same bytes in a slot. */
static bool same_bytes(const struct view *a, const struct view *b, const struct entry *e)
{
    size_t end = end_of(e, a->length);

    return end <= e->first || memcmp(a->message + e->first, b->message + e->first, end - e->first) == 0;
}

/* ---- The slots of a packed array or a table, listed in storage order */

/* Whether it has at most so many slots. */
static bool fits(const struct view *v, size_t row, size_t room)
{
    size_t count = grid_word(v, row, TANKLEFROST_WORD_COUNT), leaves = grid_leaves(v, row);

    return leaves == 0 ? count == 0 : count <= room / leaves;
}

/* Lists the slot of one value that a row names, if it names one and the list has room. */
static void list_leaf(struct work *w, size_t row, size_t leaf, size_t number)
{
    struct entry entry = {row, leaf, number, 0, 0};

    if (grid_names(&w->before, row, leaf) && w->listed < ENTRIES) {
        w->list[w->listed++] = entry;
    }
}

/* Lists the slots of one value, which are named by some of these rows. */
static void list_value(struct work *w, size_t row, size_t from, size_t to, size_t number)
{
    size_t r;

    for (r = from; r < to; r++) {
        list_leaf(w, row, r, number);
    }
}

/* Lists one value for each element or record. */
static void list_values(struct work *w, size_t row, size_t from, size_t to)
{
    size_t count = grid_word(&w->before, row, TANKLEFROST_WORD_COUNT), number;

    for (number = 0; number < count; number++) {
        list_value(w, row, from, to, number);
    }
}

/* Lists the top-level fields of a table, each with one value for each record. */
static void list_columns(struct work *w, size_t row)
{
    size_t end = grid_schema_end(&w->before, row), key = row + 2, before = row;

    while (before < key && key < end) {
        size_t field = grid_word(&w->before, key, TANKLEFROST_WORD_LINK);
        size_t after = grid_word(&w->before, field, TANKLEFROST_WORD_LINK);
        list_values(w, row, field, after);
        before = key;
        key = after;
    }
}

/* Lists its slots. */
static void list_slots(struct work *w, size_t row)
{
    if (grid_is_packed(&w->before, row)) {
        list_values(w, row, row, row + 1);
    } else if (grid_word(&w->before, row, TANKLEFROST_WORD_MARK) == '{') {
        list_columns(w, row);
    } else {
        list_values(w, row, row, grid_schema_end(&w->before, row));
    }
}

/* ---- Whether the slots of a packed array or a table lie end to end */

/* Asks for the slot of an entry, and stores what is answered; refused, or of another width than the rows say, is a fault. */
static void ask_slot(struct work *w, struct entry *e)
{
    struct tanklefrost_place answer = grid_slot(&w->before, e->row, e->leaf, e->number);

    w->tally.asked++;
    e->first = answer.first;
    e->width = answer.width;
    if (answer.number != TANKLEFROST_DONE) {
        expect(w, false);
        return;
    }
    expect(w, answer.width == grid_width(&w->before, e->row, e->leaf));
    mix(w, answer.first);
    mix(w, answer.width);
}

/* Asks for the slots of the entries from one on. */
static void ask_slots(struct work *w, size_t from)
{
    size_t i;

    for (i = from; i < w->listed; i++) {
        ask_slot(w, &w->list[i]);
    }
}

/* Each slot from an entry on must start where the one before ended, the first at the payload's start, and the last must end at its end. */
static void expect_tiled(struct work *w, size_t row, size_t from)
{
    size_t start = grid_word(&w->before, row, TANKLEFROST_WORD_PAYLOAD), at = start, i;

    for (i = from; i < w->listed; i++) {
        expect(w, w->list[i].first == at);
        at = w->list[i].first + w->list[i].width;
    }
    expect(w, at == start + grid_word(&w->before, row, TANKLEFROST_WORD_LENGTH));
}

/* Lists its slots and asks for each; one with too many slots is skipped. */
static void ask_inside(struct work *w, size_t row)
{
    size_t from = w->listed;

    if (!fits(&w->before, row, least(SLOTS, ENTRIES - from))) {
        w->tally.skipped++;
        return;
    }
    list_slots(w, row);
    ask_slots(w, from);
    expect_tiled(w, row, from);
}

/* ---- Addresses that name no slot: each must be refused with the number that document 01 says */

/* Counts an answer that must be this refusal. */
static void expect_refused(struct work *w, struct tanklefrost_place answer, uint32_t number)
{
    w->tally.outside++;
    expect(w, is_refusal(answer, number));
}

/* Asks with so many indexes, all 0, which is one too few or one too many. */
static void ask_with_count(struct work *w, size_t row, size_t leaf, size_t count)
{
    struct grid_indexes indexes = {{0}, count};

    expect_refused(w, grid_located(&w->before, row, leaf, &indexes), TANKLEFROST_NOT_THERE);
}

/* Asks with every index 0 but one, which is as large as its dimension. */
static void ask_past(struct work *w, size_t row, size_t leaf, size_t j)
{
    struct grid_indexes indexes = {{0}, grid_rank(&w->before, row)};

    indexes.at[j] = grid_extent(&w->before, row, j);
    expect_refused(w, grid_located(&w->before, row, leaf, &indexes), TANKLEFROST_NOT_THERE);
}

/* Asks with wrong indexes: each as large as its dimension, one too few, and one too many. */
static void ask_wrong_indexes(struct work *w, size_t row, size_t leaf)
{
    size_t rank = grid_rank(&w->before, row), j;

    for (j = 0; j < rank; j++) {
        ask_past(w, row, leaf, j);
    }
    ask_with_count(w, row, leaf, rank == 0 ? 0 : rank - 1);
    ask_with_count(w, row, leaf, rank + 1);
}

/* Asks with another row in the place of a table's leaf; of a packed array there is none. */
static void ask_other_leaf(struct work *w, size_t row, size_t leaf)
{
    struct grid_indexes indexes = {{0}, grid_rank(&w->before, row)};

    if (!grid_is_packed(&w->before, row)) {
        expect_refused(w, grid_located(&w->before, row, leaf, &indexes), TANKLEFROST_ROWS_DONT_FIT);
    }
}

/* Asks with each row up to one after the last in the place of the leaf: wrong indexes where it names slots, else the row itself. */
static void ask_outside(struct work *w, size_t row)
{
    size_t r;

    for (r = 0; r <= w->used; r++) {
        if (grid_names(&w->before, row, r)) {
            ask_wrong_indexes(w, row, r);
        } else {
            ask_other_leaf(w, row, r);
        }
    }
}

/* Asks with a row of another kind in the place of a packed array's, and in that of a table's, whose first leaf would be three rows on. */
static void ask_other_kinds(struct work *w, size_t row)
{
    const struct view *v = &w->before;
    const size_t index[1] = {0};
    uint32_t length = (uint32_t)v->length;

    if (!grid_is_packed(v, row)) {
        expect_refused(w, tanklefrost_packed_slot(v->rows, v->words, length, row, index, 1), TANKLEFROST_ROWS_DONT_FIT);
    }
    if (!grid_is_table(v, row)) {
        expect_refused(w, tanklefrost_table_slot(v->rows, v->words, length, row, row + 3, index, 1), TANKLEFROST_ROWS_DONT_FIT);
    }
}

/* ---- The packed arrays and tables of a message */

/* Goes through one row. */
static void go_through_row(struct work *w, size_t row)
{
    bool packed = grid_is_packed(&w->before, row), table = grid_is_table(&w->before, row);

    ask_other_kinds(w, row);
    w->tally.packed += packed;
    w->tally.tables += table;
    if (packed || table) {
        ask_inside(w, row);
        ask_outside(w, row);
    }
}

/* Goes through the rows of an accepted message, and lists its slots. */
static void go_through_rows(struct work *w)
{
    size_t row;

    w->listed = 0;
    for (row = 0; row < w->used; row++) {
        go_through_row(w, row);
    }
}

/* ---- What the value and text calls answer */

/* Whether an entry's slot is answered as its mark asks: a text slot has a text, which is the slot, and no value; any other the reverse. */
static bool is_read(const struct view *v, const struct entry *e)
{
    bool valued = grid_value(v, e->row, e->leaf, e->number).number == TANKLEFROST_DONE;
    struct tanklefrost_place text = grid_text(v, e->row, e->leaf, e->number);

    if (grid_mark(v, e->row, e->leaf) == 'S') {
        return is_slot(text, e) && !valued;
    }
    return is_refusal(text, TANKLEFROST_ROWS_DONT_FIT) && valued;
}

/* Reads the slot of each entry. */
static void read_slots(struct work *w)
{
    size_t i;

    for (i = 0; i < w->listed; i++) {
        expect(w, is_read(&w->before, &w->list[i]));
        w->tally.read++;
    }
}

/* ---- Changes of the bytes of one slot: nothing else may change */

/* Draws a byte that the reader takes in a slot of the mark; any byte where 16 divides the number drawn before. */
static uint32_t draw_byte(struct pen *pen, size_t mark, uint32_t before)
{
    uint32_t drawn = pen_draw(pen, 256);

    if (before % 16 == 0) {
        return drawn;
    }
    if (mark == 'C' || mark == 'S') {
        return drawn % 128;
    }
    if (mark == 'T') {
        return drawn % 2 == 0 ? 'T' : 'F';
    }
    return drawn;
}

/* Stores bytes made by chance in the slot of an entry, by the number that was drawn for it. */
static void change(struct work *w, uint32_t entry, struct pen *pen)
{
    const struct entry *e = &w->list[entry];
    size_t mark = grid_mark(&w->before, e->row, e->leaf), end = end_of(e, w->after.length), at;
    uint32_t drawn = entry;

    for (at = e->first; at < end; at++) {
        drawn = draw_byte(pen, mark, drawn);
        w->after.message[at] = (uint8_t)drawn;
    }
}

/* Whether an entry's slot has the same bytes, value and text in both messages. */
static bool same_content(const struct view *before, const struct view *after, const struct entry *e)
{
    return same_bytes(before, after, e)
        && same_value(grid_value(before, e->row, e->leaf, e->number), grid_value(after, e->row, e->leaf, e->number))
        && same_slot(grid_text(before, e->row, e->leaf, e->number), grid_text(after, e->row, e->leaf, e->number));
}

/* Compares all slots of both messages: each must be where it was; what is in it the same, unless it is the changed one. */
static void compare_slots(struct work *w, size_t changed)
{
    size_t i;

    for (i = 0; i < w->listed; i++) {
        const struct entry *e = &w->list[i];
        expect(w, is_slot(grid_slot(&w->after, e->row, e->leaf, e->number), e));
        if (i != changed) {
            expect(w, same_content(&w->before, &w->after, e));
            w->tally.compared++;
        }
    }
}

/* Reads the message with the slot of one entry changed, and compares what is accepted. */
static void read_again(struct work *w, size_t changed)
{
    w->tally.changes++;
    if (read_over(&w->after, 0x55555555).number == TANKLEFROST_DONE) {
        w->tally.kept++;
        expect(w, same_words(w->before.rows, w->after.rows, w->before.words));
        compare_slots(w, changed);
    }
}

/* Tries a change of one slot, unless it has no bytes, and undoes it. */
static void attempt(struct work *w, struct pen *pen)
{
    uint32_t entry = pen_draw(pen, (uint32_t)w->listed);

    if (w->list[entry].width != 0) {
        change(w, entry, pen);
        read_again(w, entry);
        memcpy(w->after.message, w->before.message, w->before.length);
    }
}

/* Tries some changes of message so and so, if it has slots. */
static void try_changes(struct work *w, uint64_t number)
{
    uint64_t i;

    for (i = 0; i < CHANGES && 0 < w->listed; i++) {
        struct pen pen = pen_of(number ^ (i << 40) ^ UINT64_C(0x00F0000000000000), NULL, 0);
        attempt(w, &pen);
    }
}

/* ---- The messages, each by its number */

/* Makes message so and so, and lends as many rows as it has bytes; goes through the slots and tries changes if it is accepted. */
static void go_through_message(struct work *w, uint64_t number)
{
    size_t length = generate_message(number, w->before.message, GENERATE_ROOM);
    struct tanklefrost_reading read;

    w->before.length = w->after.length = length;
    w->before.words = w->after.words = length * TANKLEFROST_ROW_WORDS;
    w->tally.messages++;
    read = read_over(&w->before, 0xAAAAAAAA);
    if (read.number == TANKLEFROST_DONE) {
        w->tally.accepted++;
        w->used = read.amount;
        go_through_rows(w);
        read_slots(w);
        memcpy(w->after.message, w->before.message, length);
        try_changes(w, number);
    }
}

/* The summary. */
static void show(const struct tally *t)
{
    line("messages", t->messages);
    line("accepted", t->accepted);
    line("packed arrays", t->packed);
    line("tables", t->tables);
    line("skipped for too many slots", t->skipped);
    line("addresses asked", t->asked);
    line("outside addresses asked", t->outside);
    line("values and texts read", t->read);
    line("changes tried", t->changes);
    line("changes accepted", t->kept);
    line("slots compared", t->compared);
    line("checksum", t->checksum);
    line("faults", t->faults);
}

/* Goes through as many messages as are asked for. */
int main(int argc, char **argv)
{
    static uint8_t message[GENERATE_ROOM], other[GENERATE_ROOM];
    static uint32_t rows[GENERATE_ROOM * TANKLEFROST_ROW_WORDS], again[GENERATE_ROOM * TANKLEFROST_ROW_WORDS];
    static struct work w = {.before = {message, 0, rows, 0}, .after = {other, 0, again, 0}};
    uint64_t messages = messages_asked(argc, argv, MESSAGES), number;

    for (number = 0; number < messages; number++) {
        go_through_message(&w, number);
    }
    show(&w.tally);
    return w.tally.faults != 0;
}
