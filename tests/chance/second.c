/* A second reader, of another shape than the first: a machine with a stack of frames, one for each thing that is open. A frame says what
 * must come next in it, and a step reads that. Of the first reader's header it takes the answer and the numbers of the editions, and
 * nothing else. */
#include "second.h"
#include "second_parts.h"

/* The place of what is nowhere. */
#define NOWHERE UINT32_MAX

/* ---- Values: the message's, and those of arrays and objects */

/* Goes past every `N` that stands here. */
static void skip_noops(struct machine *m)
{
    while (here(m) == 'N') {
        m->at++;
    }
}

/* Opens an array or an object, at its mark. The message's frame is open too, so the frames open are one more than the levels. */
static bool open_container(struct machine *m, uint8_t mark)
{
    if (m->open > VALUE_LEVELS) {
        return refuse(m, LEVELS_PASSED, m->at);
    }
    if (!has_row(m, m->at)) {
        return false;
    }
    push(m, TASK_HEADER, mark);
    m->row++;
    m->at++;
    return true;
}

/* Reads a value that is no container, or opens one, at its mark. */
static bool read_value(struct machine *m)
{
    uint8_t mark = here(m);
    switch (mark) {
    case 'S':
        return read_text(m, KIND_TEXT);
    case 'H':
        return read_text(m, KIND_NUMBER);
    case 'E':
        return read_extension(m);
    case '[': case '{':
        return open_container(m, mark);
    default:
        return mark_is_scalar(mark) ? read_scalar(m) : unexpected(m);
    }
}

/* The message's value. */
static bool step_message(struct machine *m, struct frame *f)
{
    f->task = TASK_AFTER;
    skip_noops(m);
    return read_value(m);
}

/* What comes after the message's value: nothing but `N`. */
static bool step_after(struct machine *m, struct frame *f)
{
    (void)f;
    skip_noops(m);
    return m->at < m->end ? refuse(m, MORE_BYTES, m->at) : pop(m);
}

/* Stores the row of an array or an object, whose payload ends here. */
static bool close_container(struct machine *m, const struct frame *f)
{
    enum kind kind = f->mark == '[' ? KIND_ARRAY : KIND_OBJECT;
    pop(m);
    return store(m, f->row, (struct token){.kind = kind, .mark = f->mark, .first = f->first, .payload = f->start,
        .length = m->at - f->start, .count = f->count, .link = m->row});
}

/* A member of an array or an object, or its end. */
static bool step_member(struct machine *m, struct frame *f)
{
    if (f->count == f->total) {
        return close_container(m, f);
    }
    if (f->element == 0) {
        skip_noops(m);
    }
    if (f->total == ENDLESS && here(m) == mark_closing(f->mark)) {
        close_container(m, f);
        m->at++;
        return true;
    }
    f->count++;
    if (f->mark == '[') {
        return read_value(m);
    }
    f->task = TASK_VALUE;
    return read_key(m);
}

/* The value of an object's member, after its key. */
static bool step_value(struct machine *m, struct frame *f)
{
    f->task = TASK_MEMBER;
    if (f->element != 0) {
        return read_unmarked(m, f->element);
    }
    skip_noops(m);
    return read_value(m);
}

/* ---- Payloads of packed arrays and tables */

/* The place of the first wrong char among those between two places. */
static uint32_t wrong_char(const struct machine *m, uint32_t from, uint32_t end)
{
    uint32_t at;
    for (at = from; at < end; at++) {
        if (!content_fits('C', m->message + at, 1)) {
            return at;
        }
    }
    return NOWHERE;
}

/* The place of the first wrong leaf of one value, which begins at a place; its kind, or the schema, is at the row given. */
static uint32_t wrong_leaf(const struct machine *m, uint32_t row, uint32_t at)
{
    const uint32_t *whole = row_at(m, row), *end = row_at(m, whole[WORD_LINK]), *words;
    for (words = whole; words < end; words += ROW_WORDS) {
        uint32_t place = at + words[WORD_PAYLOAD] - whole[WORD_PAYLOAD];
        if (words[WORD_KIND] == KIND_LEAF && !content_fits((uint8_t)words[WORD_MARK], m->message + place, words[WORD_LENGTH])) {
            return place;
        }
    }
    return NOWHERE;
}

/* The place of the first wrong leaf of one value for each record, which stand end to end from a place on. */
static uint32_t wrong_value(const struct machine *m, uint32_t row, uint32_t from)
{
    uint32_t bytes = row_at(m, row)[WORD_LENGTH], end = from + (uint32_t)(m->product * bytes), at, wrong = NOWHERE;
    for (at = from; at < end && wrong == NOWHERE; at += bytes) {
        wrong = wrong_leaf(m, row, at);
    }
    return wrong;
}

/* The place of the first wrong leaf of a table by columns: each field of the schema is one column. */
static uint32_t wrong_column(const struct machine *m, uint32_t schema)
{
    uint32_t end = row_at(m, schema)[WORD_LINK], key = schema + 1, wrong = NOWHERE;
    while (key < end && wrong == NOWHERE) {
        const uint32_t *field = row_at(m, key + 1);
        wrong = wrong_value(m, key + 1, m->at + (uint32_t)(m->product * field[WORD_PAYLOAD]));
        key = field[WORD_LINK];
    }
    return wrong;
}

/* The place of the first wrong content of the payload that stands here, with so many bytes. */
static uint32_t wrong_content(const struct machine *m, const struct frame *f, uint32_t length)
{
    if (f->element == 'C') {
        return wrong_char(m, m->at, m->at + length);
    }
    if (f->element != '{') {
        return NOWHERE;
    }
    return f->mark == '[' ? wrong_value(m, f->row + 1, m->at) : wrong_column(m, f->row + 1);
}

/* Stores the row of a packed array or a table, and goes past its payload. */
static bool close_packed(struct machine *m, const struct frame *f, uint32_t length)
{
    bool is_table = f->element == '{';
    uint32_t start = m->at;
    m->at += length;
    pop(m);
    return store(m, f->row, (struct token){.kind = is_table ? KIND_TABLE : KIND_PACKED, .mark = is_table ? f->mark : f->element,
        .first = f->first, .payload = start, .length = length, .count = (uint32_t)m->product, .link = m->row, .order = m->order});
}

/* The payload, which stands here: product or record size, payload end, content. */
static bool step_payload(struct machine *m, struct frame *f)
{
    uint64_t bytes = f->element == '{' ? m->offset : mark_width(f->element);
    uint32_t length, wrong;
    if (m->product > LIMIT || bytes > RECORD_LIMIT) {
        return refuse(m, LIMIT_PASSED, f->first);
    }
    if (!has_bytes(m, m->product * bytes)) {
        return false;
    }
    length = (uint32_t)(m->product * bytes);
    wrong = wrong_content(m, f, length);
    return wrong == NOWHERE ? close_packed(m, f, length) : refuse(m, BAD_CONTENT, wrong);
}

/* ---- The run */

/* The step of each task. */
static bool (*const steps[])(struct machine *m, struct frame *f) = {
    [TASK_MESSAGE] = step_message,
    [TASK_AFTER] = step_after,
    [TASK_HEADER] = step_header,
    [TASK_TYPE] = step_type,
    [TASK_HASH] = step_hash,
    [TASK_COUNT] = step_count,
    [TASK_MEMBER] = step_member,
    [TASK_VALUE] = step_value,
    [TASK_PAYLOAD] = step_payload,
    [TASK_FIELD] = step_field,
    [TASK_FIELD_KIND] = step_field_kind,
    [TASK_FIXED] = step_fixed,
    [TASK_ELEMENT] = step_element,
    [TASK_OUTER] = step_outer,
    [TASK_VECTOR] = step_vector,
    [TASK_VECTOR_TYPE] = step_vector_type,
    [TASK_VECTOR_HASH] = step_vector_hash,
    [TASK_VECTOR_COUNT] = step_vector_count,
    [TASK_DIMENSION] = step_dimension
};

/* A step: what the innermost frame says must come next. */
static bool step(struct machine *m)
{
    struct frame *f = &m->frames[m->open - 1];
    return steps[f->task](m, f);
}

/* Reads the message: steps until no frame is open, or one refuses. A step takes a byte, closes a frame, or turns one to a later task. */
static void run(struct machine *m)
{
    bool goes_on = true;
    push(m, TASK_MESSAGE, 0);
    while (goes_on && m->open > 0) {
        goes_on = step(m);
    }
}

/* Zeros the words from a place on, before the end. */
static void clear(uint32_t *words, size_t from, size_t end)
{
    size_t i;
    for (i = from; i < end; i++) {
        words[i] = 0;
    }
}

struct tanklefrost_reading second_read(
    uint32_t edition, const uint8_t *message, size_t message_length, uint32_t *rows, size_t row_words)
{
    struct machine m = {.message = message, .rows = rows, .lent = row_words / ROW_WORDS};
    m.extensions = edition == TANKLEFROST_NEW_EDITION;
    if (edition != TANKLEFROST_OLD_EDITION && edition != TANKLEFROST_NEW_EDITION) {
        refuse(&m, UNKNOWN_EDITION, 0);
    } else if (message_length > MESSAGE_LIMIT) {
        refuse(&m, MESSAGE_TOO_LONG, 0);
    } else {
        m.end = (uint32_t)message_length;
        run(&m);
    }
    if (m.number != 0) {
        m.row = 0;
    }
    clear(rows, (size_t)m.row * ROW_WORDS, row_words);
    return (struct tanklefrost_reading){m.number, m.place, m.row};
}
