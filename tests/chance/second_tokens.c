/* Rows, integers, and tokens that hold no others: each takes the next row. */
#include "second_parts.h"

/* The place in the stack of the innermost frame that has a row: all have one but the message's, which is the outermost, and a dimension
 * vector's, which is the innermost while it is open. So this place is also the depth of a token that stands in what is open. */
static uint32_t holder(const struct machine *m)
{
    uint32_t top = m->open - 1;
    return m->frames[top].task >= TASK_OUTER ? top - 1 : top;
}

bool store(struct machine *m, uint32_t row, struct token t)
{
    uint32_t *words = row_at(m, row), depth = holder(m);
    words[WORD_KIND] = t.kind;
    words[WORD_MARK] = t.mark;
    words[WORD_FIRST] = t.first;
    words[WORD_PAYLOAD] = t.payload;
    words[WORD_LENGTH] = t.length;
    words[WORD_COUNT] = t.count;
    words[WORD_LINK] = t.link;
    words[WORD_ORDER] = t.order;
    words[WORD_PARENT] = depth == 0 ? 0 : m->frames[depth].row + 1;
    words[WORD_DEPTH] = depth;
    return true;
}

bool store_next(struct machine *m, struct token t)
{
    t.link = m->row + 1;
    return store(m, m->row++, t);
}

/* The number of so many bytes, at most eight, the lowest first: from the last byte down, each moves up what is there. */
static uint64_t little(const uint8_t *bytes, uint32_t left)
{
    uint64_t value = 0;
    while (left > 0) {
        value = value << 8 | bytes[--left];
    }
    return value;
}

bool read_bare_integer(struct machine *m, uint8_t mark, uint32_t place, uint32_t limit)
{
    uint32_t bytes = mark_width(mark);
    uint64_t value;
    if (!has_bytes(m, bytes)) {
        return false;
    }
    if (mark_is_signed(mark) && m->message[m->at + bytes - 1] > 127) {
        return refuse(m, BAD_INTEGER, place);
    }
    value = little(m->message + m->at, bytes);
    if (value > limit) {
        return refuse(m, LIMIT_PASSED, place);
    }
    m->at += bytes;
    m->value = (uint32_t)value;
    return true;
}

bool read_integer(struct machine *m, uint32_t limit)
{
    uint32_t place = m->at;
    uint8_t mark = here(m);
    if (!mark_is_integer(mark)) {
        return unexpected(m);
    }
    m->at++;
    return read_bare_integer(m, mark, place, limit);
}

/* Reads the bytes of a scalar, which stand here; its token began at the place given. */
static bool scalar_bytes(struct machine *m, uint8_t mark, uint32_t first)
{
    uint32_t start = m->at, bytes = mark_width(mark);
    if (!has_row(m, first) || !has_bytes(m, bytes)) {
        return false;
    }
    if (mark == 'C' && !content_fits(mark, m->message + start, bytes)) {
        return refuse(m, BAD_CONTENT, start);
    }
    m->at += bytes;
    return store_next(m, (struct token){.kind = KIND_SCALAR, .mark = mark, .first = first, .payload = start, .length = bytes});
}

bool read_scalar(struct machine *m)
{
    uint32_t first = m->at++;
    return scalar_bytes(m, m->message[first], first);
}

bool read_unmarked(struct machine *m, uint8_t mark)
{
    return has_bytes(m, 1) && scalar_bytes(m, mark, m->at);
}

/* Reads the bytes of a text or a number, which stand here; their length was read last. */
static bool characters(struct machine *m, enum kind kind, uint8_t mark, uint32_t first)
{
    uint32_t start = m->at, length = m->value;
    if (!has_bytes(m, length)) {
        return false;
    }
    if (!content_fits(mark, m->message + start, length)) {
        return refuse(m, BAD_CONTENT, start);
    }
    m->at += length;
    return store_next(m, (struct token){.kind = kind, .mark = mark, .first = first, .payload = start, .length = length});
}

bool read_text(struct machine *m, enum kind kind)
{
    uint32_t first = m->at++;
    return has_row(m, first) && read_integer(m, LIMIT) && characters(m, kind, m->message[first], first);
}

bool read_key(struct machine *m)
{
    uint32_t first = m->at;
    if (!mark_is_integer(here(m))) {
        return unexpected(m);
    }
    return has_row(m, first) && read_integer(m, LIMIT) && characters(m, KIND_KEY, 'S', first);
}

/* The bytes that an extension's id asks for; an opaque one takes any length. */
static uint32_t extension_size(uint32_t id, uint32_t length)
{
    static const uint32_t sizes[] = {4, 8, 12, 4, 4, 8, 8, 8, 16, 16};
    return id >= 1 && id <= sizeof sizes / sizeof *sizes ? sizes[id - 1] : length;
}

/* Reads the payload of an extension, which stands here: first its size, then its end. Its length was read last. */
static bool extension_payload(struct machine *m, uint32_t id, uint32_t first)
{
    uint32_t start = m->at, length = m->value;
    if (length != extension_size(id, length)) {
        return refuse(m, BAD_CONTENT, first);
    }
    if (!has_bytes(m, length)) {
        return false;
    }
    m->at += length;
    return store_next(
        m, (struct token){.kind = KIND_EXTENSION, .mark = 'E', .first = first, .payload = start, .length = length, .count = id});
}

bool read_extension(struct machine *m)
{
    uint32_t first = m->at, id;
    if (!m->extensions) {
        return unexpected(m);
    }
    m->at++;
    if (!has_row(m, first) || !read_integer(m, ID_LIMIT)) {
        return false;
    }
    id = m->value;
    return read_integer(m, LIMIT) && extension_payload(m, id, first);
}
