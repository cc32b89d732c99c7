/* The headers of arrays and objects: types and counts, schemas, and dimension vectors. */
#include "second_parts.h"

/* ---- Schemas: records and fixed arrays of kinds */

/* Opens a record or a fixed array, at its mark. */
static bool open_group(struct machine *m, enum task task, uint8_t mark)
{
    if (m->levels >= SCHEMA_LEVELS) {
        return refuse(m, LEVELS_PASSED, m->at);
    }
    if (!has_row(m, m->at)) {
        return false;
    }
    push(m, task, mark)->start = (uint32_t)m->offset;
    m->levels++;
    m->row++;
    m->at++;
    return true;
}

/* Closes a record or a fixed array, at its closing mark: its row is stored, and its kinds have moved the offset. */
static bool close_group(struct machine *m, const struct frame *f)
{
    enum kind kind = f->mark == '{' ? KIND_RECORD : KIND_FIXED;
    pop(m);
    m->levels--;
    m->at++;
    return store(m, f->row, (struct token){.kind = kind, .mark = f->mark, .first = f->first, .payload = f->start,
        .length = (uint32_t)(m->offset - f->start), .count = f->count, .link = m->row});
}

/* Stores the row of a leaf, when its kind has been read; the offset moves by its bytes. An offset that a word can't hold is never seen,
 * since a record over the limit is refused after its header. */
static bool store_leaf(struct machine *m, uint8_t mark, uint32_t first, uint32_t bytes)
{
    uint32_t offset = (uint32_t)m->offset;
    m->offset += bytes;
    return store_next(m, (struct token){.kind = KIND_LEAF, .mark = mark, .first = first, .payload = offset, .length = bytes});
}

/* Reads a leaf that is its mark alone; a boolean has a byte in a record. */
static bool plain_leaf(struct machine *m, uint8_t mark)
{
    uint32_t first = m->at++;
    return has_row(m, first) && store_leaf(m, mark, first, mark == 'T' ? 1 : mark_width(mark));
}

/* Reads a text leaf: its mark, and how many bytes. */
static bool text_leaf(struct machine *m)
{
    uint32_t first = m->at++;
    return has_row(m, first) && read_integer(m, LIMIT) && store_leaf(m, 'S', first, m->value);
}

/* Reads a leaf, or opens a kind that holds others. */
static bool read_kind(struct machine *m)
{
    uint8_t mark = here(m);
    switch (mark) {
    case 'S':
        return text_leaf(m);
    case 'H':
        return refuse(m, FORM_NOT_READ, m->at);
    case '{':
        return open_group(m, TASK_FIELD, mark);
    case '[':
        return open_group(m, TASK_FIXED, mark);
    case 'T': case 'Z':
        return plain_leaf(m, mark);
    default:
        return mark_is_type(mark) ? plain_leaf(m, mark) : unexpected(m);
    }
}

/* Whether a record or a fixed array ends here, with one member at least. */
static bool group_ends(const struct machine *m, const struct frame *f)
{
    return f->count > 0 && here(m) == mark_closing(f->mark);
}

/* A field's key, or the record's end. */
bool step_field(struct machine *m, struct frame *f)
{
    if (group_ends(m, f)) {
        return close_group(m, f);
    }
    f->count++;
    f->task = TASK_FIELD_KIND;
    return read_key(m);
}

/* A field's kind. */
bool step_field_kind(struct machine *m, struct frame *f)
{
    f->task = TASK_FIELD;
    return read_kind(m);
}

/* After a fixed array's `[`: a `$` there is of a form that isn't read. */
bool step_fixed(struct machine *m, struct frame *f)
{
    f->task = TASK_ELEMENT;
    return here(m) != '$' || refuse(m, FORM_NOT_READ, f->first);
}

/* An element's kind, or the fixed array's end. */
bool step_element(struct machine *m, struct frame *f)
{
    if (group_ends(m, f)) {
        return close_group(m, f);
    }
    f->count++;
    return read_kind(m);
}

/* ---- Dimension vectors */

/* Opens a vector at its `[`, of which a further one may follow. */
static bool open_vector(struct machine *m, enum task task)
{
    push(m, task, '[');
    m->product = 1;
    m->order = ORDER_SLOWEST;
    m->at++;
    return true;
}

/* After a `[` that may be the outer one. */
bool step_outer(struct machine *m, struct frame *f)
{
    f->task = TASK_VECTOR;
    if (here(m) == '[') {
        m->order = ORDER_FASTEST;
        m->at++;
    }
    return true;
}

/* After the vector's own `[`. */
bool step_vector(struct machine *m, struct frame *f)
{
    switch (here(m)) {
    case '$':
        return turn(m, f, TASK_VECTOR_TYPE);
    case '#':
        return turn(m, f, TASK_VECTOR_COUNT);
    default:
        f->task = TASK_DIMENSION;
        return true;
    }
}

/* After the vector's `$`: the mark of its integers. */
bool step_vector_type(struct machine *m, struct frame *f)
{
    f->element = here(m);
    return mark_is_integer(f->element) ? turn(m, f, TASK_VECTOR_HASH) : unexpected(m);
}

/* After the vector's type: `#`, and then a count. */
bool step_vector_hash(struct machine *m, struct frame *f)
{
    return here(m) == '#' ? turn(m, f, TASK_VECTOR_COUNT) : unexpected(m);
}

/* After the vector's `#`: how many dimensions. */
bool step_vector_count(struct machine *m, struct frame *f)
{
    f->task = TASK_DIMENSION;
    if (!read_integer(m, LIMIT)) {
        return false;
    }
    f->total = m->value;
    return (f->total >= 1 && f->total <= DIMENSION_LIMIT) || refuse(m, BAD_INTEGER, f->first);
}

/* Ends the vector: under a further `[` a `]` follows. */
static bool close_vector(struct machine *m)
{
    if (m->order == ORDER_FASTEST) {
        if (here(m) != ']') {
            return unexpected(m);
        }
        m->at++;
    }
    return pop(m);
}

/* Moves the product by one dimension. Over the limit it is held at one more, which only a dimension of 0 undoes, so it can't wrap. */
static void multiply(struct machine *m, uint32_t dimension)
{
    m->product *= dimension;
    if (m->product > LIMIT) {
        m->product = LIMIT + 1;
    }
}

/* Reads the number of a dimension, which stands here; its token began at the place given. */
static bool dimension_number(struct machine *m, uint8_t mark, uint32_t first)
{
    uint32_t start = m->at;
    if (!has_row(m, first) || !read_bare_integer(m, mark, first, LIMIT)) {
        return false;
    }
    multiply(m, m->value);
    return store_next(m, (struct token){.kind = KIND_DIMENSION, .mark = mark, .first = first, .payload = start,
        .length = mark_width(mark), .count = m->value});
}

/* Reads a dimension by the vector's form: without mark, of the vector's type, or at its mark. */
static bool read_dimension(struct machine *m, const struct frame *f)
{
    uint32_t first = m->at;
    uint8_t mark = here(m);
    if (f->element != 0) {
        return has_bytes(m, 1) && dimension_number(m, f->element, first);
    }
    if (!mark_is_integer(mark)) {
        return unexpected(m);
    }
    m->at++;
    return dimension_number(m, mark, first);
}

/* A dimension, or the vector's end. */
bool step_dimension(struct machine *m, struct frame *f)
{
    if (f->count == f->total) {
        return close_vector(m);
    }
    if (f->total == ENDLESS && here(m) == ']') {
        m->at++;
        return f->count == 0 ? refuse(m, BAD_INTEGER, f->first) : close_vector(m);
    }
    f->count++;
    if (!read_dimension(m, f)) {
        return false;
    }
    return f->count <= DIMENSION_LIMIT || refuse(m, BAD_INTEGER, f->first);
}

/* ---- Types and counts */

/* After an array's or an object's opening mark. */
bool step_header(struct machine *m, struct frame *f)
{
    switch (here(m)) {
    case '$':
        return turn(m, f, TASK_TYPE);
    case '#':
        return turn(m, f, TASK_COUNT);
    default:
        f->task = TASK_MEMBER;
        f->start = m->at;
        return true;
    }
}

/* After `$`: a type's mark, or a schema. */
bool step_type(struct machine *m, struct frame *f)
{
    f->element = here(m);
    if (mark_is_type(f->element)) {
        return turn(m, f, TASK_HASH);
    }
    if (f->element != '{') {
        return unexpected(m);
    }
    f->task = TASK_HASH;
    m->offset = 0;
    return open_group(m, TASK_FIELD, '{');
}

/* After a type: `#`, and then a count. */
bool step_hash(struct machine *m, struct frame *f)
{
    return here(m) == '#' ? turn(m, f, TASK_COUNT) : unexpected(m);
}

/* Reads the count of an array's or an object's members. */
static bool member_count(struct machine *m, struct frame *f)
{
    f->task = TASK_MEMBER;
    if (!read_integer(m, LIMIT)) {
        return false;
    }
    f->total = m->value;
    f->start = m->at;
    return true;
}

/* Reads the count of a packed array or a table. */
static bool plain_count(struct machine *m)
{
    if (!read_integer(m, LIMIT)) {
        return false;
    }
    m->product = m->value;
    m->order = ORDER_PLAIN;
    return true;
}

/* Whether it is a packed array or a table: one payload. */
static bool is_packed(const struct frame *f)
{
    return f->element == '{' || (f->element != 0 && f->mark == '[');
}

/* After `#`: a count, or the dimensions of a packed array or a table. Only a packed array's may be wrapped. */
bool step_count(struct machine *m, struct frame *f)
{
    if (!is_packed(f)) {
        return member_count(m, f);
    }
    f->task = TASK_PAYLOAD;
    if (here(m) != '[') {
        return plain_count(m);
    }
    return open_vector(m, f->element == '{' ? TASK_VECTOR : TASK_OUTER);
}
