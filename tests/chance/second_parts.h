/* What the files of the second reader share: its numbers, which are its own and not the first reader's, the machine and its frames, and
 * what every step needs. */
#ifndef SECOND_PARTS_H
#define SECOND_PARTS_H

#include <stdbool.h>
#include <stddef.h>
#include <stdint.h>

/* The limits: of a message's bytes; of a length, a count, a dimension and a product of dimensions; of a record's bytes; of a vector's
 * dimensions; of open values, the outermost container being 1; of a schema's brackets, the outer schema being 1; of an extension's id.
 *
 * Places, lengths, counts and rows have 32 bits. Their sums can't wrap, since none of them is over 2^20 but an id, which is never added
 * to. Products, and a record's bytes before they are tested, have 64 bits: a record has at most 2^20 bytes for each byte of the message,
 * and a payload at most 2^20 records of 2^16 bytes. */
enum {
    MESSAGE_LIMIT = 1048576,
    LIMIT = 1048576,
    RECORD_LIMIT = 65536,
    DIMENSION_LIMIT = 8,
    VALUE_LEVELS = 32,
    SCHEMA_LEVELS = 8
};
#define ID_LIMIT UINT32_MAX

/* The refusals. */
enum refusal {
    MESSAGE_TOO_LONG = 1,
    MESSAGE_ENDS = 2,
    UNEXPECTED_BYTE = 3,
    BAD_CONTENT = 4,
    LIMIT_PASSED = 5,
    BAD_INTEGER = 6,
    LEVELS_PASSED = 7,
    ROWS_USED_UP = 8,
    MORE_BYTES = 9,
    UNKNOWN_EDITION = 12,
    FORM_NOT_READ = 13
};

/* The kinds of tokens. */
enum kind {
    KIND_SCALAR = 1,
    KIND_TEXT = 2,
    KIND_NUMBER = 3,
    KIND_KEY = 4,
    KIND_ARRAY = 5,
    KIND_OBJECT = 6,
    KIND_PACKED = 7,
    KIND_TABLE = 8,
    KIND_LEAF = 9,
    KIND_RECORD = 10,
    KIND_FIXED = 11,
    KIND_DIMENSION = 12,
    KIND_EXTENSION = 13
};

/* The words of a row, and how many there are. */
enum {
    WORD_KIND,
    WORD_MARK,
    WORD_FIRST,
    WORD_PAYLOAD,
    WORD_LENGTH,
    WORD_COUNT,
    WORD_LINK,
    WORD_ORDER,
    WORD_PARENT,
    WORD_DEPTH,
    ROW_WORDS
};

/* The orders of elements and records: a plain count, first index slowest, first index fastest. */
enum order { ORDER_PLAIN = 0, ORDER_SLOWEST = 1, ORDER_FASTEST = 2 };

/* What must come next in a frame. */
enum task {
    /* The message: its value, what comes after it. */
    TASK_MESSAGE,
    TASK_AFTER,
    /* A container: what follows its opening mark, its `$`, its type, its `#`; a member, the value of an object's member, a payload. */
    TASK_HEADER,
    TASK_TYPE,
    TASK_HASH,
    TASK_COUNT,
    TASK_MEMBER,
    TASK_VALUE,
    TASK_PAYLOAD,
    /* A schema record: a field's key or the end, a field's kind. A fixed array: what follows its `[`, an element's kind or the end. */
    TASK_FIELD,
    TASK_FIELD_KIND,
    TASK_FIXED,
    TASK_ELEMENT,
    /* A dimension vector: what follows a `[` that may be an outer one, what follows the vector's own, its `$`, its type, its `#`; a
     * dimension or the end. */
    TASK_OUTER,
    TASK_VECTOR,
    TASK_VECTOR_TYPE,
    TASK_VECTOR_HASH,
    TASK_VECTOR_COUNT,
    TASK_DIMENSION
};

/* The total of what a closing mark ends. */
#define ENDLESS UINT32_MAX

/* The most frames: the message's, those of values and those of a schema. A dimension vector's is open when no schema's is. */
enum { FRAMES = 1 + VALUE_LEVELS + SCHEMA_LEVELS };

/* What is open: what must come next; the token's row, opening mark and first byte; its type's mark, `{` for a schema and 0 for none; its
 * payload's first byte, in a schema the offset in the record; its members so far and in all. */
struct frame {
    enum task task;
    uint32_t row;
    uint8_t mark;
    uint8_t element;
    uint32_t first;
    uint32_t start;
    uint32_t count;
    uint32_t total;
};

/* The machine: what it reads, where it is, and what is open. */
struct machine {
    /* What is lent, the message's bytes and the whole rows counted, and whether the edition has extensions. */
    const uint8_t *message;
    uint32_t end;
    uint32_t *rows;
    size_t lent;
    bool extensions;
    /* The next place, the next row, and the last integer read. */
    uint32_t at;
    uint32_t row;
    uint32_t value;
    /* Of the header that is being read: the open brackets of its schema, the bytes of its record so far, the product of its dimensions
     * so far, their order. */
    uint32_t levels;
    uint64_t offset;
    uint64_t product;
    enum order order;
    /* The refusal: number and place, 0 and 0 while there is none. */
    uint32_t number;
    uint32_t place;
    /* The frames, the innermost last. */
    uint32_t open;
    struct frame frames[FRAMES];
};

/* What a row says of a token, beside its parent and its depth. */
struct token {
    enum kind kind;
    uint8_t mark;
    uint32_t first;
    uint32_t payload;
    uint32_t length;
    uint32_t count;
    uint32_t link;
    enum order order;
};

/* ---- Marks, and what their bytes may be */

/* The bytes that go with a mark; 0 for a mark without. */
uint32_t mark_width(uint8_t mark);

/* Whether a mark is that of an integer which may be negative. */
bool mark_is_signed(uint8_t mark);

/* Whether a mark is that of an integer record. */
bool mark_is_integer(uint8_t mark);

/* Whether a mark is the type of a typed container: those with bytes. */
bool mark_is_type(uint8_t mark);

/* Whether a mark is that of a value which is its mark and its bytes. */
bool mark_is_scalar(uint8_t mark);

/* The mark that closes what a mark opened. */
uint8_t mark_closing(uint8_t mark);

/* Whether so many bytes are right for a mark: a text's, a number's, a char's; in a record, a boolean's. */
bool content_fits(uint8_t mark, const uint8_t *bytes, uint32_t length);

/* ---- The machine. Here and below, a function that answers false has refused, but those that say whether something is so. */

/* Refuses, with a number at a place. */
static inline bool refuse(struct machine *m, enum refusal number, uint32_t place)
{
    m->number = number;
    m->place = place;
    return false;
}

/* Refuses the byte that stands here, or the message's end. */
static inline bool unexpected(struct machine *m)
{
    return refuse(m, m->at < m->end ? UNEXPECTED_BYTE : MESSAGE_ENDS, m->at);
}

/* Asks for so many bytes from here on. */
static inline bool has_bytes(struct machine *m, uint64_t bytes)
{
    return bytes <= m->end - m->at || refuse(m, MESSAGE_ENDS, m->end);
}

/* Asks for a row for the token with this first byte. */
static inline bool has_row(struct machine *m, uint32_t first)
{
    return m->row < m->lent || refuse(m, ROWS_USED_UP, first);
}

/* The byte that stands here; at the end 0, which is no mark. */
static inline uint8_t here(const struct machine *m)
{
    return m->at < m->end ? m->message[m->at] : 0;
}

/* Opens a frame for what begins here, at its opening mark. */
static inline struct frame *push(struct machine *m, enum task task, uint8_t mark)
{
    struct frame *f = &m->frames[m->open++];
    *f = (struct frame){.task = task, .row = m->row, .mark = mark, .first = m->at, .total = ENDLESS};
    return f;
}

/* Closes the innermost frame. */
static inline bool pop(struct machine *m)
{
    m->open--;
    return true;
}

/* Turns a frame to another task, past the byte that stands here. */
static inline bool turn(struct machine *m, struct frame *f, enum task task)
{
    f->task = task;
    m->at++;
    return true;
}

/* The words of a row. */
static inline uint32_t *row_at(const struct machine *m, uint32_t row)
{
    return m->rows + (size_t)row * ROW_WORDS;
}

/* Stores the row of a token that stands in what is open. */
bool store(struct machine *m, uint32_t row, struct token t);

/* Stores a token that holds no others in the next row. */
bool store_next(struct machine *m, struct token t);

/* ---- Integers, and tokens that hold no others */

/* Reads the number that stands here, of a mark, up to a limit; a refusal of it is at the place given. */
bool read_bare_integer(struct machine *m, uint8_t mark, uint32_t place, uint32_t limit);

/* Reads the integer record that stands here, up to a limit. */
bool read_integer(struct machine *m, uint32_t limit);

/* Reads a scalar, at its mark. */
bool read_scalar(struct machine *m);

/* Reads a scalar without mark, of the type given. */
bool read_unmarked(struct machine *m, uint8_t mark);

/* Reads a text or a number, at its mark. */
bool read_text(struct machine *m, enum kind kind);

/* Reads a key, at the mark of its length. */
bool read_key(struct machine *m);

/* Reads an extension, at its mark, which only one edition has: id, length and so many bytes. */
bool read_extension(struct machine *m);

/* ---- The steps of headers, schemas and dimension vectors: one for each task. */
bool step_header(struct machine *m, struct frame *f);
bool step_type(struct machine *m, struct frame *f);
bool step_hash(struct machine *m, struct frame *f);
bool step_count(struct machine *m, struct frame *f);
bool step_field(struct machine *m, struct frame *f);
bool step_field_kind(struct machine *m, struct frame *f);
bool step_fixed(struct machine *m, struct frame *f);
bool step_element(struct machine *m, struct frame *f);
bool step_outer(struct machine *m, struct frame *f);
bool step_vector(struct machine *m, struct frame *f);
bool step_vector_type(struct machine *m, struct frame *f);
bool step_vector_hash(struct machine *m, struct frame *f);
bool step_vector_count(struct machine *m, struct frame *f);
bool step_dimension(struct machine *m, struct frame *f);

#endif
