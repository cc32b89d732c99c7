/* Tanklefrost: reads, addresses and rewrites BJData messages without a heap. Usable from C99 and C++.
 *
 * Build `rt staticlib tanklefrost`, and link target/staticlib/libtanklefrost.a. Its code is for x86-64 and uses memset of C's library,
 * and nothing else.
 *
 * What holds of every call
 *
 * - It answers for any bytes, any words and any numbers: nothing that they hold is required of the caller. It never fails in another
 *   way, always ends, has no state, takes no memory from a heap, and may be called from several threads at once.
 * - It reads and writes only the memory that it is lent, for the length that goes with each pointer, and only while it runs.
 * - A pointer with length 0 is not read or written through. It may be NULL, and NULL may go with length 0 only.
 * - Lengths of bytes count bytes, lengths of rows count 32-bit words (ten to a row), lengths of indexes count indexes. Words and
 *   indexes must be aligned as their types are. What is written (rows and output) must not overlap what else is lent.
 * - Rows, records, tables, leaves, indexes and places count from 0.
 *
 * Numbers given back, and the place that goes with each where a call answers a place
 *
 *    0  done                                                          0
 *    1  message over the limit of 1,048,576 bytes                     0
 *    2  message ends too early                                        message length
 *    3  byte not allowed here                                         that byte
 *    4  content wrong: text, number in `H`, char, boolean             its first byte
 *       size that the extension's id doesn't have                     the `E`
 *    5  over a limit                                                  the integer's mark, or the container's first byte
 *    6  negative, or 0 or over 8 dimensions                           the integer's mark, or the `[` after `#`
 *    7  too deep                                                      the opening mark
 *    8  no row left                                                   the token's first byte
 *    9  bytes after the value                                         the first that isn't `N`
 *   10  address or name not there                                     0
 *   11  output longer than its room or than 1,048,576 bytes           0
 *   12  rows don't fit the request; no edition has that number        0
 *   13  schema form not built                                         the `H` or `[`
 */
#ifndef TANKLEFROST_H
#define TANKLEFROST_H

#include <stddef.h>
#include <stdint.h>
#include <string.h>

#ifdef __cplusplus
extern "C" {
#endif

enum {
    TANKLEFROST_DONE = 0,
    TANKLEFROST_MESSAGE_TOO_LONG = 1,
    TANKLEFROST_ENDS_TOO_EARLY = 2,
    TANKLEFROST_NOT_ALLOWED = 3,
    TANKLEFROST_WRONG_CONTENT = 4,
    TANKLEFROST_OVER_LIMIT = 5,
    TANKLEFROST_WRONG_INTEGER = 6,
    TANKLEFROST_TOO_DEEP = 7,
    TANKLEFROST_NO_ROW_LEFT = 8,
    TANKLEFROST_BYTES_AFTER = 9,
    TANKLEFROST_NOT_THERE = 10,
    TANKLEFROST_OUTPUT_TOO_LONG = 11,
    TANKLEFROST_ROWS_DONT_FIT = 12,
    TANKLEFROST_NOT_BUILT = 13
};

/* The editions. The old series' messages have no extensions: there an `E` is refused with 3. The new series' messages have them, and all
 * else is read as by the old edition. The caller names the edition in each call that reads a message to rows or rewrites it; any other
 * number, 0 too, is refused with 12 at 0 before the message is looked at. The panel's calls name none: they use the new edition. */
enum {
    TANKLEFROST_OLD_EDITION = 1,
    TANKLEFROST_NEW_EDITION = 2
};

/* A message's highest length, and the words of a row. A message of n bytes has at most n rows, so 10n words are always enough. */
#define TANKLEFROST_LIMIT 1048576
#define TANKLEFROST_ROW_WORDS 10

/* The words of a row by name: word k of row r is rows[r * TANKLEFROST_ROW_WORDS + k]. The link is the row after the token's last
 * descendant. The parent is the row of the token that holds this one, plus one; 0 for the outermost. The depth is 0 for the outermost, and
 * one more than the parent's elsewhere. */
enum {
    TANKLEFROST_WORD_KIND = 0,
    TANKLEFROST_WORD_MARK = 1,
    TANKLEFROST_WORD_FIRST = 2,
    TANKLEFROST_WORD_PAYLOAD = 3,
    TANKLEFROST_WORD_LENGTH = 4,
    TANKLEFROST_WORD_COUNT = 5,
    TANKLEFROST_WORD_LINK = 6,
    TANKLEFROST_WORD_ORDER = 7,
    TANKLEFROST_WORD_PARENT = 8,
    TANKLEFROST_WORD_DEPTH = 9
};

/* ---- The panel: calls with the message only, by the new edition. Rows count as enough, so none of them answers 8.
 *
 * They use no row table and less than 64 KiB of stack, and their time grows with the message's length alone. Each answers one 64-bit
 * number. The functions below take its parts out:
 *
 *   bits  0 to  7   the number
 *   bits  8 to 31   a place, or a slot's first byte
 *   bits 32 to 63   rows, or a slot's width
 */

static inline uint32_t tanklefrost_answer_number(uint64_t answer) { return (uint32_t)(answer & 0xFFu); }
static inline uint32_t tanklefrost_answer_place(uint64_t answer) { return (uint32_t)(answer >> 8 & 0xFFFFFFu); }
static inline uint32_t tanklefrost_answer_first(uint64_t answer) { return (uint32_t)(answer >> 8 & 0xFFFFFFu); }
static inline uint32_t tanklefrost_answer_rows(uint64_t answer) { return (uint32_t)(answer >> 32); }
static inline uint32_t tanklefrost_answer_width(uint64_t answer) { return (uint32_t)(answer >> 32); }

/* Number and place: 0 at 0 for a message that the reader accepts, else its refusal. The upper 32 bits are 0.
 * NULL with length 0 is the empty message: 2 at 0. */
uint64_t tanklefrost_number_and_place(const uint8_t *message, size_t message_length);

/* Number and place, and the rows that the message needs, 0 beside a refusal.
 * NULL with length 0 is the empty message: 2 at 0, no rows. */
uint64_t tanklefrost_rows_needed(const uint8_t *message, size_t message_length);

/* A slot by table, leaf and record: its number, first byte and width, 0 for both beside a refusal. Tables count in message order,
 * leaves in schema order, those in nested records and fixed arrays too, and records in storage order. A refused message answers its
 * own number, without a place; then a table, leaf or record that isn't there is 10.
 * NULL with length 0 is the empty message: 2. */
uint64_t tanklefrost_slot(const uint8_t *message, size_t message_length, size_t table, size_t leaf, size_t record);

/* ---- Reading to rows, and rewriting */

/* Number and place, and the rows used or the bytes written; the amount is 0 beside a refusal. */
struct tanklefrost_reading {
    uint32_t number;
    size_t place;
    size_t amount;
};

/* Reads a message by an edition into lent rows: number, place and rows used. A table of row_words words has row_words / 10 rows; tokens
 * that don't fit are refused with 8. The rows are filled from the first on and all other words are zero, on refusal all words are.
 * An edition that is neither TANKLEFROST_OLD_EDITION nor TANKLEFROST_NEW_EDITION is 12 at 0, whatever the message is.
 *
 * Words of a row: 0 kind, 1 mark, 2 first byte of the token, 3 first payload byte, 4 payload length, 5 count, 6 row after the token's
 * last descendant, 7 order, 8 the parent's row plus one (0 for the outermost), 9 depth (0 for the outermost). An array is the
 * parent of its values, an object of its keys and of their values alike, a record or fixed array of a schema of its keys and kinds, a table
 * of its schema and its dimensions, a packed array of its dimensions.
 *
 * An extension is one row of kind 13 and mark 69 (`E`): words 3 and 4 are its payload's first byte and length, and word 5 is its id, up to
 * 4,294,967,295 (in all other rows word 5 is at most 1,048,576). The id's mark is the message's byte at word 2 + 1. Ids 1 to 10 have
 * payloads of 4, 8, 12, 4, 4, 8, 8, 8, 16 and 16 bytes; another size is 4 at the `E`, before the payload's end is looked at. Other ids
 * have any size. No call looks into a payload: the caller does.
 *
 * NULL with length 0 for the message is the empty message: 2 at 0; for the rows it is a table of no rows: 8 where another number
 * doesn't come first. */
struct tanklefrost_reading tanklefrost_read(
    uint32_t edition, const uint8_t *message, size_t message_length, uint32_t *rows, size_t row_words);

/* Rewrites a message by an edition to house form: number, place and bytes written. The message is read into the lent rows first, which
 * then hold its rows, as after tanklefrost_read. 11 if the house form is longer than output_length or than 1,048,576 bytes; it comes after
 * all of the reader's refusals. On refusal all rows and all output bytes are zero, else what wasn't filled. Any other edition's number is
 * 12 at 0, as in tanklefrost_read. An extension keeps its id, the id's mark and its payload.
 *
 * NULL with length 0 for the message is the empty message: 2 at 0; for the rows, a table of no rows: 8 where another number doesn't
 * come first; for the output, no room: 11 after that. */
struct tanklefrost_reading tanklefrost_rewrite(
    uint32_t edition, const uint8_t *message, size_t message_length, uint32_t *rows, size_t row_words, uint8_t *output,
    size_t output_length);

/* ---- The calls over rows. They change nothing.
 *
 * Rows may come from anywhere: what they hold is tested on the way, and answered with 12 where it doesn't fit. For the rows and the
 * message of one tanklefrost_read that answered 0, these calls answer what the message holds. The slot calls, and those for the value or
 * text in a slot, ask each row on their way, but the packed array's or table's that is named, for its parent (word 8), and answer 12 where
 * it isn't the container in which they meet the row; the other calls don't, and none reads the depth (word 9). NULL with length 0 is a
 * table of no rows: 12 for every row. NULL with length 0 for the message is a message of no bytes; for indexes, no index; for a name, the
 * empty name. */

/* The number, and a slot's or a text's first byte in the message and its width in bytes; both are 0 beside a refusal. */
struct tanklefrost_place {
    uint32_t number;
    size_t first;
    size_t width;
};

/* The slot of a packed row and indexes, in a message of message_length bytes: one index for a plain count, else one for each dimension.
 * 12 if the rows don't fit; then 10 for a wrong number or range of indexes; then 12 for a slot not inside the message. */
struct tanklefrost_place tanklefrost_packed_slot(
    const uint32_t *rows, size_t row_words, uint32_t message_length, size_t row, const size_t *indexes, size_t index_count);

/* The slot of a table row, the row of a leaf of its schema, and indexes. Refuses as tanklefrost_packed_slot does; a leaf that isn't in
 * that table is 12. */
struct tanklefrost_place tanklefrost_table_slot(
    const uint32_t *rows, size_t row_words, uint32_t message_length, size_t row, size_t leaf, const size_t *indexes, size_t index_count);

/* The number, and a scalar's value: its token's kind (1 a scalar, 7 in a packed array, 9 in a table), its case and its bits. All are 0
 * beside a refusal. */
struct tanklefrost_scalar {
    uint32_t number;
    uint32_t kind;
    uint32_t value_case;
    uint64_t bits;
};

/* The cases. Bits: 0 or 1 of a boolean; two's complement of a signed integer (tanklefrost_signed); the number of an unsigned one; those
 * of a single, in the lower 32, and of a double (tanklefrost_single, tanklefrost_double; a NaN keeps all of its bits); the byte of a
 * char or a byte. */
enum {
    TANKLEFROST_NULL = 0,
    TANKLEFROST_BOOLEAN = 1,
    TANKLEFROST_SIGNED = 2,
    TANKLEFROST_UNSIGNED = 3,
    TANKLEFROST_SINGLE = 4,
    TANKLEFROST_DOUBLE = 5,
    TANKLEFROST_CHAR = 6,
    TANKLEFROST_BYTE = 7
};

static inline int64_t tanklefrost_signed(uint64_t bits)
{
    return bits <= INT64_MAX ? (int64_t)bits : -1 - (int64_t)~bits;
}

static inline float tanklefrost_single(uint64_t bits)
{
    uint32_t low = (uint32_t)bits;
    float value;
    memcpy(&value, &low, sizeof value);
    return value;
}

static inline double tanklefrost_double(uint64_t bits)
{
    double value;
    memcpy(&value, &bits, sizeof value);
    return value;
}

/* The value at a row of kind 1. 12 for another row (an extension's too), a mark or length that doesn't fit it, bytes outside the message,
 * or a char or boolean that the reader would refuse. */
struct tanklefrost_scalar tanklefrost_value_at_row(
    const uint8_t *message, size_t message_length, const uint32_t *rows, size_t row_words, size_t row);

/* The value in the slot of a packed row and indexes: as tanklefrost_packed_slot refuses, then as tanklefrost_value_at_row does. */
struct tanklefrost_scalar tanklefrost_value_in_packed(
    const uint8_t *message, size_t message_length, const uint32_t *rows, size_t row_words, size_t row, const size_t *indexes,
    size_t index_count);

/* The value in the slot of a table row, a leaf row and indexes: as tanklefrost_table_slot refuses, then as tanklefrost_value_at_row. */
struct tanklefrost_scalar tanklefrost_value_in_table(
    const uint8_t *message, size_t message_length, const uint32_t *rows, size_t row_words, size_t row, size_t leaf,
    const size_t *indexes, size_t index_count);

/* The first byte and the length of the text at a row of kind 2 (`S`), 3 (`H`) or 4 (a key). 12 for another row (an extension's too), a
 * mark that doesn't fit it, or bytes outside the message. */
struct tanklefrost_place tanklefrost_text_at_row(
    const uint8_t *message, size_t message_length, const uint32_t *rows, size_t row_words, size_t row);

/* The first byte and the length of the text in the slot of a table row, an `S` leaf's row and indexes: as tanklefrost_table_slot
 * refuses, then 12 for a leaf that isn't `S`. */
struct tanklefrost_place tanklefrost_text_in_table(
    const uint8_t *message, size_t message_length, const uint32_t *rows, size_t row_words, size_t row, size_t leaf,
    const size_t *indexes, size_t index_count);

/* The number, and a row; 0 beside a refusal. */
struct tanklefrost_member {
    uint32_t number;
    size_t row;
};

/* The row of the value or kind of the first member with these bytes for a name, in an object or a schema record. 12 for a row, link or
 * key bytes that can't be followed, as the walk meets them; 10 if no name is equal. */
struct tanklefrost_member tanklefrost_lookup(
    const uint8_t *message, size_t message_length, const uint32_t *rows, size_t row_words, size_t row, const uint8_t *name,
    size_t name_length);

#ifdef __cplusplus
}
#endif

#endif
