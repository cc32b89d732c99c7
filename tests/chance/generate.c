/* Writes a message's value with all that is in it, edits some messages as a fault of a sender or a lie would, and gives each message its
 * number. */
#include "generate.h"

#include "generate_parts.h"

/* ---- Values. */

/* The forms of a bracket: an array or an object, with a closing mark or with a count. */
enum { OBJECT = 1, COUNTED_ARRAY = 2, COUNTED_OBJECT = 3 };

/* The most levels, unless faults are written. */
enum { LEVELS = 32 };

/* Where a message is long enough: from there on it has scalars, texts, numbers and extensions alone. */
enum { LONG = 300 };

/* The steps in which a message is written. */
enum { STEPS = 400 };

/* Draws a type; as a fault the mark of an extension, which is none. */
static uint8_t type_mark(struct pen *pen)
{
    bool slips = pen_slips(pen, 60);
    uint8_t mark = letter("iUIulmLMhdDCBCCU", pen_draw(pen, 16));
    return slips ? 'E' : mark;
}

/* Writes a packed array; its payload is left out where it is too long. */
static void write_packed(struct pen *pen)
{
    uint8_t mark = type_mark(pen);
    uint32_t most, count;
    pen_put(pen, '[');
    write_type(pen, mark);
    /* Few elements, or more than a byte can say. */
    most = pen_draw(pen, 24) == 0 ? 300 : 20;
    count = write_count(pen, most, true);
    if (limited_product(count, width_of(mark)) <= MOST_BYTES) {
        write_elements(pen, mark, count);
    }
}

/* Writes keys, each with a value of a mark. */
static void write_pairs(struct pen *pen, uint8_t mark, uint32_t count)
{
    uint32_t left;
    for (left = count; 0 < left; left--) {
        write_key(pen);
        write_payload(pen, mark);
    }
}

/* Writes a typed object. */
static void write_typed_object(struct pen *pen)
{
    uint8_t mark = type_mark(pen);
    uint32_t count;
    pen_put(pen, '{');
    write_type(pen, mark);
    count = pen_draw(pen, 5);
    write_integer(pen, count);
    write_pairs(pen, mark, count);
}

/* Draws how many members an array or an object has: few, or now and then many; one at least if more are to be opened. */
static uint32_t drawn_members(struct pen *pen, uint32_t ahead)
{
    if (ahead == 0) {
        return pen_draw(pen, pen_draw(pen, 16) == 0 ? 40 : 5);
    }
    return pen_draw(pen, 2) + 1;
}

/* Draws a form: if more are to be opened, most often an array's, which needs fewer rows. */
static uint32_t drawn_form(struct pen *pen, uint32_t ahead)
{
    uint32_t choice = pen_draw(pen, 8);
    return ahead == 0 || choice < 2 ? choice % 4 : choice % 2 * COUNTED_ARRAY;
}

/* Opens an array or an object, with its count if it has one. */
static void open_value(struct pen *pen, struct nesting *nesting)
{
    uint32_t form = drawn_form(pen, nesting->ahead), members = drawn_members(pen, nesting->ahead);
    nesting_open(nesting, form, members);
    pen_put(pen, letter("[{[{", form));
    if (COUNTED_ARRAY <= form) {
        pen_put(pen, '#');
        write_integer(pen, members);
    }
}

/* Writes a value that holds no value with a mark. */
static void write_closed(struct pen *pen, uint32_t choice)
{
    switch (choice) {
    case 0: case 1: case 2: case 3:
        write_scalar(pen);
        break;
    case 4: case 5:
        write_text(pen);
        break;
    case 6:
        write_numeral(pen);
        break;
    case 7: case 8:
        write_extension(pen);
        break;
    case 9:
        write_typed_object(pen);
        break;
    case 10: case 11: case 12:
        write_packed(pen);
        break;
    default:
        write_table(pen);
        break;
    }
}

/* Writes a value: an array or an object while some are to be opened, or now and then. */
static void write_value(struct pen *pen, struct nesting *nesting)
{
    uint32_t choice = pen_draw(pen, 22);
    if (0 < nesting->ahead) {
        open_value(pen, nesting);
    } else if (LONG < pen->at || LEVELS <= nesting->open) {
        write_closed(pen, choice % 9);
    } else if (16 < choice) {
        open_value(pen, nesting);
    } else {
        write_closed(pen, choice);
    }
}

/* Writes the end of an array or an object: a closing mark, if it has no count. */
static void write_end(struct pen *pen, struct nesting *nesting, uint32_t form)
{
    nesting->open--;
    if (form < COUNTED_ARRAY) {
        write_noops(pen);
        pen_put(pen, letter("]}", form));
    }
}

/* Writes a member of the innermost array or object, with its key in an object, or the end. */
static void write_step(struct pen *pen, struct nesting *nesting)
{
    struct bracket *top = nesting_top(nesting);
    if (top->left == 0) {
        write_end(pen, nesting, top->form);
        return;
    }
    top->left--;
    write_noops(pen);
    if (top->form == OBJECT || top->form == COUNTED_OBJECT) {
        write_key(pen);
        write_noops(pen);
    }
    write_value(pen, nesting);
}

/* Draws how deep the message's first values go: not at all most often, and to the limit; as a fault beyond. */
static uint32_t depth(struct pen *pen)
{
    if (pen_draw(pen, 24) == 0) {
        return pen_draw(pen, 33);
    }
    return pen_slips(pen, 10) ? pen_draw(pen, 5) + 32 : 0;
}

/* Writes a message in order: its value, and all that is in it. */
static void write_whole(struct pen *pen)
{
    struct nesting nesting = {0};
    int left;
    nesting.ahead = depth(pen);
    write_noops(pen);
    write_value(pen, &nesting);
    for (left = STEPS; 0 < left && 0 < nesting.open; left--) {
        write_step(pen, &nesting);
    }
    write_noops(pen);
}

/* ---- Edits of a message: what a fault of a sender, or a lie, would make of it. */

/* Draws a mark. */
static uint8_t drawn_mark(struct pen *pen)
{
    return letter("[]{}$#ZTFiUIulmLMhdDCBSHNE", pen_draw(pen, 26));
}

/* A number that is known to be small. */
static uint32_t small(size_t number)
{
    return number < 0x40000000 ? (uint32_t)number : 0;
}

/* Draws a place of the message. */
static size_t drawn_place(struct pen *pen)
{
    return pen_draw(pen, small(pen->at));
}

/* Draws a byte: a mark most often, else any. */
static uint8_t drawn_byte(struct pen *pen)
{
    return pen_draw(pen, 3) == 0 ? (uint8_t)pen_draw(pen, 256) : drawn_mark(pen);
}

/* The message's byte at a place; 0 where there is none. */
static uint8_t byte_at(const struct pen *pen, size_t at)
{
    return at < pen->at ? pen->buffer[at] : 0;
}

/* Stores a byte of the message; none where the place is beyond it. */
static void set_byte(struct pen *pen, size_t at, uint8_t byte)
{
    if (at < pen->at) {
        pen->buffer[at] = byte;
    }
}

/* Cuts the message off. */
static void cut(struct pen *pen)
{
    pen->at = drawn_place(pen);
}

/* Puts another byte in place of one. */
static void replace(struct pen *pen)
{
    size_t at = drawn_place(pen);
    set_byte(pen, at, drawn_byte(pen));
}

/* Flips a bit. */
static void flip(struct pen *pen)
{
    size_t at = drawn_place(pen);
    uint32_t bit = 1u << pen_draw(pen, 8);
    set_byte(pen, at, (uint8_t)(byte_at(pen, at) ^ bit));
}

/* Puts a byte in: those from its place on move one place up, and the last goes where there is room for it. */
static void insert(struct pen *pen)
{
    size_t at = drawn_place(pen);
    uint8_t carried = drawn_byte(pen);
    for (; at < pen->at; at++) {
        uint8_t next = byte_at(pen, at);
        set_byte(pen, at, carried);
        carried = next;
    }
    pen_put(pen, carried);
}

/* Takes a byte out: those after it move one place down. */
static void delete(struct pen *pen)
{
    size_t at = drawn_place(pen);
    for (; at < pen->at; at++) {
        set_byte(pen, at, byte_at(pen, at + 1));
    }
    if (0 < pen->at) {
        pen->at--;
    }
}

/* Swaps two bytes. */
static void swap(struct pen *pen)
{
    size_t a = drawn_place(pen), b = drawn_place(pen);
    uint8_t first = byte_at(pen, a);
    set_byte(pen, a, byte_at(pen, b));
    set_byte(pen, b, first);
}

/* Lies about a number: the byte after the first mark of an integer from a place on is made other by little. */
static void lie(struct pen *pen)
{
    size_t at = drawn_place(pen);
    uint32_t by = pen_draw(pen, 4);
    while (at < pen->at && !is_integer_mark(byte_at(pen, at))) {
        at++;
    }
    set_byte(pen, at + 1, (uint8_t)(byte_at(pen, at + 1) + 254 + by));
}

/* Writes a few marks after the message. */
static void append(struct pen *pen)
{
    pen_put(pen, drawn_byte(pen));
    pen_put(pen, drawn_byte(pen));
}

/* Makes one edit. */
static void edit(struct pen *pen)
{
    static void (*const edits[])(struct pen *pen) = {cut, replace, flip, insert, delete, swap, lie, append};
    edits[pen_draw(pen, 8)](pen);
}

/* Writes a message in order, and edits it once or twice. */
static void write_edited(struct pen *pen)
{
    write_whole(pen);
    edit(pen);
    if (pen_draw(pen, 4) == 0) {
        edit(pen);
    }
}

/* Writes a message that is marks and small numbers, without any order. */
static void write_noise(struct pen *pen)
{
    uint32_t left;
    for (left = pen_draw(pen, 24); 0 < left; left--) {
        pen_put(pen, pen_draw(pen, 4) == 0 ? (uint8_t)pen_draw(pen, 4) : drawn_mark(pen));
    }
}

/* ---- Messages by their numbers. Of sixteen, six are in order, five have faults, two are in order and edited, two have faults and are
 * edited, and one is marks without order. */

size_t generate_message(uint64_t number, uint8_t *buffer, size_t room)
{
    struct pen pen = pen_of(number, buffer, room);
    uint32_t choice = pen_draw(&pen, 16);
    pen.faulty = choice % 2 == 1 && choice != 15;
    if (choice < 11) {
        write_whole(&pen);
    } else if (choice < 15) {
        write_edited(&pen);
    } else {
        write_noise(&pen);
    }
    return pen.at;
}

/* The words of a row. */
enum { ROW_WORDS = 10 };

/* Draws how many rows are to be lent for a message of so many bytes: most often one for each byte; else few for the length, few, or about
 * as many as the deepest messages need. All but the first are drawn in eighths of a row. */
static uint32_t drawn_rows(struct pen *pen, uint32_t bytes)
{
    switch (pen_draw(pen, 8)) {
    case 0:
        return pen_draw(pen, 3 * bytes + 9) / 8;
    case 1:
        return pen_draw(pen, 330) / 8;
    case 2:
        return pen_draw(pen, 128) / 8 + 33;
    default:
        return bytes;
    }
}

size_t generate_words(uint64_t number, size_t length)
{
    struct pen pen = pen_of(number ^ UINT64_C(0x0F0F00000000), NULL, 0);
    size_t rows = drawn_rows(&pen, small(length));
    return rows * ROW_WORDS + pen_draw(&pen, 10);
}
