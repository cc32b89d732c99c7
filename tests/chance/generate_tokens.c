/* Integer records, tokens that hold no others, and extensions. */
#include "generate_parts.h"

#include <string.h>

/* ---- Integer records: lengths, counts, dimensions and ids. */

/* The largest number that an integer of a mark may be asked to hold. */
static uint32_t largest(uint8_t mark)
{
    switch (mark) {
    case 'i':
        return 127;
    case 'U':
        return 255;
    case 'I':
        return 32767;
    case 'u':
        return 65535;
    case 'l':
        return 0x7FFFFFFF;
    default:
        return 0xFFFFFFFF;
    }
}

/* Draws a mark that can hold a number: most often `U`, else any. */
static uint8_t fitting_mark(struct pen *pen, uint32_t number)
{
    uint32_t choice = pen_draw(pen, 16);
    uint8_t mark = choice < 8 ? letter("iUIulmLM", choice) : 'U';
    return number <= largest(mark) ? mark : 'm';
}

/* Writes an integer record of the mark. */
static void write_record(struct pen *pen, uint8_t mark, uint64_t number)
{
    pen_put(pen, mark);
    pen_put_number(pen, number, width_of(mark));
}

/* Writes an integer that is refused: negative, or over the limit by little or by much. */
static void write_wrong_integer(struct pen *pen)
{
    static const uint64_t numbers[] = {
        0xFF, 0x8000, 0xFFFFFF00, UINT64_C(0x8000000000000000), 1048577, 0x80000001, UINT64_C(0x100000002), UINT64_C(0xFFFFFFFFFFFFFFFE)};
    uint32_t choice = pen_draw(pen, 8);
    write_record(pen, letter("iIlLlmLM", choice), numbers[choice]);
}

void write_integer(struct pen *pen, uint32_t number)
{
    if (pen_slips(pen, 20)) {
        write_wrong_integer(pen);
    } else {
        write_record(pen, fitting_mark(pen, number), number);
    }
}

/* ---- Scalars, and what may stand before them. */

void write_noops(struct pen *pen)
{
    uint32_t choice = pen_draw(pen, 24);
    if (choice <= 2) {
        pen_put(pen, 'N');
    }
    if (choice == 0) {
        pen_put(pen, 'N');
    }
}

/* The bits for a number: few, so that the small ones come often; or all. They are drawn with a copy: the caller's pen stays as it was. */
static uint64_t bits(struct pen copy)
{
    uint32_t choice = pen_draw(&copy, 3);
    return choice == 0 ? copy.state : copy.state % 8;
}

void write_payload(struct pen *pen, uint8_t mark)
{
    bool slips = pen_slips(pen, 24);
    uint32_t choice = pen_draw(pen, 128);
    if (mark == 'C') {
        pen_put(pen, (uint8_t)(slips ? choice | 128 : choice));
    } else if (mark == 'T') {
        pen_put(pen, letter("TFt", slips ? 2 : choice % 2));
    } else {
        pen_put_number(pen, bits(*pen), width_of(mark));
    }
}

void write_elements(struct pen *pen, uint8_t mark, uint32_t count)
{
    uint32_t left;
    for (left = count; 0 < left; left--) {
        write_payload(pen, mark);
    }
}

void write_scalar(struct pen *pen)
{
    uint32_t choice = pen_draw(pen, 16);
    uint8_t mark = letter("ZTFiUIulmLMhdDCB", choice);
    pen_put(pen, mark);
    if (3 <= choice) {
        write_payload(pen, mark);
    }
}

/* ---- Texts and keys. */

/* Draws the lead byte of a character that has so many bytes beyond it; as a fault a byte that is none. */
static uint8_t lead(struct pen *pen, uint32_t beyond)
{
    bool slips = pen_slips(pen, 40);
    uint32_t choice = pen_draw(pen, 128);
    if (slips) {
        return (uint8_t)(choice < 64 ? 0x80 + choice : 0xF8 + choice % 8);
    }
    switch (beyond) {
    case 0:
        return (uint8_t)choice;
    case 1:
        return (uint8_t)(0xC0 + choice % 32);
    case 2:
        return (uint8_t)(0xE0 + choice % 16);
    default:
        return (uint8_t)(0xF0 + choice % 8);
    }
}

/* Draws a byte that follows in a character; as a fault one that can't. */
static uint8_t following(struct pen *pen)
{
    bool slips = pen_slips(pen, 40);
    uint32_t choice = pen_draw(pen, 64);
    if (slips) {
        return (uint8_t)(choice < 32 ? choice : 0xC0 + choice);
    }
    return (uint8_t)(0x80 + choice);
}

/* Writes a character: a lead byte, and so many beyond it. */
static void write_character(struct pen *pen, uint32_t beyond)
{
    uint32_t left;
    pen_put(pen, lead(pen, beyond));
    for (left = beyond; 0 < left; left--) {
        pen_put(pen, following(pen));
    }
}

void write_characters(struct pen *pen, uint32_t bytes)
{
    uint32_t left = bytes;
    while (0 < left) {
        uint32_t choice = pen_draw(pen, 8), beyond = choice < 4 && choice < left ? choice : 0;
        write_character(pen, beyond);
        left -= 1 + beyond;
    }
}

/* Writes so many bytes below 128, or, as a fault, now and then another. */
static void write_letters(struct pen *pen, uint32_t bytes)
{
    uint32_t left;
    for (left = bytes; 0 < left; left--) {
        uint32_t higher = pen_slips(pen, 100) ? 128 : 0;
        pen_put(pen, (uint8_t)(pen_draw(pen, 128) + higher));
    }
}

/* Writes the length of a text and the text, in half of them of bytes below 128 alone. */
static void write_sized(struct pen *pen, uint32_t bytes)
{
    write_integer(pen, bytes);
    if (pen_draw(pen, 2) == 0) {
        write_letters(pen, bytes);
    } else {
        write_characters(pen, bytes);
    }
}

/* Draws how many bytes a text has: few; about 16 or about 32, which are tested at a time; or now and then more than a byte can say. */
static uint32_t text_bytes(struct pen *pen)
{
    uint32_t choice = pen_draw(pen, 64);
    if (choice == 0) {
        return pen_draw(pen, 400);
    }
    return pen_draw(pen, 9) + (choice <= 4 ? 12 : choice <= 8 ? 28 : 0);
}

void write_text(struct pen *pen)
{
    uint32_t bytes = text_bytes(pen);
    pen_put(pen, 'S');
    write_sized(pen, bytes);
}

void write_key(struct pen *pen)
{
    switch (pen_draw(pen, 8)) {
    case 0:
        write_sized(pen, 0);
        break;
    case 1:
        write_sized(pen, text_bytes(pen));
        break;
    default:
        write_integer(pen, 1);
        pen_put(pen, letter("abc", pen_draw(pen, 3)));
        break;
    }
}

void write_type(struct pen *pen, uint8_t mark)
{
    pen_put(pen, '$');
    pen_put(pen, mark);
    pen_put(pen, '#');
}

/* ---- High-precision numbers: forms in which `n` stands for a digit from 1 to 9, and `d` for any. */

/* Draws the byte that a letter of a form stands for. */
static uint8_t digit(struct pen *pen, char of_form)
{
    uint32_t choice = pen_draw(pen, 90);
    return (uint8_t)(of_form == 'n' ? '1' + choice % 9 : of_form == 'd' ? '0' + choice % 10 : (uint32_t)of_form);
}

/* Writes the length of a number of a form, and the number. */
static void write_form(struct pen *pen, const char *form)
{
    const char *at;
    write_integer(pen, (uint32_t)strlen(form));
    for (at = form; *at != 0; at++) {
        pen_put(pen, digit(pen, *at));
    }
}

void write_numeral(struct pen *pen)
{
    static const char *const right[] = {
        "0", "-0", "n", "-ndd", "0.d", "nd.ddd", "ne0", "0E+dd", "-nde-d", "-0.0e+0n", "nd.dEddd", "n.d"};
    static const char *const wrong[] = {
        "", "-", "0d", "-0n", "n.", ".d", "ne", "nE+", "n.e1", "+n", "n.dd.d", "-n.dd+Edd", "ne1.0", "nx"};
    bool slips = pen_slips(pen, 6);
    pen_put(pen, 'H');
    write_form(pen, slips ? wrong[pen_draw(pen, 14)] : right[pen_draw(pen, 12)]);
}

/* ---- Extensions: an id, a length and so many bytes. */

/* The bytes that an id asks for; 0 of an opaque one, which takes any number. */
static uint32_t size_of_id(uint32_t id)
{
    static const uint8_t sizes[] = {0, 4, 8, 12, 4, 4, 8, 8, 8, 16, 16};
    return id < sizeof sizes ? sizes[id] : 0;
}

/* Draws an id: most often one that asks for a size, or 0 or 11 beside those; else an opaque one: the largest that a mark holds, one more,
 * and those about the limit of a length. */
static uint32_t drawn_id(struct pen *pen)
{
    static const uint32_t opaque[] = {255, 256, 65536, 1048576, 1048577, 0x7FFFFFFF, 0x80000000, 0xFFFFFFFF};
    return pen_draw(pen, 4) != 0 ? pen_draw(pen, 12) : opaque[pen_draw(pen, 8)];
}

/* Writes an id that is refused: negative, or of more than 32 bits. */
static void write_wrong_id(struct pen *pen)
{
    static const uint64_t numbers[] = {
        0xFF, 0x8001, 0x80000000, UINT64_C(0xFFFFFFFFFFFFFFFF), UINT64_C(0x100000000), UINT64_C(0x100000000), UINT64_C(0x7F00000000000001),
        UINT64_C(0x8000000000000001)};
    uint32_t choice = pen_draw(pen, 8);
    write_record(pen, letter("iIlLLMLM", choice), numbers[choice]);
}

/* Writes an id. */
static void write_id(struct pen *pen, uint32_t id)
{
    if (pen_slips(pen, 12)) {
        write_wrong_id(pen);
    } else {
        write_record(pen, fitting_mark(pen, id), id);
    }
}

/* Draws a length: the one that the id asks for; of an opaque id few, none too, or now and then more than a byte can say; as a fault such
 * a length for any id. */
static uint32_t extension_bytes(struct pen *pen, uint32_t id)
{
    bool slips = pen_slips(pen, 6);
    uint32_t any = pen_draw(pen, pen_draw(pen, 16) == 0 ? 400 : 20), asked = size_of_id(id);
    return !slips && 0 < asked ? asked : any;
}

void write_extension(struct pen *pen)
{
    uint32_t id = drawn_id(pen), bytes = extension_bytes(pen, id);
    pen_put(pen, 'E');
    write_id(pen, id);
    write_integer(pen, bytes);
    /* As a fault the payload has fewer bytes. */
    write_elements(pen, 'B', pen_slips(pen, 16) ? pen_draw(pen, bytes) : bytes);
}
