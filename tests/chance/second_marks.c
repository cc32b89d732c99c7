/* The marks, their widths, and what the bytes of a text, a high-precision number, a char and a boolean may be. */
#include "second_parts.h"

uint32_t mark_width(uint8_t mark)
{
    switch (mark) {
    case 'i': case 'U': case 'C': case 'B':
        return 1;
    case 'I': case 'u': case 'h':
        return 2;
    case 'l': case 'm': case 'd':
        return 4;
    case 'L': case 'M': case 'D':
        return 8;
    default:
        return 0;
    }
}

bool mark_is_signed(uint8_t mark)
{
    return mark == 'i' || mark == 'I' || mark == 'l' || mark == 'L';
}

bool mark_is_integer(uint8_t mark)
{
    return mark_is_signed(mark) || mark == 'U' || mark == 'u' || mark == 'm' || mark == 'M';
}

bool mark_is_type(uint8_t mark)
{
    return mark_width(mark) > 0;
}

bool mark_is_scalar(uint8_t mark)
{
    return mark_is_type(mark) || mark == 'Z' || mark == 'T' || mark == 'F';
}

uint8_t mark_closing(uint8_t mark)
{
    return mark == '[' ? ']' : '}';
}

/* How many bytes the character with this lead byte has; 0 where it is no lead byte. */
static uint32_t character(uint8_t lead)
{
    if (lead < 0x80) {
        return 1;
    }
    if (lead < 0xC0 || lead > 0xF7) {
        return 0;
    }
    return lead < 0xE0 ? 2 : lead < 0xF0 ? 3 : 4;
}

/* Whether so many bytes are all 80 to BF. */
static bool are_following(const uint8_t *bytes, uint32_t length)
{
    uint32_t i;
    for (i = 0; i < length; i++) {
        if (bytes[i] < 0x80 || bytes[i] > 0xBF) {
            return false;
        }
    }
    return true;
}

/* Whether so many bytes are whole characters. */
static bool is_text(const uint8_t *bytes, uint32_t length)
{
    uint32_t at, size;
    for (at = 0; at < length; at += size) {
        size = character(bytes[at]);
        if (size == 0 || size > length - at || !are_following(bytes + at + 1, size - 1)) {
            return false;
        }
    }
    return true;
}

/* The place after the one of two bytes that stands here, or here. */
static const uint8_t *after_either(const uint8_t *at, const uint8_t *end, uint8_t one, uint8_t other)
{
    return at < end && (*at == one || *at == other) ? at + 1 : at;
}

/* The place after the digits that stand here; NULL where none does. */
static const uint8_t *after_digits(const uint8_t *from, const uint8_t *end)
{
    const uint8_t *at = from;
    while (at < end && *at >= '0' && *at <= '9') {
        at++;
    }
    return at == from ? NULL : at;
}

/* The place after the whole part of a number, of which only 0 begins with 0; NULL where none stands here. */
static const uint8_t *after_whole(const uint8_t *at, const uint8_t *end)
{
    return at < end && *at == '0' ? at + 1 : after_digits(at, end);
}

/* The place after a point and digits, where a point stands here; NULL where it has no digits. */
static const uint8_t *after_fraction(const uint8_t *at, const uint8_t *end)
{
    const uint8_t *digits = after_either(at, end, '.', '.');
    return digits == at ? at : after_digits(digits, end);
}

/* The place after an exponent, where an `e` or `E` stands here; NULL where it has no digits. */
static const uint8_t *after_exponent(const uint8_t *at, const uint8_t *end)
{
    const uint8_t *sign = after_either(at, end, 'e', 'E');
    return sign == at ? at : after_digits(after_either(sign, end, '+', '-'), end);
}

/* Whether the bytes between two places are a JSON number. */
static bool is_number(const uint8_t *at, const uint8_t *end)
{
    at = after_whole(after_either(at, end, '-', '-'), end);
    if (at != NULL) {
        at = after_fraction(at, end);
    }
    return at != NULL && after_exponent(at, end) == end;
}

bool content_fits(uint8_t mark, const uint8_t *bytes, uint32_t length)
{
    switch (mark) {
    case 'S':
        return is_text(bytes, length);
    case 'H':
        return is_number(bytes, bytes + length);
    case 'C':
        return bytes[0] < 128;
    case 'T':
        return bytes[0] == 'T' || bytes[0] == 'F';
    default:
        return true;
    }
}
