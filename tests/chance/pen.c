/* The pen: Marsaglia's xorshift, and bytes put into a buffer. */
#include "pen.h"

struct pen pen_of(uint64_t number, uint8_t *buffer, size_t room)
{
    struct pen pen = {UINT64_C(0x9E3779B97F4A7C15) ^ number ^ (number << 24) ^ (number << 44), false, buffer, room, 0};
    int left;
    for (left = 8; 0 < left; left--) {
        pen_draw(&pen, 2);
    }
    return pen;
}

uint32_t pen_draw(struct pen *pen, uint32_t sides)
{
    pen->state ^= pen->state << 13;
    pen->state ^= pen->state >> 7;
    pen->state ^= pen->state << 17;
    return sides == 0 ? 0 : (uint32_t)((pen->state >> 20) % sides);
}

bool pen_slips(struct pen *pen, uint32_t sides)
{
    uint32_t drawn = pen_draw(pen, sides);
    return pen->faulty && drawn == 0;
}

void pen_put(struct pen *pen, uint8_t byte)
{
    if (pen->at < pen->room) {
        pen->buffer[pen->at++] = byte;
    }
}

void pen_put_number(struct pen *pen, uint64_t number, size_t bytes)
{
    size_t i;
    for (i = 0; i < bytes; i++) {
        pen_put(pen, (uint8_t)(number >> 8 * i));
    }
}
