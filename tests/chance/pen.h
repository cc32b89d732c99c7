/* A pen: what choices are drawn from, and bytes are written with. What it draws is always the same for the same number. */
#ifndef PEN_H
#define PEN_H

#include <stdbool.h>
#include <stddef.h>
#include <stdint.h>

/* A pen: it draws numbers, and writes bytes into the buffer that goes with it. */
struct pen {
    /* What the numbers are drawn from. */
    uint64_t state;
    /* Whether faults are written now and then. */
    bool faulty;
    /* The buffer, its length, and where the next byte goes. */
    uint8_t *buffer;
    size_t room;
    size_t at;
};

/* The pen of a message: the number of the message, spread over the state. */
struct pen pen_of(uint64_t number, uint8_t *buffer, size_t room);

/* Draws a number below the sides, by Marsaglia's xorshift; 0 if there are no sides. */
uint32_t pen_draw(struct pen *pen, uint32_t sides);

/* Draws whether a fault is written here: once in so many times, and never if the pen writes none. */
bool pen_slips(struct pen *pen, uint32_t sides);

/* Writes a byte; what the buffer has no room for is dropped. */
void pen_put(struct pen *pen, uint8_t byte);

/* Writes the lowest bytes of a number, the lowest first. */
void pen_put_number(struct pen *pen, uint64_t number, size_t bytes);

#endif
