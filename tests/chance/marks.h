/* The widths of marks, as the generator and the programs have them; the second reader has its own. */
#ifndef MARKS_H
#define MARKS_H

#include <stdint.h>

/* The bytes that go with a mark; 0 where none do. */
static inline uint32_t width_of(uint8_t mark)
{
    switch (mark) {
    case 'i': case 'U': case 'C': case 'B':
        return 1;
    case 'I': case 'u': case 'h':
        return 2;
    case 'l': case 'm': case 'd':
        return 4;
    case 'L': case 'M': case 'D':
        return 8;
    default:
        return 0;
    }
}

#endif
