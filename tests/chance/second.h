/* A second reader, written from document 01 and requests No. 1 and No. 8 apart from the first and in another shape and language, to be
 * compared with it. */
#ifndef SECOND_H
#define SECOND_H

#include "tanklefrost.h"

/* Reads a message by an edition into lent rows, and answers as tanklefrost_read does. */
struct tanklefrost_reading second_read(
    uint32_t edition, const uint8_t *message, size_t message_length, uint32_t *rows, size_t row_words);

#endif
