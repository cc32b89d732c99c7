/* Messages made by chance, the same each time: every construct of document 01 and request No. 1, messages with faults, edited ones, and
 * marks without order. A message has a number, and a caller can have it again by that number. */
#ifndef GENERATE_H
#define GENERATE_H

#include <stddef.h>
#include <stdint.h>

/* The bytes of the buffers that the programs lend. One of the first 500,000 messages is longer, number 199,599, and is cut. */
enum { GENERATE_ROOM = 2048 };

/* Writes message so and so into a buffer; answers its length. */
size_t generate_message(uint64_t number, uint8_t *buffer, size_t room);

/* The words to be lent for message so and so, of a length: those of the rows, and up to nine more. */
size_t generate_words(uint64_t number, size_t length);

#endif
