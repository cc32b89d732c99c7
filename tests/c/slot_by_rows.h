/* A slot by table, leaf and record from the calls with a row table: what tanklefrost_slot is compared with. */
#ifndef SLOT_BY_ROWS_H
#define SLOT_BY_ROWS_H

#include <stddef.h>
#include <stdint.h>

uint64_t slot_by_rows(const uint8_t *message, size_t length, size_t table, size_t leaf, size_t record);

#endif
