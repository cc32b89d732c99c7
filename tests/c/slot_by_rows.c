/* Reads to rows by the new edition, counts tables and leaves there, and asks for the slot. */
#include "slot_by_rows.h"

#include <stdlib.h>

#include "tanklefrost.h"

uint64_t slot_by_rows(const uint8_t *message, size_t length, size_t table, size_t leaf, size_t record)
{
    size_t words = length * TANKLEFROST_ROW_WORDS, row, at, dims = 0, left = record, indexes[8];
    uint32_t *rows = (uint32_t *)malloc(words * sizeof *rows + 1);
    struct tanklefrost_reading read;
    struct tanklefrost_place place;
    uint64_t answer = TANKLEFROST_NOT_THERE;

    if (rows == NULL) {
        exit(2);
    }
    read = tanklefrost_read(TANKLEFROST_NEW_EDITION, message, length, rows, words);
    if (read.number != 0) {
        free(rows);
        return read.number;
    }
#define ROW(n) (rows + (n) * TANKLEFROST_ROW_WORDS)
    for (row = 0; row < read.amount; row++) {
        if (ROW(row)[0] == 8 && table-- == 0) {
            break;
        }
    }
    if (row < read.amount && record < ROW(row)[5]) {
        size_t schema_end = ROW(row + 1)[6];
        for (at = row + 1; at < schema_end; at++) {
            if (ROW(at)[0] == 9 && leaf-- == 0) {
                break;
            }
        }
        if (at < schema_end) {
            if (ROW(row)[7] == 0) {
                indexes[dims++] = record;
            } else {
                size_t d;
                dims = ROW(row)[6] - schema_end;
                for (d = dims; 0 < d; d--) {
                    size_t extent = ROW(schema_end + d - 1)[5];
                    indexes[d - 1] = left % extent;
                    left /= extent;
                }
            }
            place = tanklefrost_table_slot(rows, words, (uint32_t)length, row, at, indexes, dims);
            answer = place.number + ((uint64_t)place.first << 8) + ((uint64_t)place.width << 32);
        }
    }
#undef ROW
    free(rows);
    return answer;
}
