// The header is C++ too.
#include "tanklefrost.h"

int main()
{
    const uint8_t message[] = {'[', 'Z', ']'};
    const size_t words = 2 * TANKLEFROST_ROW_WORDS;
    uint32_t rows[2 * TANKLEFROST_ROW_WORDS];
    tanklefrost_reading a = tanklefrost_read(TANKLEFROST_NEW_EDITION, message, sizeof message, rows, words);
    uint64_t needed = tanklefrost_rows_needed(message, sizeof message);
    tanklefrost_scalar v = tanklefrost_value_at_row(message, sizeof message, rows, words, 1);
    return a.number == TANKLEFROST_DONE && a.amount == 2 && tanklefrost_answer_rows(needed) == 2 && v.number == 0 && v.kind == 1 && v.value_case == TANKLEFROST_NULL ? 0 : 1;
}
