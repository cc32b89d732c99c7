/* Letters, products, and the brackets that the generator has open. */
#include "generate_parts.h"

#include <string.h>

uint8_t letter(const char *letters, uint32_t i)
{
    return (uint8_t)letters[i];
}

bool is_integer_mark(uint8_t byte)
{
    return byte != 0 && strchr("iUIulmLM", byte) != NULL;
}

uint32_t limited_product(uint32_t a, uint32_t b)
{
    uint64_t whole = (uint64_t)a * b;
    return whole <= 1048576 ? (uint32_t)whole : 1048577;
}

void nesting_open(struct nesting *nesting, uint32_t form, uint32_t members)
{
    struct bracket *bracket = &nesting->brackets[nesting->open];
    bracket->form = form;
    bracket->left = members;
    nesting->open++;
    if (0 < nesting->ahead) {
        nesting->ahead--;
    }
}

struct bracket *nesting_top(struct nesting *nesting)
{
    return &nesting->brackets[nesting->open - 1];
}
