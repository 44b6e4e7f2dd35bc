#include "number.h"

int number_of(const char *word, uint32_t *number)
{
    uint64_t so_far = 0;
    const char *at = word;

    for (; *at >= '0' && *at <= '9' && so_far <= UINT32_MAX; at++) {
        so_far = 10 * so_far + (uint64_t)(*at - '0');
    }
    *number = (uint32_t)so_far;
    return at != word && *at == '\0' && so_far <= UINT32_MAX;
}
