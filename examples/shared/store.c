#include "store.h"

#include "options.h"

#include <stdio.h>

int is_place_of_store(const char *out)
{
    if (out != NULL && is_standard(out)) {
        misused("--out is given no file, and standard output is for what is shown");
        return 0;
    }
    return 1;
}

int store_add(struct store *store, const uint8_t *entry, size_t len)
{
    store->entries++;
    return octets_add(&store->run, entry, len);
}

enum status store_write(const struct store *store, const char *file, enum status status)
{
    if (file == NULL || status == NOT_DONE) {
        return status;
    }
    if (!octets_write(file, store->run.at, store->run.len)) {
        return NOT_DONE;
    }
    printf("  written      %lu entries, %lu octets, to %s\n", store->entries, (unsigned long)store->run.len, file);
    return status;
}

void store_free(struct store *store)
{
    octets_free(&store->run);
}
