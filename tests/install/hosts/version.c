/*
 * A host of both installed libraries: each tells the version that the headers have, and the headers' number is the one of their
 * string. Exit status 0 where that is so.
 */
#include <lamphudet_seals.h>
#include <stdio.h>

/* 0.2.0 is the first version that can be asked for. */
#if LAMPHUDET_VERSION_NUMBER < 200
#error "the version is one before 0.2.0"
#endif

int main(void)
{
    unsigned major, minor, patch;

    if (sscanf(LAMPHUDET_VERSION, "%u.%u.%u", &major, &minor, &patch) != 3) {
        return 1;
    }
    printf("headers %s, %u; libraries %u, %u\n", LAMPHUDET_VERSION, (unsigned)LAMPHUDET_VERSION_NUMBER,
           (unsigned)lamphudet_version(), (unsigned)lamphudet_seals_version());
    return LAMPHUDET_VERSION_NUMBER != 10000 * major + 100 * minor + patch
        || lamphudet_version() != LAMPHUDET_VERSION_NUMBER || lamphudet_seals_version() != LAMPHUDET_VERSION_NUMBER;
}
