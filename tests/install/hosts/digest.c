/* A host of the installed library: the digest of "abc" must be the one in FIPS 180-4's examples. Exit status 0 where it is. */
#include <lamphudet.h>
#include <stdio.h>
#include <string.h>

int main(void)
{
    static const char *const published = "ba7816bf8f01cfea414140de5dae2223b00361a396177a9cb410ff61f20015ad";
    const uint8_t input[3] = { 'a', 'b', 'c' };
    uint8_t digest[32] = { 0 };
    char hex[2 * sizeof digest + 1];
    size_t at;
    lamphudet_answer answer = lamphudet_digest(input, sizeof input, digest, sizeof digest);

    for (at = 0; at < sizeof digest; at++) {
        sprintf(hex + 2 * at, "%02x", (unsigned)digest[at]);
    }
    printf("abc: %s\n", hex);
    return answer.number != 0 || answer.expected != LAMPHUDET_NO_DIGIT || answer.value != 32
        || strcmp(hex, published) != 0;
}
