#include "element.h"

int element_at(struct element *element, const uint8_t *octets, size_t len, size_t place, size_t tag_len)
{
    static const size_t least[3] = { 0, 0x80, 0x100 }; /* by the octets behind the first: less has a shorter form */
    size_t at = place + tag_len;
    uint8_t first = at < len ? octets[at] : 0;
    size_t more = first == 0x81 ? 1 : first == 0x82 ? 2 : 0;
    size_t length = more == 0 ? first : 0;
    size_t octet;

    if (at + 1 + more > len || length > 0x7f) {
        return 0;
    }
    for (octet = 1; octet <= more; octet++) {
        length = 256 * length + octets[at + octet];
    }
    element->content = at + 1 + more;
    element->end = element->content + length;
    return length >= least[more] && element->end <= len;
}
