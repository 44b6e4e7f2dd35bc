#include "other_names.h"

#include "element.h"

const uint8_t *other_names_next(struct other_names *names, size_t *len)
{
    const uint8_t *tag = names->octets + names->at;
    struct element name;

    if (names->left == 0 || names->len - names->at < 2 || tag[0] != 0x5f || tag[1] != 0x0f
        || !element_at(&name, names->octets, names->len, names->at, 2)) {
        return NULL;
    }
    names->at = name.end;
    names->left--;
    *len = name.end - name.content;
    return names->octets + name.content;
}

int other_names_in(struct other_names *names, const uint8_t *octets, size_t len)
{
    struct element holder;
    struct other_names walk;
    size_t name_len;

    if (!element_at(&holder, octets, len, 0, 1) || len - holder.content < 3 || octets[holder.content] != 0x02
        || octets[holder.content + 1] != 1) {
        return 0;
    }
    names->octets = octets;
    names->len = len;
    names->at = holder.content + 3;
    names->left = octets[holder.content + 2];
    walk = *names;
    while (other_names_next(&walk, &name_len) != NULL) {
    }
    return walk.left == 0 && walk.at == len;
}
