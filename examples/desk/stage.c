#include "stage.h"

#include "element.h"

#include <string.h>

/* Groups 1 to 16. Group 6 has none. */
static const uint8_t tags[] = { 0x61, 0x75, 0x63, 0x76, 0x65, 0x67, 0x68, 0x69, 0x6a, 0x6b, 0x6c, 0x6d, 0x6e, 0x6f, 0x70 };

static int is_group(uint8_t tag)
{
    return memchr(tags, tag, sizeof tags) != NULL;
}

/*
 * Stages 2, 3, 4 and 6 all look at elements. Where the outer walk passes, the place tells the others apart: it is in what
 * the stage looks at, or right behind that, where something should still stand.
 */
static enum stage of_encoding(uint64_t place, const uint8_t *presentation, size_t len)
{
    struct element com;
    struct element object;
    struct element file;
    size_t at;

    if (!element_at(&com, presentation, len, 0, 1) || presentation[0] != 0x60) {
        return OUTER_WALK;
    }
    if (!element_at(&object, presentation, len, com.end, 1) || presentation[com.end] != 0x30) {
        return OUTER_WALK;
    }
    for (at = object.end; at < len; at = file.end) {
        if (!element_at(&file, presentation, len, at, 1) || !is_group(presentation[at])) {
            return OUTER_WALK;
        }
    }
    return place <= com.end ? EF_COM : place <= object.end ? SECURITY_OBJECT : GROUP_1;
}

enum stage stage_of(lamphudet_answer refusal, const uint8_t *presentation, size_t len)
{
    switch (refusal.number) {
    case LAMPHUDET_REFUSED_LENGTH: return refusal.value == 0 ? SIZE : GROUP_1; /* no text stands at 0 */
    case LAMPHUDET_REFUSED_ENCODING: return of_encoding(refusal.value, presentation, len);
    case LAMPHUDET_REFUSED_EF_COM: return EF_COM;
    case LAMPHUDET_REFUSED_SECURITY_OBJECT: return SECURITY_OBJECT;
    case LAMPHUDET_REFUSED_ALGORITHM: return SECURITY_OBJECT;
    case LAMPHUDET_REFUSED_VERSIONS: return SECURITY_OBJECT; /* told when all of stage 4 was read */
    case LAMPHUDET_REFUSED_GROUP: return refusal.value < len ? GROUP_FILES : GROUP_1; /* no file stands at the end */
    case LAMPHUDET_REFUSED_DIGEST: return GROUP_FILES;
    case LAMPHUDET_REFUSED_OUTPUT: return AFTER_ALL;
    case LAMPHUDET_REFUSED_UNSOUND: return AFTER_ALL;
    default: return GROUP_1; /* 2 to 9, a text's own */
    }
}

const char *stage_words(enum stage stage)
{
    static const char *const words[] = {
        "after all stages", "size", "outer walk", "EF.COM", "security object", "group files", "group 1 and its text",
    };

    return words[stage];
}
