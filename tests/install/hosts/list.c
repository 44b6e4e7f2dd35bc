/*
 * A host of the installed library: looks over a list of four entries of three houses, and hands each house its own; is refused
 * by 18 and by 23 at the entry where the list goes wrong, equal keys included; and of a refused list hands out nothing. Exit
 * status 0 where all of that is so.
 */
#include <lamphudet.h>
#include <stdio.h>
#include <string.h>

static const char nord[] = "P<UTONORD<<ELIN<<<<<<<<<<<<<<<<<<<<<<<<<<<<<"
                           "K7<<<<<<<1UTO9001158F3006302<<<<<<<<<<<<<<00";
static const char nord_renamed[] = "P<UTONORD<<ELINA<<<<<<<<<<<<<<<<<<<<<<<<<<<<"
                                   "K7<<<<<<<1UTO9001158F3006302<<<<<<<<<<<<<<00";
static const char eriksson[] = "P<UTOERIKSSON<<ANNA<MARIA<<<<<<<<<<<<<<<<<<<"
                               "L898902C36UTO7408122F1204159ZE184226B<<<<<10";

enum { ENTRIES = 4, GREAT = LAMPHUDET_HOUSE_MAX };

/* Octets, and where each of the entries that were joined to them begins. */
struct list {
    uint8_t octets[(ENTRIES + 1) * LAMPHUDET_ENTRY_MAX];
    size_t len, start[ENTRIES + 2];
    int entries;
};

static void join(struct list *list, uint32_t house, const char *text)
{
    lamphudet_answer answer = lamphudet_read_text(house, (const uint8_t *)text, strlen(text), list->octets + list->len,
                                                  sizeof list->octets - list->len);

    list->start[list->entries++] = list->len;
    list->len += answer.number == LAMPHUDET_NOT_REFUSED ? (size_t)answer.value : 0;
    list->start[list->entries] = list->len;
}

/* Two of house 1, and one each of a house in the middle, where the first octet has its highest bit, and of the last. */
static struct list rising(void)
{
    struct list list = { { 0 }, 0, { 0 }, 0 };

    join(&list, 1, nord);
    join(&list, 1, eriksson);
    join(&list, 16384, nord);
    join(&list, GREAT, nord);
    return list;
}

static int answers(const struct list *list, uint32_t number, uint64_t value)
{
    lamphudet_answer answer = lamphudet_look_over(list->octets, list->len);

    return answer.number == number && answer.expected == LAMPHUDET_NO_DIGIT && answer.value == value;
}

/* The entries from one to another, of which there may be none. */
static int has(const struct list *list, uint32_t house, int from, int to)
{
    lamphudet_stretch own = lamphudet_house_entries(list->octets, list->len, house);

    return from == to ? own.start == 0 && own.length == 0
                      : own.start == list->start[from] && own.start + own.length == list->start[to];
}

static int has_none(const struct list *list)
{
    return has(list, 1, 0, 0) && has(list, 16384, 0, 0) && has(list, GREAT, 0, 0);
}

static int handed_out(void)
{
    struct list list = rising();
    struct list empty = { { 0 }, 0, { 0 }, 0 };

    return answers(&list, LAMPHUDET_NOT_REFUSED, ENTRIES) && has(&list, 1, 0, 2) && has(&list, 16384, 2, 3)
        && has(&list, GREAT, 3, 4) && has(&list, 2, 0, 0) && has(&list, 16383, 0, 0) && has(&list, 0, 0, 0)
        && has(&list, GREAT + 1, 0, 0) && has(&list, 65537, 0, 0) && answers(&empty, LAMPHUDET_NOT_REFUSED, 0)
        && has_none(&empty) && lamphudet_look_over(NULL, 0).number == LAMPHUDET_NOT_REFUSED
        && lamphudet_house_entries(NULL, 0, 1).length == 0;
}

/* One entry more, whose key is not above that of the last. */
static int out_of_order(uint32_t house, const char *text)
{
    struct list list = rising();

    join(&list, house, text);
    return answers(&list, LAMPHUDET_REFUSED_ORDER, list.start[ENTRIES]) && has_none(&list);
}

static int not_an_entry(void)
{
    struct list cut = rising();
    struct list middle = rising();

    cut.len--;
    /* No house is 0. */
    middle.octets[middle.start[2]] = 0;
    middle.octets[middle.start[2] + 1] &= 1;
    return answers(&cut, LAMPHUDET_REFUSED_ENTRY, cut.start[3]) && has_none(&cut)
        && answers(&middle, LAMPHUDET_REFUSED_ENTRY, middle.start[2]) && has_none(&middle);
}

int main(void)
{
    int handed = handed_out();
    int ordered = out_of_order(GREAT, nord) && out_of_order(GREAT, nord_renamed) && out_of_order(16384, eriksson)
               && out_of_order(1, nord);
    int entries = not_an_entry();

    printf("houses %s, order %s, entries %s\n", handed ? "right" : "WRONG", ordered ? "right" : "WRONG",
           entries ? "right" : "WRONG");
    return !(handed && ordered && entries);
}
