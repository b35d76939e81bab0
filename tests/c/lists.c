/*
 * Lists of both versions: that each converts to the other byte for byte, and back; that both run to the same plane and
 * counts; how many passes a list may have; what a list with eight neighbours leaves; and which lists and outputs are
 * refused, by which number, at which place of the order, with nothing changed. Prints what is wrong, and ends with
 * status 1 then.
 */
#include <mlhe.h>

#include <stdio.h>
#include <string.h>

enum { N = 5, HEAD = 7, RECORD_1 = 12, RECORD_2 = 16, PASSES = 3, MOST = HEAD + RECORD_2 * PASSES + 1, LEFT = 77 };
static const uint8_t row[N] = {10, 20, 200, 10, 10};
/* Two dark pixels that touch at a corner, and a byte that is not lent. */
static const uint8_t corner[N] = {10, 200, 200, 20, LEFT};

/* What a call is lent, but for its list. */
static struct lent {
    uint8_t plane[N], marks[N], output[MOST];
    uint32_t queue[N];
    size_t counts[MLHE_COUNTS];
} lent;

struct list {
    size_t length;
    uint8_t bytes[MOST];
};

/* The same passes in version 1 and in version 2: none, the example of the requirements, and one of each rule. */
static const struct pair {
    struct list first, second;
} pairs[] = {
    {{7, {'M', 'L', 'P', 1, 0, 0, 0}}, {7, {'M', 'L', 'P', 2, 0, 0, 0}}},
    {{19, {'M', 'L', 'P', 1, 0, 1, 0, 0, 0x7F, 0, 0, 1, 0, 0, 0, 0, 0, 0x9C, 0x63}},
     {23, {'M', 'L', 'P', 2, 0, 1, 0, 0, 0x7F, 0, 0, 1, 0, 0, 0, 0, 0, 0x9C, 0x63, 4, 0, 0, 0}}},
    {{43, {'M', 'L', 'P', 1, 0, 3, 0, 0, 255, 2, 2, 1, 0, 0, 0, 100, 0, 0x10, 0x27, 0, 200, 0, 0, 2, 0, 0, 0, 0, 0,
           0x9C, 0x63, 100, 200, 1, 0, 0, 0, 16, 0, 10, 0, 0, 0}},
     {55, {'M', 'L', 'P', 2, 0, 3, 0, 0, 255, 2, 2, 1, 0, 0, 0, 100, 0, 0x10, 0x27, 4, 0, 0, 0, 0, 200, 0, 0, 2, 0, 0,
           0, 0, 0, 0x9C, 0x63, 4, 0, 0, 0, 100, 200, 1, 0, 0, 0, 16, 0, 10, 0, 0, 0, 4, 0, 0, 0}}}};

/* A list of version 2 whose second pass has eight neighbours: that of the requirements' J. */
static const struct list eight = {39, {'M', 'L', 'P', 2, 0, 2, 0, 0, 9, 1, 0, 1, 0, 0, 0, 0, 0, 0, 0, 4, 0, 0, 0, 0,
                                       0x7F, 0, 0, 1, 0, 0, 0, 0, 0, 0x9C, 0x63, 8, 0, 0, 0}};

/* Bytes of that list after which it is refused with the number: the first ones for that, the others come later. */
static const struct wrong {
    int number;
    size_t length;
    struct change {
        size_t at;
        uint8_t byte;
    } changes[3];
} wrong[] = {{MLHE_REFUSED_LIST_LENGTH, 6, {{2, 'Q'}}},
             {MLHE_REFUSED_LIST_LENGTH, 0, {{2, 'Q'}}},
             {MLHE_REFUSED_LIST_MARK, 38, {{2, 'Q'}, {9, 3}}},
             {MLHE_REFUSED_LIST_MARK, 38, {{3, 0}, {9, 3}}},
             {MLHE_REFUSED_LIST_MARK, 38, {{3, 3}, {9, 3}}},
             {MLHE_REFUSED_LIST_MARK, 38, {{4, 1}, {9, 3}}},
             {MLHE_REFUSED_LIST_LENGTH, 38, {{9, 3}}},
             {MLHE_REFUSED_LIST_LENGTH, 40, {{9, 3}}},
             {MLHE_REFUSED_LIST_LENGTH, 39, {{3, 1}, {9, 3}}}, /* the length of version 2, in version 1 */
             {MLHE_REFUSED_LIST_LENGTH, 31, {{9, 3}}},         /* the length of version 1, in version 2 */
             {MLHE_REFUSED_LIST_LENGTH, 39, {{6, 4}, {9, 3}}},
             {MLHE_REFUSED_RULE, 39, {{9, 3}, {8, 0}, {11, 0}}},
             {MLHE_REFUSED_RULE, 39, {{20, 1}, {11, 0}}},
             {MLHE_REFUSED_RULE, 39, {{21, 128}, {11, 0}}},
             {MLHE_REFUSED_RULE, 39, {{22, 1}, {19, 5}, {11, 0}}},
             {MLHE_REFUSED_RULE, 39, {{38, 255}, {35, 5}}},
             {MLHE_REFUSED_INTERVAL, 39, {{7, 10}, {11, 0}, {19, 5}}},
             {MLHE_REFUSED_AREA, 39, {{11, 0}, {16, 4}, {19, 5}}},
             {MLHE_REFUSED_CLIP, 39, {{16, 4}, {19, 5}, {25, 3}}},
             {MLHE_REFUSED_SLOPES, 39, {{9, 2}, {19, 5}, {25, 3}}},
             {MLHE_REFUSED_NEIGHBOURS, 39, {{19, 0}, {25, 3}}},
             {MLHE_REFUSED_NEIGHBOURS, 39, {{19, 5}, {25, 3}}},
             {MLHE_REFUSED_NEIGHBOURS, 39, {{35, 255}}},
             {MLHE_REFUSED_LIMITS, 39, {{31, 255}, {32, 255}, {35, 9}}}};

static int told(int right, const char *call, const struct list *list, int64_t answer) {
    if (!right) {
        printf("%s: it answers %lld, or leaves something else, with the list", call, (long long)answer);
        for (size_t i = 0; i < list->length; i++) {
            printf(" %02x", list->bytes[i]);
        }
        printf("\n");
    }
    return right;
}

/* What is lent before a call. */
static struct lent begin(const uint8_t *plane) {
    memset(&lent, LEFT, sizeof lent);
    memcpy(lent.plane, plane, N);
    return lent;
}

static int64_t run(const struct list *list, size_t w, size_t h, size_t counts) {
    return mlhe_run_list(list->bytes, list->length, lent.plane, w * h, lent.marks, N, lent.queue, N, w, h, lent.counts,
                         counts);
}

/* One converts to the other; with an output one byte short it is refused with 14, and what is beyond stays. */
static int is_converted(const struct list *from, const struct list *to) {
    struct lent before = begin(row);
    int64_t answer = mlhe_convert_list(from->bytes, from->length, lent.output, to->length - 1);
    int right = answer == -MLHE_REFUSED_OUTPUT && memcmp(&lent, &before, sizeof lent) == 0;
    right &= mlhe_convert_list(from->bytes, from->length, NULL, 0) == -MLHE_REFUSED_OUTPUT;
    for (size_t room = to->length; right && room <= MOST; room++) {
        before = begin(row);
        answer = mlhe_convert_list(from->bytes, from->length, lent.output, room);
        memcpy(before.output, to->bytes, to->length);
        right = answer == (int64_t)to->length && memcmp(&lent, &before, sizeof lent) == 0;
    }
    return told(right, "mlhe_convert_list", from, answer);
}

/* Both run to the same plane and counts. */
static int is_same_run(const struct pair *pair) {
    begin(row);
    int64_t answer = run(&pair->first, N, 1, MLHE_COUNTS);
    const struct lent left = lent;
    begin(row);
    answer |= run(&pair->second, N, 1, MLHE_COUNTS);
    const int right = answer == 0 && memcmp(lent.plane, left.plane, sizeof lent.plane) == 0 &&
                      memcmp(lent.counts, left.counts, sizeof lent.counts) == 0;
    return told(right, "mlhe_run_list", &pair->second, answer);
}

/* The dark pixels are one component by eight neighbours; the list does not fit version 1, whatever the output. */
static int is_eight(void) {
    static const uint8_t retoned[N] = {64, 200, 200, 127, LEFT};
    struct lent before = begin(corner);
    int64_t answer = run(&eight, 2, 2, MLHE_COUNTS);
    int right = answer == 0 && memcmp(lent.plane, retoned, N) == 0 && lent.counts[MLHE_RETONED] == 1 &&
                lent.counts[MLHE_KEPT] == 0;
    right = told(right, "mlhe_run_list", &eight, answer);
    for (size_t room = 0; room <= MOST; room++) {
        before = begin(corner);
        answer = mlhe_convert_list(eight.bytes, eight.length, lent.output, room);
        const int kept = answer == -MLHE_REFUSED_EIGHT_NEIGHBOURS && memcmp(&lent, &before, sizeof lent) == 0;
        right &= told(kept, "mlhe_convert_list", &eight, answer);
    }
    return right;
}

/* What is refused is so by both calls, before 20 and 14, and changes nothing. */
static int is_refused(const struct wrong *one) {
    struct list list = eight;
    list.length = one->length;
    for (size_t i = 0; i < sizeof one->changes / sizeof *one->changes; i++) {
        if (one->changes[i].at != 0) {
            list.bytes[one->changes[i].at] = one->changes[i].byte;
        }
    }
    int right = 1;
    for (size_t room = 0; room <= MOST; room += MOST) {
        const struct lent before = begin(corner);
        int64_t answer = mlhe_convert_list(list.bytes, list.length, lent.output, room);
        right &= told(answer == -one->number && memcmp(&lent, &before, sizeof lent) == 0, "mlhe_convert_list", &list,
                      answer);
        answer = run(&list, 2, 2, room == 0 ? 0 : MLHE_COUNTS);
        right &= told(answer == -one->number && memcmp(&lent, &before, sizeof lent) == 0, "mlhe_run_list", &list,
                      answer);
    }
    return right;
}

/* The pass of a list of one, so many times, as a list of the same version. Answers its length. */
static size_t repeated(const struct list *one, size_t count, uint8_t *list) {
    const size_t record = one->length - HEAD;
    memcpy(list, one->bytes, HEAD);
    list[5] = (uint8_t)(count % 256);
    list[6] = (uint8_t)(count / 256);
    for (size_t i = 0; i < count; i++) {
        memcpy(list + HEAD + record * i, one->bytes + HEAD, record);
    }
    return HEAD + record * count;
}

/* So many passes: both versions convert to each other and count the one value of a pixel in each pass; or both are
 * refused by both calls, and nothing changes. */
static int is_counted(size_t count, int accepted) {
    enum { FAR = 1024 };
    static uint8_t lists[2][HEAD + RECORD_2 * FAR], output[MLHE_GREATEST_LIST], untouched[MLHE_GREATEST_LIST];
    const size_t lengths[2] = {repeated(&pairs[1].first, count, lists[0]), repeated(&pairs[1].second, count, lists[1])};
    int right = 1;
    for (size_t i = 0; i < 2; i++) {
        memset(output, LEFT, sizeof output);
        memset(untouched, LEFT, sizeof untouched);
        const int64_t length = mlhe_convert_list(lists[i], lengths[i], output, sizeof output);
        right &= length == (accepted ? (int64_t)lengths[1 - i] : -MLHE_REFUSED_LIST_LENGTH);
        right &= memcmp(output, accepted ? lists[1 - i] : untouched, accepted ? lengths[1 - i] : sizeof output) == 0;
        const struct lent before = begin(row);
        const int64_t answer = mlhe_run_list(lists[i], lengths[i], lent.plane, 1, lent.marks, 1, lent.queue, 1, 1, 1,
                                             lent.counts, MLHE_COUNTS);
        right &= answer == (accepted ? 0 : -MLHE_REFUSED_LIST_LENGTH);
        right &= accepted ? lent.counts[MLHE_RETONED] == 0 && lent.counts[MLHE_KEPT] == count
                          : memcmp(&lent, &before, sizeof lent) == 0;
    }
    if (!right) {
        printf("a list of %zu passes is not %s\n", count, accepted ? "accepted" : "refused");
    }
    return right;
}

/* 320 passes are the most; converted to version 2 they take the room that is always enough, and all of it. */
static int is_longest(void) {
    static uint8_t list[MLHE_GREATEST_LIST], output[MLHE_GREATEST_LIST];
    const size_t length = repeated(&pairs[1].first, MLHE_GREATEST_PASSES, list);
    const int short_by_one = mlhe_convert_list(list, length, output, sizeof output - 1) == -MLHE_REFUSED_OUTPUT;
    const int converts = mlhe_convert_list(list, length, output, sizeof output) == MLHE_GREATEST_LIST;
    if (!short_by_one || !converts) {
        printf("mlhe_convert_list: the longest list\n");
    }
    return short_by_one & converts & is_counted(319, 1) & is_counted(320, 1) & is_counted(321, 0) & is_counted(1024, 0);
}

int main(void) {
    int right = is_eight() & is_longest();
    for (size_t i = 0; i < sizeof pairs / sizeof *pairs; i++) {
        right &= is_converted(&pairs[i].first, &pairs[i].second) & is_converted(&pairs[i].second, &pairs[i].first);
        right &= is_same_run(&pairs[i]);
    }
    for (size_t i = 0; i < sizeof wrong / sizeof *wrong; i++) {
        right &= is_refused(&wrong[i]);
    }
    return !right;
}
