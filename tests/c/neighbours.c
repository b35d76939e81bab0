/*
 * The number of neighbours that a caller lends to mlhe_pass and mlhe_enhance after the numbers of a rule: what belongs
 * together with four and with eight, that four numbers and a list of version 1 mean four, and which numbers are refused
 * with 17 or 19, at which place of the order, with nothing changed. Prints what is wrong, and ends with status 1 then.
 */
#include <mlhe.h>

#include <stdio.h>
#include <string.h>

enum { N = 9, MOST = MLHE_PASS_NUMBERS + 1, LEFT = 77 };
static uint8_t frame[3 * N];

/* What a call is lent, but for its frame, list and numbers. */
static struct lent {
    uint8_t plane[N], marks[N], output[3 * N];
    uint32_t queue[N];
    size_t counts[MLHE_COUNTS];
} lent;

/* Planes, what a plain pass on [0, 127] with four neighbours leaves of them, and what one with eight does. */
static const struct corner {
    size_t w, h;
    uint8_t plane[N], four[N], eight[N];
    size_t four_counts[MLHE_COUNTS], eight_counts[MLHE_COUNTS];
} corners[] = {
    /* Two pixels that touch at a corner, by either diagonal. */
    {2, 2, {10, 200, 200, 20}, {10, 200, 200, 20}, {64, 200, 200, 127}, {0, 2}, {1, 0}},
    {2, 2, {200, 20, 10, 200}, {200, 20, 10, 200}, {200, 127, 64, 200}, {0, 2}, {1, 0}},
    /* A wire from corner to corner. */
    {3, 3, {10, 200, 200, 200, 20, 200, 200, 200, 30}, {10, 200, 200, 200, 20, 200, 200, 200, 30},
     {42, 200, 200, 200, 85, 200, 200, 200, 127}, {0, 3}, {1, 0}},
    /* A row's end touches neither the beginning of the next row nor that of the one after. */
    {3, 2, {200, 200, 10, 20, 200, 200}, {200, 200, 10, 20, 200, 200}, {200, 200, 10, 20, 200, 200}, {0, 2}, {0, 2}},
    {3, 3, {200, 200, 10, 200, 200, 200, 20, 200, 200}, {200, 200, 10, 200, 200, 200, 20, 200, 200},
     {200, 200, 10, 200, 200, 200, 20, 200, 200}, {0, 2}, {0, 2}},
    /* A row and a column have no corners. */
    {4, 1, {10, 20, 200, 30}, {64, 127, 200, 30}, {64, 127, 200, 30}, {1, 1}, {1, 1}},
    {1, 4, {10, 20, 200, 30}, {64, 127, 200, 30}, {64, 127, 200, 30}, {1, 1}, {1, 1}}};

/* Numbers that are refused, whatever the call is lent beside them. */
static const struct refused {
    int number;
    size_t length;
    uint16_t rule[MOST];
} refused[] = {{MLHE_REFUSED_NEIGHBOURS, 5, {MLHE_PLAIN, 0, 25500, 0, 0}},
               {MLHE_REFUSED_NEIGHBOURS, 5, {MLHE_PLAIN, 0, 25500, 0, 3}},
               {MLHE_REFUSED_NEIGHBOURS, 5, {MLHE_LIMITED, 10, 0, 0, 9}},
               {MLHE_REFUSED_NEIGHBOURS, 5, {MLHE_AFFINE, 100, 10000, 2, 260}},
               {MLHE_REFUSED_NEIGHBOURS, 5, {MLHE_PLAIN, 0, 25500, 0, 264}},
               {MLHE_REFUSED_NEIGHBOURS, 5, {MLHE_PLAIN, 0, 25500, 0, 65535}},
               {MLHE_REFUSED_SLOPES, 5, {MLHE_AFFINE, 100, 10000, 0, 9}},
               {MLHE_REFUSED_CLIP, 5, {MLHE_LIMITED, 1001, 0, 0, 9}},
               {MLHE_REFUSED_LIMITS, 5, {MLHE_PLAIN, 81, 80, 0, 9}},
               {MLHE_REFUSED_RULE, 5, {MLHE_PLAIN, 0, 25500, 1, 9}},
               {MLHE_REFUSED_RULE, 5, {3, 0, 0, 0, MLHE_EIGHT_NEIGHBOURS}},
               {MLHE_REFUSED_RULE, 3, {MLHE_PLAIN, 0, 25500, 0, MLHE_EIGHT_NEIGHBOURS}},
               {MLHE_REFUSED_RULE, 6, {MLHE_PLAIN, 0, 25500, 0, MLHE_EIGHT_NEIGHBOURS, 0}}};

static int told(int right, const char *call, size_t w, size_t h, const uint16_t *rule, size_t length, int64_t answer) {
    if (!right) {
        printf("%s, %zu x %zu, with %zu numbers, the rule's %u %u %u %u and neighbours %u: it answers %lld, or leaves "
               "something else\n", call, w, h, length, rule[0], rule[1], rule[2], rule[3], rule[4], (long long)answer);
    }
    return right;
}

static void begin(const uint8_t *plane) {
    memset(&lent, LEFT, sizeof lent);
    memcpy(lent.plane, plane, N);
}

static int64_t pass(size_t w, size_t h, uint32_t area, const uint16_t *rule, size_t length, size_t counts) {
    return mlhe_pass(lent.plane, w * h, lent.marks, N, lent.queue, N, w, h, 0, 127, area, rule, length, lent.counts,
                     counts);
}

static int64_t enhance(size_t w, size_t h, uint32_t area, const uint16_t *rule, size_t length, size_t counts) {
    return mlhe_enhance(frame, 3 * w * h, w, h, 1, area, rule, length, lent.plane, w * h, lent.marks, N, lent.queue, N,
                        lent.output, 3 * N, lent.counts, counts);
}

static int is_left(const uint8_t *plane, const size_t *counts) {
    return memcmp(lent.plane, plane, N) == 0 && memcmp(lent.counts, counts, sizeof lent.counts) == 0;
}

/* The same pass with the numbers that mean four neighbours, as a list, and with eight. */
static int is_right(const struct corner *one) {
    const uint16_t rule[] = {MLHE_PLAIN, 0, 25500, 0, MLHE_FOUR_NEIGHBOURS};
    const uint16_t eight[] = {MLHE_PLAIN, 0, 25500, 0, MLHE_EIGHT_NEIGHBOURS};
    const uint8_t list[] = {'M', 'L', 'P', 1, 0, 1, 0, 0, 127, 0, 0, 1, 0, 0, 0, 0, 0, 0x9C, 0x63};
    const size_t w = one->w, h = one->h;
    int right = 1;
    for (size_t length = MLHE_RULE_NUMBERS; length <= MLHE_PASS_NUMBERS; length++) {
        begin(one->plane);
        const int64_t answer = pass(w, h, 1, rule, length, MLHE_COUNTS);
        right &= told(answer == 0 && is_left(one->four, one->four_counts), "mlhe_pass", w, h, rule, length, answer);
    }
    begin(one->plane);
    int64_t answer = mlhe_run_list(list, sizeof list, lent.plane, w * h, lent.marks, N, lent.queue, N, w, h,
                                   lent.counts, MLHE_COUNTS);
    right &= told(answer == 0 && is_left(one->four, one->four_counts), "mlhe_run_list", w, h, rule, 5, answer);
    begin(one->plane);
    answer = pass(w, h, 1, eight, MLHE_PASS_NUMBERS, MLHE_COUNTS);
    right &= told(answer == 0 && is_left(one->eight, one->eight_counts), "mlhe_pass", w, h, eight, 5, answer);
    return right;
}

/* An enhancement of levels 0 and 1 leaves what the passes of their sections leave. */
static int is_chain(const uint16_t *rule, size_t length) {
    static const uint8_t ends[][2] = {{0, 255}, {0, 127}, {128, 255}};
    static const uint8_t wire[N] = {10, 90, 90, 90, 20, 90, 90, 90, 30};
    size_t sums[MLHE_COUNTS] = {0}, counts[MLHE_COUNTS];
    uint8_t plane[N];
    int64_t answer = 0;
    for (size_t p = 0; p < 3 * N; p++) {
        frame[p] = wire[p / 3];
    }
    memcpy(plane, wire, N);
    for (size_t i = 0; i < sizeof ends / sizeof *ends; i++) {
        answer |= mlhe_pass(plane, N, lent.marks, N, lent.queue, N, 3, 3, ends[i][0], ends[i][1], i == 0 ? 1 : 2, rule,
                            length, counts, MLHE_COUNTS);
        sums[MLHE_RETONED] += counts[MLHE_RETONED];
        sums[MLHE_KEPT] += counts[MLHE_KEPT];
    }
    begin(wire);
    answer |= enhance(3, 3, 2, rule, length, MLHE_COUNTS);
    return told(answer == 0 && is_left(plane, sums), "mlhe_enhance", 3, 3, rule, length, answer);
}

/* What is refused is so with any counts, but comes after a least area of 0, unless it is 17. */
static int is_refused(const struct refused *one, int enhances, uint32_t area, size_t counts) {
    struct lent before;
    begin(corners[0].plane);
    memcpy(&before, &lent, sizeof lent);
    const int64_t answer = (enhances ? enhance : pass)(2, 2, area, one->rule, one->length, counts);
    const int number = area == 0 && one->number != MLHE_REFUSED_RULE ? MLHE_REFUSED_AREA : one->number;
    const int right = answer == -number && memcmp(&lent, &before, sizeof lent) == 0;
    return told(right, enhances ? "mlhe_enhance" : "mlhe_pass", 2, 2, one->rule, one->length, answer);
}

int main(void) {
    const uint16_t four[MLHE_PASS_NUMBERS] = MLHE_HOUSE_NUMBERS; /* of which the last is not lent */
    const uint16_t eight[] = {MLHE_PLAIN, 0, 25500, 0, MLHE_EIGHT_NEIGHBOURS};
    int right = 1;
    for (size_t i = 0; i < sizeof corners / sizeof *corners; i++) {
        right &= is_right(&corners[i]);
    }
    right &= is_chain(four, MLHE_RULE_NUMBERS) & is_chain(eight, MLHE_PASS_NUMBERS);
    for (size_t i = 0; i < sizeof refused / sizeof *refused; i++) {
        for (size_t counts = 0; counts <= MLHE_COUNTS; counts++) {
            for (int enhances = 0; enhances <= 1; enhances++) {
                right &= is_refused(&refused[i], enhances, 0, counts) & is_refused(&refused[i], enhances, 1, counts);
            }
        }
    }
    return !right;
}
