/*
 * The numbers of a rule that a caller lends to mlhe_pass and mlhe_enhance: what each rule makes of a row, and which
 * numbers are refused with 17 or 18, at which place of the order, with nothing changed. Prints what is wrong, and ends
 * with status 1 then.
 */
#include <mlhe.h>

#include <stdio.h>
#include <string.h>

/* Level 0 of an enhancement is a pass over all values: with the greys of the row, both leave the same plane. */
enum { N = 4, MOST = MLHE_PASS_NUMBERS + 1, LEFT = 77 };
static const uint8_t row[N] = {10, 10, 20, 30};
static uint8_t frame[3 * N];

/* What a call is lent, but for its frame and rule. */
static struct lent {
    uint8_t plane[N], marks[N], output[3 * N];
    uint32_t queue[N];
    size_t counts[MLHE_COUNTS];
} lent;

static const struct accepted {
    uint16_t rule[MLHE_RULE_NUMBERS];
    uint8_t plane[N];
    size_t counts[MLHE_COUNTS];
} accepted[] = {{{MLHE_PLAIN, 0, 25500, 0}, {128, 128, 191, 255}, {1, 0}},
                {{MLHE_PLAIN, 0, 300, 0}, {10, 10, 20, 30}, {0, 1}},
                {{MLHE_LIMITED, 10, 0, 0}, {13, 13, 25, 38}, {1, 0}},
                {{MLHE_AFFINE, 100, 10000, 2}, {128, 128, 191, 255}, {1, 0}},
                {{MLHE_AFFINE, 100, 300, 2}, {10, 10, 20, 30}, {0, 1}},
                {{MLHE_AFFINE, 0, MLHE_GREATEST_SLOPE, 1}, {85, 85, 170, 255}, {1, 0}},
                {{MLHE_AFFINE, 10000, 10000, MLHE_GREATEST_SEGMENTS}, {85, 85, 170, 255}, {1, 0}}};

static const struct refused {
    int number;
    size_t length;
    uint16_t rule[MOST];
} refused[] = {{MLHE_REFUSED_RULE, 0, {MLHE_PLAIN, 0, 25500, 0, 0}},
               {MLHE_REFUSED_RULE, 3, {MLHE_PLAIN, 0, 25500, 0, 0}},
               {MLHE_REFUSED_RULE, 6, {MLHE_PLAIN, 0, 25500, 0, MLHE_FOUR_NEIGHBOURS, 0}},
               {MLHE_REFUSED_RULE, 3, {MLHE_AFFINE, 100, 10000, 2, 0}},
               {MLHE_REFUSED_RULE, 6, {MLHE_AFFINE, 100, 10000, 2, MLHE_FOUR_NEIGHBOURS, 0}},
               {MLHE_REFUSED_RULE, 4, {MLHE_PLAIN, 0, 25500, 1, 0}},
               {MLHE_REFUSED_RULE, 4, {MLHE_PLAIN, 0, 25500, 256, 0}},
               {MLHE_REFUSED_RULE, 4, {MLHE_LIMITED, 10, 0, 1, 0}},
               {MLHE_REFUSED_RULE, 4, {MLHE_LIMITED, 10, 1, 0, 0}},
               {MLHE_REFUSED_RULE, 4, {3, 0, 0, 0, 0}},
               {MLHE_REFUSED_RULE, 4, {256, 0, 25500, 0, 0}},
               {MLHE_REFUSED_RULE, 4, {258, 100, 10000, 2, 0}},
               {MLHE_REFUSED_SLOPES, 4, {MLHE_AFFINE, 100, 10000, 0, 0}},
               {MLHE_REFUSED_SLOPES, 4, {MLHE_AFFINE, 100, 10000, 17, 0}},
               {MLHE_REFUSED_SLOPES, 4, {MLHE_AFFINE, 100, 10000, 258, 0}},
               {MLHE_REFUSED_SLOPES, 4, {MLHE_AFFINE, 101, 100, 2, 0}},
               {MLHE_REFUSED_SLOPES, 4, {MLHE_AFFINE, 100, 10001, 2, 0}}};

/* The calls; a wrong one has an interval with a above b, or a last level above 7. */
static int64_t pass(int wrong, uint32_t area, const uint16_t *rule, size_t length, size_t counts) {
    return mlhe_pass(lent.plane, N, lent.marks, N, lent.queue, N, N, 1, wrong ? 9 : 0, wrong ? 8 : 255, area, rule,
                     length, lent.counts, counts);
}

static int64_t enhance(int wrong, uint32_t area, const uint16_t *rule, size_t length, size_t counts) {
    return mlhe_enhance(frame, 3 * N, N, 1, wrong ? 8 : 0, area, rule, length, lent.plane, N, lent.marks, N, lent.queue,
                        N, lent.output, 3 * N, lent.counts, counts);
}

static const struct call {
    const char *name;
    int64_t (*run)(int wrong, uint32_t area, const uint16_t *rule, size_t length, size_t counts);
    int wrong; /* the refusal of a wrong one */
} calls[] = {{"mlhe_pass", pass, MLHE_REFUSED_INTERVAL}, {"mlhe_enhance", enhance, MLHE_REFUSED_LEVEL}};

static int told(int right, const struct call *call, const uint16_t *rule, size_t length, int64_t answer) {
    if (!right) {
        printf("%s with %zu numbers, rule %u %u %u %u: it answers %lld, or leaves something else\n", call->name, length,
               rule[0], rule[1], rule[2], rule[3], (long long)answer);
    }
    return right;
}

static void begin(void) {
    memset(&lent, LEFT, sizeof lent);
    memcpy(lent.plane, row, N);
}

static int is_accepted(const struct call *call, const struct accepted *one) {
    begin();
    const int64_t answer = call->run(0, 1, one->rule, MLHE_RULE_NUMBERS, MLHE_COUNTS);
    const int right = answer == 0 && memcmp(lent.plane, one->plane, N) == 0 &&
                      memcmp(lent.counts, one->counts, sizeof one->counts) == 0;
    return told(right, call, one->rule, MLHE_RULE_NUMBERS, answer);
}

static int is_refused(const struct call *call, const struct refused *one, int wrong, uint32_t area, size_t counts,
                      int number) {
    struct lent before;
    begin();
    memcpy(&before, &lent, sizeof lent);
    const int64_t answer = call->run(wrong, area, one->length == 0 ? NULL : one->rule, one->length, counts);
    const int right = answer == -number && memcmp(&lent, &before, sizeof lent) == 0;
    return told(right, call, one->rule, one->length, answer);
}

int main(void) {
    int right = 1;
    for (size_t p = 0; p < 3 * N; p++) {
        frame[p] = row[p / 3];
    }
    for (const struct call *call = calls; call < calls + sizeof calls / sizeof *calls; call++) {
        for (size_t i = 0; i < sizeof accepted / sizeof *accepted; i++) {
            right &= is_accepted(call, &accepted[i]);
        }
        for (size_t i = 0; i < sizeof refused / sizeof *refused; i++) {
            /* 17 comes before the other numbers and 18 after them; too few counts come last. */
            const struct refused *one = &refused[i];
            const int is_first = one->number == MLHE_REFUSED_RULE;
            right &= is_refused(call, one, 0, 1, MLHE_COUNTS, one->number);
            right &= is_refused(call, one, 0, 1, 0, one->number);
            right &= is_refused(call, one, 0, 0, 0, is_first ? one->number : MLHE_REFUSED_AREA);
            right &= is_refused(call, one, 1, 0, 0, is_first ? one->number : call->wrong);
        }
    }
    return !right;
}
