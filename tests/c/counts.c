/*
 * The counts that a caller lends to mlhe_pass, mlhe_run_list and mlhe_enhance: what they become, that counts beyond the
 * two stay, and that fewer than two are refused with 14, after all else, with nothing changed. Prints what is wrong,
 * and ends with status 1 then.
 */
#include <mlhe.h>

#include <stdio.h>
#include <string.h>

/* Below 128 the row has a component to retone, one of one value, and one pixel alone. The frame has the same greys. */
enum { W = 7, H = 1, N = W * H, LENT = 4, LEFT = 77 };
static const uint8_t row[N] = {10, 20, 200, 10, 10, 200, 30};
static const uint16_t any[] = {MLHE_PLAIN, 0, 25500, 0}, growing[] = {MLHE_PLAIN, 130, 25500, 0};
static uint8_t frame[3 * N];

/* What a call is lent, but for its frame or list. */
static struct lent {
    uint8_t plane[N], marks[N], output[3 * N];
    uint32_t queue[N];
    size_t counts[LENT];
} lent;

static int64_t pass(uint32_t area, size_t length) {
    return mlhe_pass(lent.plane, N, lent.marks, N, lent.queue, N, W, H, 0, 127, area, any, MLHE_RULE_NUMBERS,
                     lent.counts, length);
}

/* The same pass twice: the second time what was retoned is retoned again. */
static int64_t run_list(uint32_t area, size_t length) {
    const uint8_t list[] = {'M', 'L', 'P', 1, 0, 2, 0, 0, 127, 0, 0, (uint8_t)area, 0, 0, 0, 0, 0, 0x9C, 0x63,
                            0,   127, 0,   0, (uint8_t)area, 0, 0, 0, 0, 0, 0x9C, 0x63};
    return mlhe_run_list(list, sizeof list, lent.plane, N, lent.marks, N, lent.queue, N, W, H, lent.counts, length);
}

/* Levels 0 and 1. At level 0 the range of the row would not grow to 130 hundredths, and the row is kept back. */
static int64_t enhance(uint32_t area, size_t length) {
    return mlhe_enhance(frame, 3 * N, W, H, 1, area, growing, MLHE_RULE_NUMBERS, lent.plane, N, lent.marks, N,
                        lent.queue, N, lent.output, 3 * N, lent.counts, length);
}

static const struct call {
    const char *name;
    int64_t (*run)(uint32_t area, size_t length);
    size_t counts[MLHE_COUNTS];
} calls[] = {{"mlhe_pass", pass, {1, 1}}, {"mlhe_run_list", run_list, {2, 2}}, {"mlhe_enhance", enhance, {1, 2}}};

/* Whether a call with this least area, which is lent so many counts, answers and leaves what it should. */
static int is_right(const struct call *call, uint32_t area, size_t length, int64_t expected) {
    struct lent before;
    memset(&lent, LEFT, sizeof lent);
    memcpy(lent.plane, row, N);
    memcpy(&before, &lent, sizeof lent);
    const int64_t answer = call->run(area, length);
    int right = answer == expected;
    if (expected < 0) {
        right &= memcmp(&lent, &before, sizeof lent) == 0;
    } else {
        memcpy(before.counts, call->counts, sizeof call->counts);
        right &= memcmp(lent.counts, before.counts, sizeof lent.counts) == 0;
        right &= memcmp(lent.plane, row, N) != 0;
    }
    if (!right) {
        printf("%s with area %u and %zu counts: it answers %lld, retoned %zu, kept %zu\n", call->name, (unsigned)area,
               length, (long long)answer, lent.counts[MLHE_RETONED], lent.counts[MLHE_KEPT]);
    }
    return right;
}

int main(void) {
    int right = 1;
    for (size_t p = 0; p < 3 * N; p++) {
        frame[p] = row[p / 3];
    }
    for (size_t i = 0; i < sizeof calls / sizeof *calls; i++) {
        for (size_t length = 0; length <= LENT; length++) {
            right &= is_right(&calls[i], 2, length, length < MLHE_COUNTS ? -MLHE_REFUSED_OUTPUT : 0);
            right &= is_right(&calls[i], 0, length, -MLHE_REFUSED_AREA);
        }
    }
    return !right;
}
