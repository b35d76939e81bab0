/*
 * The stack that the calls take, measured: each runs on a stack of its own that is painted before, and the deepest byte
 * that is no longer paint tells how far it went. Prints the most of each call over planes of many kinds, and ends with
 * status 1 if one is above MLHE_STACK.
 */
#define _XOPEN_SOURCE 700
#include "mlhe.h"

#include <stdio.h>
#include <stdlib.h>
#include <string.h>
#include <ucontext.h>

enum { ROOM = 1 << 20, PAINT = 0xA5, KINDS = 5, LIST_1 = 19, LIST_2 = 23 };

static struct frame {
    size_t w, h, n;
    uint8_t *bytes, *plane, *marks, *output;
    uint32_t *queue;
} frame;

/* The setting of a call. A list has one pass with the same: it is of version 2 where the neighbours are lent. */
static const struct setting {
    uint16_t rule[MLHE_PASS_NUMBERS];
    size_t length;
    uint8_t area;
} settings[] = {
    {MLHE_HOUSE_NUMBERS, MLHE_RULE_NUMBERS, MLHE_HOUSE_AREA},
    {{MLHE_PLAIN, 0, MLHE_GREATEST_HIGH, 0}, MLHE_RULE_NUMBERS, 1},
    {{MLHE_LIMITED, 20, 0, 0}, MLHE_RULE_NUMBERS, 1},
    {{MLHE_AFFINE, 0, MLHE_GREATEST_SLOPE, MLHE_GREATEST_SEGMENTS}, MLHE_RULE_NUMBERS, 1},
    {{MLHE_PLAIN, 0, MLHE_GREATEST_HIGH, 0, MLHE_EIGHT_NEIGHBOURS}, MLHE_PASS_NUMBERS, 1},
    {{MLHE_AFFINE, 0, MLHE_GREATEST_SLOPE, MLHE_GREATEST_SEGMENTS, MLHE_EIGHT_NEIGHBOURS}, MLHE_PASS_NUMBERS, 1}};
static const struct setting *setting;
static size_t counts[MLHE_COUNTS];
static int64_t answer;

static void nothing(void) { answer = 0; }

static void read_(void) {
    size_t numbers[3];
    answer = mlhe_read(frame.output, 3 * frame.n + MLHE_GREATEST_HEADER, numbers, 3);
    answer = answer == -MLHE_REFUSED_TRAILING ? 0 : answer;
}

static void write_(void) {
    answer = mlhe_write(frame.bytes, 3 * frame.n, frame.w, frame.h, frame.output, 3 * frame.n + MLHE_GREATEST_HEADER);
}

static void intensity(void) {
    answer = mlhe_intensity(frame.bytes, 3 * frame.n, frame.w, frame.h, frame.plane, frame.n);
}

static void pass(void) {
    answer = mlhe_pass(frame.plane, frame.n, frame.marks, frame.n, frame.queue, frame.n, frame.w, frame.h, 0, 255,
                       setting->area, setting->rule, setting->length, counts, MLHE_COUNTS);
}

static void run_list(void) {
    const uint16_t *rule = setting->rule, first = rule[MLHE_RULE_FIRST], second = rule[MLHE_RULE_SECOND];
    const uint8_t code = (uint8_t)rule[MLHE_RULE_CODE], segments = (uint8_t)rule[MLHE_RULE_SEGMENTS];
    const int is_second = setting->length == MLHE_PASS_NUMBERS;
    const uint8_t list[LIST_2] = {'M', 'L', 'P', is_second ? 2 : 1, 0, 1, 0, 0, 255, code, segments, setting->area, 0,
                                  0, 0, (uint8_t)first, (uint8_t)(first >> 8), (uint8_t)second, (uint8_t)(second >> 8),
                                  (uint8_t)rule[MLHE_RULE_NEIGHBOURS]};
    answer = mlhe_run_list(list, is_second ? LIST_2 : LIST_1, frame.plane, frame.n, frame.marks, frame.n, frame.queue,
                           frame.n, frame.w, frame.h, counts, MLHE_COUNTS);
}

/* To version 2 and back. */
static void convert_list(void) {
    uint8_t list[LIST_1] = {'M', 'L', 'P', 1, 0, 1, 0, 0, 255, MLHE_LIMITED, 0, 1}, other[LIST_2];
    answer = mlhe_convert_list(list, sizeof list, other, sizeof other);
    answer = answer == LIST_2 ? mlhe_convert_list(other, sizeof other, list, sizeof list) : answer;
}

static void recolour(void) {
    answer = mlhe_recolour(frame.bytes, 3 * frame.n, frame.w, frame.h, frame.plane, frame.n, frame.output, 3 * frame.n);
}

static void enhance(void) {
    answer = mlhe_enhance(frame.bytes, 3 * frame.n, frame.w, frame.h, 7, setting->area, setting->rule,
                          setting->length, frame.plane, frame.n, frame.marks, frame.n, frame.queue, frame.n,
                          frame.output, 3 * frame.n, counts, MLHE_COUNTS);
}

/* In the order in which each leaves what the next one needs: mlhe_read takes what mlhe_write wrote. */
static const struct call {
    const char *name;
    void (*run)(void);
} calls[] = {{"mlhe_write", write_},       {"mlhe_read", read_},         {"mlhe_intensity", intensity},
             {"mlhe_pass", pass},          {"mlhe_run_list", run_list},  {"mlhe_convert_list", convert_list},
             {"mlhe_recolour", recolour},  {"mlhe_enhance", enhance}};
enum { CALLS = sizeof calls / sizeof *calls };

/* The bytes of stack that a call takes. */
static size_t taken(void (*run)(void), uint8_t *stack) {
    ucontext_t back, there;
    memset(stack, PAINT, ROOM);
    if (getcontext(&there) != 0) {
        exit(2);
    }
    there.uc_stack.ss_sp = stack;
    there.uc_stack.ss_size = ROOM;
    there.uc_link = &back;
    makecontext(&there, run, 0);
    if (swapcontext(&back, &there) != 0) {
        exit(2);
    }
    size_t free = 0;
    while (free < ROOM && stack[free] == PAINT) {
        free++;
    }
    return ROOM - free;
}

static void *room(size_t elements, size_t size) {
    void *memory = calloc(elements, size);
    if (memory == NULL) {
        exit(2);
    }
    return memory;
}

/* A constant, a slow ramp, a fine pattern, stripes, noise. */
static uint8_t value(int kind, size_t p, size_t w) {
    static uint64_t bits = 88172645463325252u;
    switch (kind) {
    case 0: return 100;
    case 1: return (uint8_t)(p % w * 256 / w);
    case 2: return (uint8_t)(p % w * 7 + p / w * 13);
    case 3: return (uint8_t)(p / w % 2 ? 255 : p % w);
    default:
        bits ^= bits << 13;
        bits ^= bits >> 7;
        bits ^= bits << 17;
        return (uint8_t)(bits >> 32);
    }
}

static void measure(size_t w, size_t h, uint8_t *stack, size_t *most) {
    const size_t n = w * h;
    frame = (struct frame){w, h, n, room(3 * n, 1), room(n, 1), room(n, 1), room(3 * n + MLHE_GREATEST_HEADER, 1),
                           room(n, sizeof *frame.queue)};
    for (int kind = 0; kind < KINDS; kind++) {
        for (size_t p = 0; p < 3 * n; p++) {
            frame.bytes[p] = value(kind, p / 3, w);
        }
        for (size_t i = 0; i < sizeof settings / sizeof *settings; i++) {
            setting = &settings[i];
            for (int call = 0; call < CALLS; call++) {
                const size_t bytes = taken(calls[call].run, stack);
                if (answer < 0) {
                    printf("%s: %s\n", calls[call].name, mlhe_reason(answer));
                    exit(2);
                }
                most[call] = bytes > most[call] ? bytes : most[call];
            }
        }
    }
    free(frame.bytes);
    free(frame.plane);
    free(frame.marks);
    free(frame.output);
    free(frame.queue);
}

int main(void) {
    static const size_t sides[][2] = {{1, 1}, {2, 3}, {64, 48}, {4096, 1}, {1, 4096}, {640, 480}, {1024, 1024}};
    uint8_t *stack = room(ROOM, 1);
    const size_t none = taken(nothing, stack);
    size_t most[CALLS] = {0};
    for (size_t i = 0; i < sizeof sides / sizeof *sides; i++) {
        measure(sides[i][0], sides[i][1], stack, most);
    }
    int high = 0;
    for (int call = 0; call < CALLS; call++) {
        printf("%-18s %6zu bytes of stack\n", calls[call].name, most[call] - none);
        high |= most[call] - none > MLHE_STACK;
    }
    free(stack);
    return high;
}
