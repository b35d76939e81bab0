/*
 * Hands the sections of each level of an enhancement out to threads, and puts their planes together.
 *
 *   sections IN.ppm [THREADS [NEIGHBOURS]]   with the house setting, on 2 threads and by 4 neighbours if not said
 *
 * For each level a line says how many sections it has, how many components they retoned and kept back so far, and that
 * plane and counts are those of mlhe_enhance with this last level. Where they differ, the program says so and ends with
 * status 1, as it does on an error; with status 2 where the arguments are wrong.
 *
 * Why this is exact. The sections of a level have no value in common, and passes on such intervals may run in any order
 * and on copies of one plane: a pass looks at the pixels of its own section alone, and leaves them in its section. So a
 * pixel's new value is the one that it has in the copy of the thread that ran the section of its old value, and each
 * pass counts what it counts on the plane that the level began with. This is a theorem about the calls
 * (`sections_in_parallel` in docs/CLAIMS.md). Levels may not overlap: each begins with what the one before put
 * together.
 */
#define _XOPEN_SOURCE 700
#include "mlhe.h"

#include <errno.h>
#include <pthread.h>
#include <stdio.h>
#include <stdlib.h>
#include <string.h>

enum { GREATEST_THREADS = 256 }; /* no level has more than 128 sections */

/* A level: what is handed out, and who took it. */
struct level {
    size_t w, h, n;
    const uint8_t *plane;                 /* as the level begins, and as it stays while threads work */
    const uint16_t *rule;                 /* MLHE_PASS_NUMBERS elements */
    uint32_t area;
    unsigned sections, width;             /* section k has the values from k * width on */
    unsigned next;                        /* the first section that nobody has taken, guarded by `lock` */
    pthread_mutex_t lock;
    const uint8_t *taken[256];            /* by section, the copy of the thread that took it */
};

/* A thread and the memory that is its own: nobody else looks at it before the level is over. */
struct worker {
    pthread_t thread;
    struct level *level;
    uint8_t *copy, *marks;
    uint32_t *queue;
    size_t counts[MLHE_COUNTS]; /* of its sections of this level */
    int64_t answer;             /* 0, or the first refusal */
};

static void fail(const char *name, const char *what) {
    fprintf(stderr, "sections: %s: %s\n", name, what);
    exit(1);
}

/* Ends the program where a call was refused. */
static void accepted(const char *name, int64_t answer) {
    if (answer < 0) {
        fprintf(stderr, "sections: %s: refused %lld: %s\n", name, (long long)-answer, mlhe_reason(answer));
        exit(1);
    }
}

static void *room(size_t elements, size_t size) {
    void *memory = calloc(elements ? elements : 1, size);
    if (memory == NULL) {
        fail("memory", strerror(errno));
    }
    return memory;
}

/* ## Handing out */

/* The next section, or the number of sections where all are taken. Threads take them in whatever order they come. */
static unsigned take(struct level *level, const uint8_t *copy) {
    pthread_mutex_lock(&level->lock);
    const unsigned section = level->next;
    if (section < level->sections) {
        level->next++;
        level->taken[section] = copy;
    }
    pthread_mutex_unlock(&level->lock);
    return section;
}

/* Runs sections on a copy of the plane, one after the other, while there are any. */
static void *work(void *of) {
    struct worker *worker = of;
    struct level *level = worker->level;
    memcpy(worker->copy, level->plane, level->n);
    memset(worker->counts, 0, sizeof worker->counts);
    worker->answer = 0;
    unsigned section;
    while (worker->answer == 0 && (section = take(level, worker->copy)) < level->sections) {
        const unsigned a = section * level->width, b = a + level->width - 1;
        size_t counts[MLHE_COUNTS];
        worker->answer = mlhe_pass(worker->copy, level->n, worker->marks, level->n, worker->queue, level->n, level->w,
                                   level->h, (uint8_t)a, (uint8_t)b, level->area, level->rule, MLHE_PASS_NUMBERS,
                                   counts, MLHE_COUNTS);
        if (worker->answer == 0) {
            worker->counts[MLHE_RETONED] += counts[MLHE_RETONED];
            worker->counts[MLHE_KEPT] += counts[MLHE_KEPT];
        }
    }
    return NULL;
}

/* ## Putting together */

/* Each pixel as it is in the copy of the thread that took the section of its old value. */
static void put_together(const struct level *level, uint8_t *plane) {
    for (size_t i = 0; i < level->n; i++) {
        plane[i] = level->taken[plane[i] / level->width][i];
    }
}

/* One level, on all threads. The plane becomes that after the level, and its counts are added. */
static void run_level(const char *name, struct level *level, struct worker *workers, size_t threads, uint8_t *plane,
                      size_t counts[MLHE_COUNTS]) {
    level->plane = plane;
    level->next = 0;
    for (size_t t = 0; t < threads; t++) {
        workers[t].level = level;
        const int error = pthread_create(&workers[t].thread, NULL, work, &workers[t]);
        if (error != 0) {
            fail("a thread", strerror(error));
        }
    }
    for (size_t t = 0; t < threads; t++) {
        pthread_join(workers[t].thread, NULL);
        accepted(name, workers[t].answer);
        counts[MLHE_RETONED] += workers[t].counts[MLHE_RETONED];
        counts[MLHE_KEPT] += workers[t].counts[MLHE_KEPT];
    }
    put_together(level, plane);
}

/* ## The program */

static uint8_t *contents(const char *name, size_t *length) {
    FILE *stream = fopen(name, "rb");
    if (stream == NULL) {
        fail(name, strerror(errno));
    }
    size_t capacity = 1 << 16;
    uint8_t *bytes = room(capacity, 1);
    *length = 0;
    while ((*length += fread(bytes + *length, 1, capacity - *length, stream)) == capacity) {
        bytes = realloc(bytes, capacity *= 2);
        if (bytes == NULL) {
            fail(name, strerror(errno));
        }
    }
    if (ferror(stream)) {
        fail(name, strerror(errno));
    }
    fclose(stream);
    return bytes;
}

/* A number from least to greatest, or 0. */
static unsigned number(const char *word, unsigned least, unsigned greatest) {
    char *end;
    const unsigned long value = strtoul(word, &end, 10);
    return *word >= '0' && *word <= '9' && *end == '\0' && least <= value && value <= greatest ? (unsigned)value : 0;
}

int main(int argc, char **argv) {
    const unsigned threads = argc > 2 ? number(argv[2], 1, GREATEST_THREADS) : 2;
    const unsigned neighbours = argc > 3 ? number(argv[3], 1, UINT16_MAX) : MLHE_FOUR_NEIGHBOURS;
    if (argc < 2 || argc > 4 || threads == 0 || neighbours == 0) {
        fprintf(stderr, "usage: %s IN.ppm [THREADS, 1 to %d [NEIGHBOURS]]\n", argv[0], GREATEST_THREADS);
        return 2;
    }
    const char *name = argv[1];
    size_t length, numbers[3];
    uint8_t *file = contents(name, &length);
    accepted(name, mlhe_read(file, length, numbers, 3));
    const size_t w = numbers[0], h = numbers[1], n = w * h;
    const uint8_t *frame = file + numbers[2];
    const uint16_t rule[MLHE_PASS_NUMBERS] = {MLHE_HOUSE_RULE, MLHE_HOUSE_LOW, MLHE_HOUSE_HIGH, 0,
                                              (uint16_t)neighbours};

    /* What is handed out, the threads' own memory, and what the enhancement is lent. */
    struct level level = {.w = w, .h = h, .n = n, .rule = rule};
    struct worker *workers = room(threads, sizeof *workers);
    for (size_t t = 0; t < threads; t++) {
        workers[t].copy = room(n, 1);
        workers[t].marks = room(n, 1);
        workers[t].queue = room(n, sizeof *workers[t].queue);
    }
    pthread_mutex_init(&level.lock, NULL);
    uint8_t *plane = room(n, 1), *whole = room(n, 1), *output = room(3 * n, 1);
    accepted(name, mlhe_intensity(frame, 3 * n, w, h, plane, n));

    size_t sums[MLHE_COUNTS] = {0, 0};
    for (unsigned l = 0; l <= MLHE_HOUSE_LAST; l++) {
        level.sections = 1U << l;
        level.width = 256U >> l;
        level.area = l == 0 ? 1 : MLHE_HOUSE_AREA; /* level 0 has no least area */
        run_level(name, &level, workers, threads, plane, sums);

        /* The same by one call, with the first thread's working memory: no thread runs now. */
        size_t counts[MLHE_COUNTS];
        accepted(name, mlhe_enhance(frame, 3 * n, w, h, (uint8_t)l, MLHE_HOUSE_AREA, rule, MLHE_PASS_NUMBERS, whole, n,
                                    workers[0].marks, n, workers[0].queue, n, output, 3 * n, counts, MLHE_COUNTS));
        if (memcmp(plane, whole, n) != 0 || memcmp(sums, counts, sizeof counts) != 0) {
            fail(name, "the sections put together are not the enhancement");
        }
        printf("level %u: sections %u, threads %u; so far retoned %zu, kept %zu: as the enhancement\n", l,
               level.sections, threads, sums[MLHE_RETONED], sums[MLHE_KEPT]);
    }

    pthread_mutex_destroy(&level.lock);
    for (size_t t = 0; t < threads; t++) {
        free(workers[t].copy);
        free(workers[t].marks);
        free(workers[t].queue);
    }
    free(workers);
    free(output);
    free(whole);
    free(plane);
    free(file);
    return fflush(stdout) == 0 ? 0 : 1;
}
