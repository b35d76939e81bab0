/*
 * Enhances a P6 frame of any allowed size. Comments in its header are skipped, and not written.
 *
 *   enhance IN.ppm OUT.ppm          with the house setting
 *   enhance LIST.mlp IN.ppm OUT.ppm with the passes of a list, of version 1 or 2
 *
 * Prints one line on what was done. On an error it says what is wrong with which file and ends with status 1; with
 * status 2 where the arguments are wrong.
 *
 * The output is written to a new file in its folder and renamed into place once it is whole: until then an earlier file
 * of its name stays as it was, and after an error it is still there. An output that is an input is refused. A device, a
 * pipe or standard output (/dev/stdout) is written to directly; the line goes to standard error then. Nothing is ever
 * removed but the new file. Who ends the program by a signal while it writes may find that file, .mlhe-XXXXXX.
 */
#define _XOPEN_SOURCE 700
#include "mlhe.h"

#include <errno.h>
#include <fcntl.h>
#include <signal.h>
#include <stdio.h>
#include <stdlib.h>
#include <string.h>
#include <sys/stat.h>
#include <unistd.h>

struct file {
    uint8_t *bytes;
    size_t length;
};

/* Where the output goes. */
struct target {
    const char *name;
    char *path;  /* the file that is put into place; NULL where the name is that of a stream */
    mode_t mode; /* the rights of that file */
    int stream;  /* the descriptor of a stream */
};

static void fail(const char *name, const char *what) {
    fprintf(stderr, "enhance: %s: %s\n", name, what);
    exit(1);
}

/* The answer, unless it is a refusal. */
static int64_t accepted(const char *name, int64_t answer) {
    if (answer < 0) {
        fprintf(stderr, "enhance: %s: refused %lld: %s\n", name, (long long)-answer, mlhe_reason(answer));
        exit(1);
    }
    return answer;
}

static void *room(const char *name, size_t elements, size_t size) {
    void *memory = calloc(elements ? elements : 1, size);
    if (memory == NULL) {
        fail(name, "there is not enough memory");
    }
    return memory;
}

static struct file contents(const char *name) {
    struct file file = {NULL, 0};
    size_t capacity = 1 << 16;
    FILE *stream = fopen(name, "rb");
    if (stream == NULL) {
        fail(name, strerror(errno));
    }
    for (;;) {
        uint8_t *bytes = realloc(file.bytes, capacity);
        if (bytes == NULL) {
            fail(name, "there is not enough memory");
        }
        file.bytes = bytes;
        file.length += fread(file.bytes + file.length, 1, capacity - file.length, stream);
        if (file.length < capacity) {
            break;
        }
        capacity *= 2;
    }
    if (ferror(stream)) {
        fail(name, strerror(errno));
    }
    fclose(stream);
    return file;
}

static int is_same(const struct stat *one, const struct stat *other) {
    return one->st_dev == other->st_dev && one->st_ino == other->st_ino;
}

/* What the name stands for: looked at before any work, and nothing is changed by it. */
static struct target target_of(const char *name) {
    struct target target = {name, NULL, 0, -1};
    struct stat there, own;
    if (lstat(name, &there) != 0 && errno == ENOENT) {
        const mode_t mask = umask(0);
        umask(mask);
        target.mode = 0666 & ~mask;
        target.path = strdup(name);
    } else if (stat(name, &there) != 0) {
        fail(name, strerror(errno)); /* so for a link to nothing */
    } else if (fstat(STDOUT_FILENO, &own) == 0 && is_same(&there, &own)) {
        target.stream = STDOUT_FILENO;
    } else if (!S_ISREG(there.st_mode)) {
        target.stream = open(name, O_WRONLY);
    } else if (access(name, W_OK) == 0) {
        target.mode = there.st_mode & 0777;
        target.path = realpath(name, NULL); /* the file itself, not a link to it */
    }
    if (target.path == NULL && target.stream < 0) {
        fail(name, strerror(errno));
    }
    return target;
}

/* An output file that is an input would be lost. */
static void keep_input(const char *out_name, const char *name) {
    struct stat output, input;
    const int is_file = stat(out_name, &output) == 0 && S_ISREG(output.st_mode);
    if (is_file && stat(name, &input) == 0 && is_same(&output, &input)) {
        fail(out_name, "it is an input, and stays as it is: the output needs another name");
    }
}

/* Whether all bytes were written; errno says why not. */
static int write_all(int descriptor, const uint8_t *bytes, size_t length) {
    while (length > 0) {
        const ssize_t count = write(descriptor, bytes, length);
        if (count >= 0) {
            bytes += count;
            length -= (size_t)count;
        } else if (errno != EINTR) {
            return 0;
        }
    }
    return 1;
}

/* The pattern of a new file's name in the folder of the path. */
static char *beside(const char *path) {
    static const char name[] = ".mlhe-XXXXXX";
    const char *slash = strrchr(path, '/');
    const size_t folder = slash == NULL ? 0 : (size_t)(slash - path) + 1;
    char *pattern = room(path, folder + sizeof name, 1);
    memcpy(pattern, path, folder);
    memcpy(pattern + folder, name, sizeof name);
    return pattern;
}

/* Puts a file of these bytes into place, whole, or leaves everything as it was. */
static void replace(const struct target *target, const uint8_t *bytes, size_t length) {
    char *new_path = beside(target->path);
    const int descriptor = mkstemp(new_path);
    if (descriptor < 0) {
        fail(target->name, strerror(errno));
    }
    int whole = write_all(descriptor, bytes, length) && fchmod(descriptor, target->mode) == 0 && fsync(descriptor) == 0;
    int error = errno;
    if (close(descriptor) != 0 && whole) {
        whole = 0;
        error = errno;
    }
    if (!whole || rename(new_path, target->path) != 0) {
        error = whole ? errno : error;
        unlink(new_path);
        fail(target->name, strerror(error));
    }
    free(new_path);
}

static void save(struct target *target, const uint8_t *bytes, size_t length) {
    if (target->path != NULL) {
        replace(target, bytes, length);
    } else if (!write_all(target->stream, bytes, length) || close(target->stream) != 0) {
        fail(target->name, strerror(errno));
    }
    free(target->path);
}

/* Enhances a frame, with a list if there is one, and counts the components that were retoned and kept back. */
static void enhance(const char *in_name, const char *list_name, const uint8_t *frame, size_t w, size_t h,
                    uint8_t *output, size_t counts[MLHE_COUNTS]) {
    /* What is lent beside frame, output and counts: the plane, and working memory. */
    const size_t n = w * h;
    uint8_t *plane = room(in_name, n, 1);
    uint8_t *marks = room(in_name, n, 1);
    uint32_t *queue = room(in_name, n, sizeof *queue);
    if (list_name == NULL) {
        const uint16_t rule[] = MLHE_HOUSE_NUMBERS;
        accepted(in_name, mlhe_enhance(frame, 3 * n, w, h, MLHE_HOUSE_LAST, MLHE_HOUSE_AREA, rule, MLHE_RULE_NUMBERS,
                                       plane, n, marks, n, queue, n, output, 3 * n, counts, MLHE_COUNTS));
    } else {
        struct file list = contents(list_name);
        accepted(in_name, mlhe_intensity(frame, 3 * n, w, h, plane, n));
        accepted(list_name, mlhe_run_list(list.bytes, list.length, plane, n, marks, n, queue, n, w, h, counts,
                                          MLHE_COUNTS));
        accepted(in_name, mlhe_recolour(frame, 3 * n, w, h, plane, n, output, 3 * n));
        free(list.bytes);
    }
    /* The guarantee is of `plane`: a program that matches spots does so here. */
    free(queue);
    free(marks);
    free(plane);
}

int main(int argc, char **argv) {
    if (argc != 3 && argc != 4) {
        fprintf(stderr, "usage: %s [LIST.mlp] IN.ppm OUT.ppm\n", argv[0]);
        return 2;
    }
    signal(SIGXFSZ, SIG_IGN); /* a file that grows too large is an error of writing */
    const char *list_name = argc == 4 ? argv[1] : NULL;
    const char *in_name = argv[argc - 2];
    const char *out_name = argv[argc - 1];
    keep_input(out_name, in_name);
    if (list_name != NULL) {
        keep_input(out_name, list_name);
    }

    /* Width, height and the raster's place. */
    struct file in = contents(in_name);
    size_t numbers[3];
    accepted(in_name, mlhe_read(in.bytes, in.length, numbers, 3));
    const size_t w = numbers[0], h = numbers[1], n = w * h;
    struct target target = target_of(out_name);
    uint8_t *output = room(in_name, 3 * n, 1);
    size_t counts[MLHE_COUNTS];
    enhance(in_name, list_name, in.bytes + numbers[2], w, h, output, counts);

    uint8_t *file = room(out_name, 3 * n + MLHE_GREATEST_HEADER, 1);
    const int64_t length = accepted(out_name, mlhe_write(output, 3 * n, w, h, file, 3 * n + MLHE_GREATEST_HEADER));
    FILE *report = target.path != NULL ? stdout : stderr;
    save(&target, file, (size_t)length);
    fprintf(report, "%s: %zu x %zu, %zu components retoned, %zu kept, %s\n", in_name, w, h, counts[MLHE_RETONED],
            counts[MLHE_KEPT], out_name);
    if (fflush(report) != 0) {
        fail("the line on what was done", strerror(errno));
    }
    free(file);
    free(output);
    free(in.bytes);
    return 0;
}
