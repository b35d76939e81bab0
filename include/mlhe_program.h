/*
 * The program as a C function: what it writes to standard output for what it reads from standard input.
 *
 * This function is not in libmlhe.a. `tools/staticlib frames` writes target/staticlib/libframes.a, which has it and
 * nothing else; a program may link both libraries. It serves to test the program (tests/hostile). For frames, mlhe.h
 * has the calls: they tell refusals apart by number, leave the plane, and take larger frames.
 */
#ifndef MLHE_PROGRAM_H
#define MLHE_PROGRAM_H

#include <stddef.h>
#include <stdint.h>

#ifdef __cplusplus
extern "C" {
#endif

enum {
    /* The longest input that is read, and the room that an output needs, in bytes. */
    MLHE_PROGRAM_INPUT = 65536,
    MLHE_PROGRAM_OUTPUT = 65536,
    /* The most pixels of its frame. */
    MLHE_PROGRAM_PIXELS = 16384
};

/*
 * Enhances a P6 frame with the house setting, or tells why not. Comments in the header are skipped, as by mlhe_read,
 * and not written.
 *
 * input     the whole input, of any length; a longer one than MLHE_PROGRAM_INPUT bytes is refused with 13
 * output    MLHE_PROGRAM_OUTPUT bytes, which must not overlap the input: the first ones become a P6 frame, or the line
 *           `refused N` with LF; those beyond keep their values
 *
 * Answers the number of bytes written, which is never 0. The working memory is on the stack: about 160 KB, measured.
 */
size_t mlhe_program(const uint8_t *input, size_t input_length, uint8_t *output);

#ifdef __cplusplus
}
#endif

#endif
