/*
 * Morpho-local histogram equalisation (MLHE) of frames: the library's C functions.
 *
 * The library is libmlhe.a, for x86-64 Linux: what `tools/staticlib capi` writes to target/staticlib/libcapi.a, under
 * the name to link it by. `make -C examples/c install PREFIX=/folder` puts header and library into /folder/include and
 * /folder/lib; a program is then built with -I/folder/include -L/folder/lib -lmlhe, and needs nothing else. Every
 * function is proved to meet the contract that crates/capi states, and this page says the same in words.
 *
 * What is guaranteed. Through any chain of passes on a plane that mlhe_intensity filled, and in the plane that
 * mlhe_enhance leaves, equal four-neighbours stay equal, unequal ones are never reversed, and each regional maximum or
 * minimum contains a whole one of the first plane, however passes with four and with eight neighbours are mixed. Where
 * every accepted pass has eight neighbours, and in an enhancement with eight, the same holds by eight neighbours too.
 * This is said of the plane, not of a recoloured frame: recolouring holds a channel at 255 and rounds, so that the
 * frame's own intensity is another plane, in which neighbours may be reversed and spots be new. Match spots on the
 * plane. Where all pixels of the frame are grey, the same holds of the recoloured frame's own intensity too.
 *
 * Planes and frames. A plane has w columns and h rows, each 1 to 4,096, and n = w * h pixels, at most 1,048,576: one
 * byte each, row by row, left to right. A frame has the bytes red, green, blue for each pixel: 3 * n bytes.
 *
 * Answers. Every function answers one number. A negative answer -k is refusal k of enum mlhe_refusal: the first that
 * applies, in the order that is given with the function. A refused call changes no lent byte. Any other answer is the
 * function's own: a function that has one number to tell answers it (mlhe_write, mlhe_convert_list); one that has
 * several puts them into lent numbers and answers 0 (mlhe_read, mlhe_pass, mlhe_run_list, mlhe_enhance), as does one
 * that has none.
 *
 * Counts. A component is of sufficient area if it has at least the least area of its pass. Each of these is retoned or
 * kept back, so that both numbers together are the components of sufficient area, in the plane as the pass finds it. A
 * component that gets the rule and comes out as it was is retoned. Which ones are kept back, enum mlhe_rule says for
 * each rule.
 *
 * Lent memory. Each pointer is followed by the number of its elements, and that many elements have to be readable (and
 * writable, where the pointer is not to const), at an address that fits their type. A null pointer is allowed only with
 * the length 0. Nothing is allocated, nothing is kept after the call, and there is no global state, so that threads may
 * call with memory of their own. marks and queue are working memory: at least n elements each, with any content; their
 * first n elements are unspecified after an accepted call, and all others keep their values.
 *
 * Any order. Accepted passes on intervals that have no value in common may run in any order from one plane, or each on
 * a copy of it: the last plane and the counts of each pass are the same. Copies are put together pixel by pixel: the
 * new value is that in the copy on which the pass ran whose interval has the old value, and the old value where no
 * interval has it. The sections of one level of an enhancement are such passes; examples/threads hands them out to
 * threads.
 *
 * No overlap. Within one call no writable memory may overlap any other memory of the call. The proofs are made under
 * this condition, and the code cannot test it: a call with memory that overlaps may leave anything, write outside of
 * what is lent, or crash. Neither the plane nor the output of an enhancement can be the frame's own memory, nor the
 * output of a conversion the list's.
 *
 * Stack. MLHE_STACK bytes are enough for a call, on planes of every size. This is measured (tests/c/stack.c), not
 * proved: an enhancement takes about 6 KB and every other call about 2 KB.
 */
#ifndef MLHE_H
#define MLHE_H

#include <stddef.h>
#include <stdint.h>

/* The version of this header and of the library that it was made with. The library itself does not tell its version. */
#define MLHE_VERSION_MAJOR 0
#define MLHE_VERSION_MINOR 6
#define MLHE_VERSION_PATCH 0
#define MLHE_VERSION "0.6.0"

#ifdef __cplusplus
extern "C" {
#endif

/* What is turned down. A function answers the number with a minus sign. */
enum mlhe_refusal {
    MLHE_REFUSED_SIDES = 1,             /* a side is 0 or above MLHE_GREATEST_SIDE */
    MLHE_REFUSED_PIXELS = 2,            /* more than MLHE_GREATEST_PIXELS pixels */
    MLHE_REFUSED_LENGTHS = 3,           /* the plane is not n bytes, or the frame not 3 * n */
    MLHE_REFUSED_MEMORY = 4,            /* marks or queue have fewer than n elements */
    MLHE_REFUSED_INTERVAL = 5,          /* a is above b */
    MLHE_REFUSED_AREA = 6,              /* the least area is 0 or above MLHE_GREATEST_PIXELS */
    MLHE_REFUSED_LIMITS = 7,            /* plain: low is above high, or high above 25,500 */
    MLHE_REFUSED_CLIP = 8,              /* limited: k is above 1,000 */
    MLHE_REFUSED_LEVEL = 9,             /* the last level is above 7 */
    MLHE_REFUSED_HEADER = 10,           /* the header is malformed, or the bytes end in it, be it in a comment */
    MLHE_REFUSED_MAXVAL = 11,           /* the header's third number is not 255 */
    MLHE_REFUSED_RASTER = 12,           /* the raster is short */
    MLHE_REFUSED_TRAILING = 13,         /* there are bytes after the raster */
    MLHE_REFUSED_OUTPUT = 14,           /* the output, the numbers of mlhe_read or the counts are shorter than needed */
    MLHE_REFUSED_LIST_MARK = 15,        /* a pass list's mark or version is wrong */
    MLHE_REFUSED_LIST_LENGTH = 16,      /* a list has more than MLHE_GREATEST_PASSES passes, or its length is wrong */
    MLHE_REFUSED_RULE = 17,             /* no such rule, a number set that has to be 0, or not 4 or 5 lent numbers */
    MLHE_REFUSED_SLOPES = 18,           /* affine: 0 or more than 16 segments, smin above smax, or smax above 10,000 */
    MLHE_REFUSED_NEIGHBOURS = 19,       /* the number of neighbours is neither 4 nor 8 */
    MLHE_REFUSED_EIGHT_NEIGHBOURS = 20  /* a pass with eight neighbours does not fit a list of version 1 */
};

/*
 * The tone rules, for a component of the pixels with a value from a to b. Numbers that a rule does not have are 0.
 *
 * Plain: histogram equalisation. first is low and second is high, in hundredths; low <= high <= 25,500. Kept back is a
 * component of one value, and one for which the ratio of the value ranges after and before is outside low to high.
 *
 * Limited: contrast-limited equalisation. first is the clip k in thousandths, 0 to 1,000. None is kept back.
 *
 * Affine: piecewise affine equalisation. segments, 1 to 16, is the number of joined lines that approximate the
 * cumulative histogram; first is smin and second is smax, between which their slopes are held, in hundredths;
 * smin <= smax <= 10,000. Where the last line ends above b, all are scaled to fit. Kept back is a component for which
 * it ends below b, and every one where a = b.
 */
enum mlhe_rule {
    MLHE_PLAIN = 0,
    MLHE_LIMITED = 1,
    MLHE_AFFINE = 2
};

/*
 * How many neighbours a pixel has, by which components are connected: the four that differ by one in one coordinate and
 * agree in the other, or the eight that differ by at most one in each, so that pixels which touch at a corner belong
 * together.
 */
enum mlhe_neighbours {
    MLHE_FOUR_NEIGHBOURS = 4,
    MLHE_EIGHT_NEIGHBOURS = 8
};

/* The places of the numbers that mlhe_pass and mlhe_enhance are lent: those of the rule, then the neighbours. */
enum mlhe_rule_number {
    MLHE_RULE_CODE = 0, /* one of enum mlhe_rule */
    MLHE_RULE_FIRST = 1,
    MLHE_RULE_SECOND = 2,
    MLHE_RULE_SEGMENTS = 3,
    MLHE_RULE_NEIGHBOURS = 4 /* one of enum mlhe_neighbours; four where this number is not lent */
};

/* The places of the counts of mlhe_pass, mlhe_run_list and mlhe_enhance. */
enum mlhe_count {
    MLHE_RETONED = 0, /* components of sufficient area that got the rule */
    MLHE_KEPT = 1     /* components of sufficient area that were kept back: their values stay */
};

enum {
    MLHE_GREATEST_SIDE = 4096,
    MLHE_GREATEST_PIXELS = 1048576,
    /* The elements of counts: one for each of enum mlhe_count. */
    MLHE_COUNTS = 2,
    /* The elements of rule: without the neighbours, which are then four; and with them. */
    MLHE_RULE_NUMBERS = 4,
    MLHE_PASS_NUMBERS = 5,
    /* The most bytes that mlhe_write puts before the raster: P6, LF, width, space, height, LF, 255, LF. */
    MLHE_GREATEST_HEADER = 17,
    /* The most passes of a list, and the most bytes: those of as many passes in version 2. */
    MLHE_GREATEST_PASSES = 320,
    MLHE_GREATEST_LIST = 7 + 16 * MLHE_GREATEST_PASSES,
    /* The greatest last level, the greatest numbers of the rules. */
    MLHE_GREATEST_LEVEL = 7,
    MLHE_GREATEST_HIGH = 25500,
    MLHE_GREATEST_CLIP = 1000,
    MLHE_GREATEST_SEGMENTS = 16,
    MLHE_GREATEST_SLOPE = 10000,
    /* Bytes of stack that are enough for a call. */
    MLHE_STACK = 16384,
    /* The house setting of mlhe_enhance. */
    MLHE_HOUSE_LAST = 7,
    MLHE_HOUSE_AREA = 20,
    MLHE_HOUSE_RULE = MLHE_PLAIN,
    MLHE_HOUSE_LOW = 80,
    MLHE_HOUSE_HIGH = 300,
    MLHE_HOUSE_NEIGHBOURS = 4
};

/* The rule of the house setting, without its four neighbours: const uint16_t rule[] = MLHE_HOUSE_NUMBERS; */
#define MLHE_HOUSE_NUMBERS {MLHE_HOUSE_RULE, MLHE_HOUSE_LOW, MLHE_HOUSE_HIGH, 0}

/* The reason for a refusal in words, for people: of any answer, so that it can be put into a message as it is. */
static inline const char *mlhe_reason(int64_t answer) {
    if (answer >= 0) {
        return "it was not refused";
    }
    switch (answer < -MLHE_REFUSED_EIGHT_NEIGHBOURS ? 0 : (int)-answer) {
    case MLHE_REFUSED_SIDES: return "a side is 0 or above 4,096";
    case MLHE_REFUSED_PIXELS: return "there are more than 1,048,576 pixels";
    case MLHE_REFUSED_LENGTHS: return "the plane or the frame does not have the length of its sides";
    case MLHE_REFUSED_MEMORY: return "the working memory is shorter than the plane";
    case MLHE_REFUSED_INTERVAL: return "the interval's lower end is above its upper end";
    case MLHE_REFUSED_AREA: return "the least area is 0 or above 1,048,576";
    case MLHE_REFUSED_LIMITS: return "low is above high, or high is above 25,500";
    case MLHE_REFUSED_CLIP: return "the clip is above 1,000";
    case MLHE_REFUSED_LEVEL: return "the last level is above 7";
    case MLHE_REFUSED_HEADER: return "the P6 header is malformed, or the file ends in it";
    case MLHE_REFUSED_MAXVAL: return "the P6 header's third number is not 255";
    case MLHE_REFUSED_RASTER: return "the raster is short";
    case MLHE_REFUSED_TRAILING: return "there are bytes after the raster";
    case MLHE_REFUSED_OUTPUT: return "the output is too short";
    case MLHE_REFUSED_LIST_MARK: return "it is no pass list of version 1 or 2";
    case MLHE_REFUSED_LIST_LENGTH: return "there are more than 320 passes, or the pass list's length is wrong";
    case MLHE_REFUSED_RULE: return "there is no such tone rule, or a number that has to be 0 is set";
    case MLHE_REFUSED_SLOPES:
        return "there are 0 segments or more than 16, smin is above smax, or smax is above 10,000";
    case MLHE_REFUSED_NEIGHBOURS: return "the number of neighbours is neither 4 nor 8";
    case MLHE_REFUSED_EIGHT_NEIGHBOURS: return "a pass with eight neighbours does not fit version 1";
    default: return "there is no such refusal";
    }
}

/*
 * Reads the header of a P6 frame and measures the rest. Comments are skipped: a number sign where whitespace may
 * stand before one of the three numbers opens one, which goes up to and including the next LF or CR and counts as one
 * whitespace byte.
 *
 * bytes     the whole file, at most one frame
 * numbers   at least 3 elements: the first three become the width, the height, and the place of the raster's first
 *           byte, from which on there are 3 * n bytes
 *
 * Answers 0. Refusals, in order: 10, 1, 2, 11, 12, 13, and 14 where numbers has fewer than 3 elements.
 */
int64_t mlhe_read(const uint8_t *bytes, size_t bytes_length, size_t *numbers, size_t numbers_length);

/*
 * Writes a P6 frame.
 *
 * raster    3 * n bytes
 * output    room for the header and the raster: 3 * n + MLHE_GREATEST_HEADER bytes are always enough; what lies beyond
 *           the written bytes stays
 *
 * Answers the number of bytes written. Refusals, in order: 1, 2, 3, 14.
 */
int64_t mlhe_write(const uint8_t *raster, size_t raster_length, size_t w, size_t h, uint8_t *output,
                   size_t output_length);

/*
 * Fills a plane with the intensities of a frame: the mean of the three channels, rounded to nearest, halves upward.
 *
 * frame     3 * n bytes
 * plane     n bytes, all of which are written
 *
 * Answers 0. Refusals, in order: 1, 2, 3.
 */
int64_t mlhe_intensity(const uint8_t *frame, size_t frame_length, size_t w, size_t h, uint8_t *plane,
                       size_t plane_length);

/*
 * One pass: every component of the pixels with a value from a to b, connected by four or by eight neighbours, that has
 * at least `area` pixels gets the rule on its own pixels; all other pixels stay.
 *
 * plane     n bytes, changed in place
 * marks     working memory, at least n elements
 * queue     working memory, at least n elements
 * rule      MLHE_RULE_NUMBERS or MLHE_PASS_NUMBERS elements, at the places of enum mlhe_rule_number:
 *           rule[MLHE_RULE_CODE] is one of enum mlhe_rule, and the next three are that rule's own numbers. With
 *           MLHE_RULE_NUMBERS elements the pass has four neighbours; with MLHE_PASS_NUMBERS it has as many as
 *           rule[MLHE_RULE_NEIGHBOURS] says, one of enum mlhe_neighbours
 * counts    at least MLHE_COUNTS elements: counts[MLHE_RETONED] becomes the number of components that were retoned and
 *           counts[MLHE_KEPT] the number of those that were kept back; elements beyond stay
 *
 * Answers 0. Refusals, in order: 1, 2, 3, 4, 17, 5, 6, 7, 8, 18, 19, and 14 where counts has fewer than 2 elements. As
 * in a record of a pass list, 17 is tested before the other numbers: a code above 2, plain or limited with segments not
 * 0, limited with second not 0; and here any number of elements of rule but MLHE_RULE_NUMBERS and MLHE_PASS_NUMBERS.
 */
int64_t mlhe_pass(uint8_t *plane, size_t plane_length, uint8_t *marks, size_t marks_length, uint32_t *queue,
                  size_t queue_length, size_t w, size_t h, uint8_t a, uint8_t b, uint32_t area, const uint16_t *rule,
                  size_t rule_length, size_t *counts, size_t counts_length);

/*
 * The passes of a list, one after the other. All records are checked before the first pass runs. Lists of version 1 and
 * of version 2 are read: in version 2 each pass has its own number of neighbours; version 1 has no place for it, and
 * each pass has four.
 *
 * list      the bytes MLP, the version and the count of passes (0 to MLHE_GREATEST_PASSES), both 16-bit, then a record
 *           for each pass. In version 1 it has 12 bytes: a, b, the rule's code, segments (0 but for affine), area
 *           (32-bit), first and second (16-bit); of each number the low byte first. In version 2 it has 16: the same
 *           12, the number of neighbours (one of enum mlhe_neighbours), and three bytes that are 0
 * plane, marks, queue   as for mlhe_pass
 * counts    as for mlhe_pass: the sums of the passes' counts, 0 and 0 for a list of no passes
 *
 * Answers 0. Refusals, in order: 1, 2, 3, 4, 16 (fewer than 7 bytes), 15, 16, then for each record 17, 5, 6, 7, 8, 18,
 * 19, and 14 where counts has fewer than 2 elements. 19 is of version 2 alone.
 */
int64_t mlhe_run_list(const uint8_t *list, size_t list_length, uint8_t *plane, size_t plane_length, uint8_t *marks,
                      size_t marks_length, uint32_t *queue, size_t queue_length, size_t w, size_t h, size_t *counts,
                      size_t counts_length);

/*
 * Converts a list to the other version: version 1 to version 2, where each pass says that it has four neighbours, and
 * version 2 to version 1, where none may have eight. Both are the same passes, so that they run to the same plane and
 * counts; and converting twice gives the first list again, byte for byte.
 *
 * list      a list of either version, as for mlhe_run_list
 * output    room for the list in the other version: 7 + 16 * count bytes for version 2, 7 + 12 * count for version 1;
 *           MLHE_GREATEST_LIST bytes are always enough; what lies beyond the written bytes stays
 *
 * Answers the number of bytes written. Refusals, in order: 16 (fewer than 7 bytes), 15, 16, then for each record 17, 5,
 * 6, 7, 8, 18, 19; then 20 where a pass with eight neighbours is to become version 1, and 14 last.
 */
int64_t mlhe_convert_list(const uint8_t *list, size_t list_length, uint8_t *output, size_t output_length);

/*
 * Recolours a frame from new intensities, such as passes leave them in the plane that mlhe_intensity filled. The three
 * channels of a pixel are scaled alike and rounded, and held so that none is above 255; a pixel of intensity 0 becomes
 * black. So the recoloured frame's own intensity may differ from the plane.
 *
 * frame     3 * n bytes
 * plane     n bytes
 * output    at least 3 * n bytes, of which the first 3 * n are written
 *
 * Answers 0. Refusals, in order: 1, 2, 3, 14.
 */
int64_t mlhe_recolour(const uint8_t *frame, size_t frame_length, size_t w, size_t h, const uint8_t *plane,
                      size_t plane_length, uint8_t *output, size_t output_length);

/*
 * Enhances a frame: intensity, the passes of the levels 0 to `last` (level l has 2^l sections of equal width; level 0
 * has no least area), and recolouring.
 *
 * frame     3 * n bytes
 * last      0 to 7
 * area      the least area of a component from level 1 on
 * rule      as for mlhe_pass; all levels have the same neighbours
 * plane     n bytes, which become the new intensity: the plane to match spots on
 * marks     working memory, at least n elements
 * queue     working memory, at least n elements
 * output    at least 3 * n bytes, of which the first 3 * n become the recoloured frame
 * counts    as for mlhe_pass: the sums of the counts of all passes, section by section on all levels. So, with plain, a
 *           component of one value is kept once at every level where its area is sufficient; level 0 has no least area
 *
 * Answers 0. Refusals, in order: 1, 2, 3, 4, 14, 17, 9, 6, 7, 8, 18, 19, and 14 where counts has fewer than 2 elements.
 * 17, as for mlhe_pass, is tested before the other numbers of the setting.
 */
int64_t mlhe_enhance(const uint8_t *frame, size_t frame_length, size_t w, size_t h, uint8_t last, uint32_t area,
                     const uint16_t *rule, size_t rule_length, uint8_t *plane, size_t plane_length, uint8_t *marks,
                     size_t marks_length, uint32_t *queue, size_t queue_length, uint8_t *output, size_t output_length,
                     size_t *counts, size_t counts_length);

#ifdef __cplusplus
}
#endif

#endif
