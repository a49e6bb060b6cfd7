/*
 * Rondvysti for C: the check of a slot plan file and the correction of a TMCC word.
 *
 * Link with librondvysti.a. Both calls answer 0, or the number of a refusal.
 *
 * The caller owns every buffer. Nothing is allocated or kept after a call, and there is no state
 * between calls, so both may be called from several threads at once on different buffers.
 * A pointer is never null, and `len` bytes are valid behind it; a call with len 0 reads nothing, but
 * its pointer must not be null either. Nobody else writes into the bytes while a call runs.
 */
#ifndef RONDVYSTI_H
#define RONDVYSTI_H

#include <stddef.h>
#include <stdint.h>

#ifdef __cplusplus
extern "C" {
#endif

enum {
    RONDVYSTI_OK = 0,
    RONDVYSTI_PLAN_MARK = 1,          /* shorter than 6 bytes, or it does not begin with SLP */
    RONDVYSTI_PLAN_VERSION = 2,       /* the version is not 1 */
    RONDVYSTI_PLAN_LENGTH = 3,        /* N is not 1 to 48, or the length is not 39 + N */
    RONDVYSTI_PLAN_WORDS = 4,         /* mode words unknown, not falling, or after an unused line */
    RONDVYSTI_PLAN_COUNTS = 5,        /* slot counts do not fit their units, or do not add up to N */
    RONDVYSTI_PLAN_STREAMS = 6,       /* stream number above 7, wrong on a dummy slot, or TS_ID shared */
    RONDVYSTI_PLAN_BITS = 7,          /* control bits above 31, or expanded bits above the 62 */
    RONDVYSTI_WRONG_LENGTH = 8,       /* the buffer is not of its stated length */
    RONDVYSTI_WRONG_BOUND = 9,        /* the bound is above 8 */
    RONDVYSTI_TMCC_UNCORRECTABLE = 14 /* no codeword within the bound */
};

/* The bytes of a TMCC word: 48 of data, then 16 check bytes. */
enum { RONDVYSTI_TMCC_WORD = 64 };

/*
 * Check the `len` bytes of a slot plan file, which are only read.
 * Answers 0 for a valid plan, or else 1 to 7: the first check that fails, in the order of the numbers.
 */
uint8_t rondvysti_plan_check(const uint8_t *file, size_t len);

/*
 * Correct a received TMCC word in place. Answers
 *   0   and the 64 bytes are now the one codeword that differs from them in at most `bound` bytes;
 *   8   len is not 64;
 *   9   bound is above 8;
 *   14  no codeword differs in at most `bound` bytes.
 * 8 is checked first, then 9. On a refusal the bytes are as they were.
 */
uint8_t rondvysti_tmcc_correct(uint8_t *word, size_t len, uint8_t bound);

#ifdef __cplusplus
}
#endif

#endif
