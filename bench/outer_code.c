/*
 * The speed of this outer code beside libfec's, on slot words: 188 bytes of data and 16 check bytes.
 *
 * In every round both sides do the same job on fresh copies of the same words, one side right after
 * the other, and the side that begins changes from round to round. The rounds go through a set of
 * distinct random words that is larger than the inner caches. Copying the words for a side, and
 * comparing its outcome with the codewords sent, are outside of the timed part.
 *
 * The table has medians over the rounds: nanoseconds for a word on either side, and the ratio of the
 * two times in one round, libfec's over ours. A ratio above 1 means that ours is faster.
 */
#include "bench.h"

#include <fec.h>
#include <stdio.h>
#include <string.h>

enum { LENGTH = 204, CHECK_BYTES = 16, DATA = LENGTH - CHECK_BYTES, SYNC = 0x47, BOUND = 8 };
enum { WORDS = 8192, BATCH = 256, ROUNDS = 301 };

/* Ours: write the word's last 16 bytes; put the codeword within the bound in the word's place. 0: done. */
uint8_t rondvysti_bench_encode(uint8_t *word, size_t len);
uint8_t rondvysti_bench_correct(uint8_t *word, size_t len, uint8_t bound);

/* Work on one word; answers 0 if it was done. */
typedef int work(uint8_t *word);

struct job {
    const char *name;
    work *ours;
    work *libfec;
    int errors;
    int wipe_checks; /* whether the check bytes are to be written, and so are zero before */
};

static void *code;
static uint8_t sent[WORDS][LENGTH];
static uint8_t received[WORDS][LENGTH];
static uint8_t batch[BATCH][LENGTH];

static int ours_encode(uint8_t *word)
{
    return rondvysti_bench_encode(word, LENGTH);
}

static int libfec_encode(uint8_t *word)
{
    encode_rs_char(code, word, word + DATA);
    return 0;
}

static int ours_correct(uint8_t *word)
{
    return rondvysti_bench_correct(word, LENGTH, BOUND);
}

static int libfec_correct(uint8_t *word)
{
    return decode_rs_char(code, word, NULL, 0) < 0;
}

/* Distinct codewords, as they are sent. */
static void make_words(void)
{
    for (int w = 0; w < WORDS; w++) {
        sent[w][0] = SYNC;
        for (int i = 1; i < DATA; i++)
            sent[w][i] = (uint8_t)below(256);
        encode_rs_char(code, sent[w], sent[w] + DATA);
    }
}

/* Make exactly `errors` bytes of the word wrong. */
static void damage(uint8_t *word, int errors)
{
    char taken[LENGTH] = { 0 };

    while (errors > 0) {
        int place = below(LENGTH);

        if (!taken[place]) {
            taken[place] = 1;
            word[place] ^= (uint8_t)(1 + below(255));
            errors--;
        }
    }
}

/* The words as the job meets them. */
static void make_received(const struct job *job)
{
    memcpy(received, sent, sizeof sent);
    for (int w = 0; w < WORDS; w++) {
        damage(received[w], job->errors);
        if (job->wipe_checks)
            memset(received[w] + DATA, 0, CHECK_BYTES);
    }
}

/* One side at work on the batch that begins at word `first`: nanoseconds for a word. */
static double timed(work *side, const char *job, int first)
{
    double begun, ended;
    int failed = 0;

    memcpy(batch, received + first, sizeof batch);
    begun = seconds();
    for (int w = 0; w < BATCH; w++)
        failed |= side(batch[w]);
    ended = seconds();
    if (failed || memcmp(batch, sent + first, sizeof batch) != 0) {
        fprintf(stderr, "%s: a wrong outcome\n", job);
        exit(1);
    }
    return (ended - begun) * 1e9 / BATCH;
}

/* All rounds of a job, and its row of the table. */
static void run(const struct job *job)
{
    static double ours[ROUNDS], libfec[ROUNDS], ratio[ROUNDS];

    make_received(job);
    timed(job->ours, job->name, 0);
    timed(job->libfec, job->name, 0);
    for (int r = 0; r < ROUNDS; r++) {
        int first = r * BATCH % WORDS;

        if (r % 2 == 0)
            ours[r] = timed(job->ours, job->name, first);
        libfec[r] = timed(job->libfec, job->name, first);
        if (r % 2 == 1)
            ours[r] = timed(job->ours, job->name, first);
        ratio[r] = libfec[r] / ours[r];
    }
    printf("%-18s %14.1f %16.1f %14.2f\n", job->name, median(ours, ROUNDS), median(libfec, ROUNDS), median(ratio, ROUNDS));
}

int main(void)
{
    static const struct job jobs[] = {
        { "code", ours_encode, libfec_encode, 0, 1 },
        { "correct 0 errors", ours_correct, libfec_correct, 0, 0 },
        { "correct 1 error", ours_correct, libfec_correct, 1, 0 },
        { "correct 4 errors", ours_correct, libfec_correct, 4, 0 },
        { "correct 8 errors", ours_correct, libfec_correct, 8, 0 },
    };

    code = init_rs_char(8, 0x11D, 0, 1, CHECK_BYTES, 255 - LENGTH);
    make_words();
    printf("%-18s %14s %16s %14s\n", "job", "ours ns/word", "libfec ns/word", "libfec/ours");
    for (size_t i = 0; i < sizeof jobs / sizeof jobs[0]; i++)
        run(&jobs[i]);
    free_rs_char(code);
    return 0;
}
