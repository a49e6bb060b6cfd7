/*
 * Corrects received TMCC words.
 *
 *     tmcc_control BOUND WORD...
 *
 * reads each file, corrects its 64 bytes with the bound (a number of bytes, 0 to 8) and prints how
 * many bytes were wrong, or the number and meaning of the refusal.
 * Ends with status 0 if all were corrected, 1 if one was refused, 2 if a file cannot be read.
 */
#include "read_file.h"
#include "rondvysti.h"

#include <stdlib.h>
#include <string.h>

/* One byte more than a word shows that a file is too long. */
enum { ROOM = RONDVYSTI_TMCC_WORD + 1 };

static const char *meaning(uint8_t refusal)
{
    switch (refusal) {
    case RONDVYSTI_WRONG_LENGTH: return "a TMCC word has 64 bytes";
    case RONDVYSTI_WRONG_BOUND: return "the bound is above 8";
    case RONDVYSTI_TMCC_UNCORRECTABLE: return "no codeword within the bound";
    default: return "unknown refusal";
    }
}

static unsigned differing(const uint8_t *a, const uint8_t *b, size_t len)
{
    unsigned count = 0;

    for (size_t i = 0; i < len; i++)
        count += a[i] != b[i];
    return count;
}

/* Correct one word, say the outcome and answer this program's status for it. */
static int correct_word(const char *name, uint8_t bound)
{
    uint8_t received[ROOM], word[ROOM];
    size_t len;
    uint8_t refusal;

    if (read_file(name, received, sizeof received, &len) != 0)
        return 2;
    memcpy(word, received, len);
    refusal = rondvysti_tmcc_correct(word, len, bound);
    if (refusal == RONDVYSTI_OK) {
        printf("tmcc %s: accepted, %u bytes corrected\n", name, differing(received, word, len));
        return 0;
    }
    printf("tmcc %s: refused %u (%s)\n", name, (unsigned)refusal, meaning(refusal));
    return 1;
}

int main(int argc, char **argv)
{
    unsigned long bound;
    char *end;
    int status = 0;

    if (argc < 3) {
        fprintf(stderr, "usage: %s BOUND WORD...\n", argv[0]);
        return 2;
    }
    bound = strtoul(argv[1], &end, 10);
    if (end == argv[1] || *end != '\0' || bound > UINT8_MAX) {
        fprintf(stderr, "%s: the bound is no number from 0 to 255\n", argv[0]);
        return 2;
    }
    for (int i = 2; i < argc; i++) {
        int one = correct_word(argv[i], (uint8_t)bound);

        status = one > status ? one : status;
    }
    return status;
}
