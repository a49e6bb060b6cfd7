/*
 * Code vectors out of libfec, for the program `codeword`.
 *
 *     rs_vectors REQUESTS ANSWERS
 *
 * writes request lines into one file and, line for line, the answers they must get into the other:
 *
 *     E KIND HEX      code data          the whole word
 *     C KIND R HEX    correct a word     the one codeword that differs in at most R bytes
 *
 * KIND is `slot` (204 bytes, 188 of them data, a corrected word begins with 47h) or `tmcc`
 * (64 bytes, 48 of them data). HEX has two digits of either case to a byte, R is decimal, and fields
 * are parted by one space. Words are answered in capitals. A line of another form is answered by `?`;
 * then come REFUSED 8 for a wrong length, REFUSED 9 for R above 8, and REFUSED 16 (slot) or
 * REFUSED 14 (tmcc) where no codeword is within R.
 */
#include <fec.h>
#include <stdint.h>
#include <stdio.h>
#include <stdlib.h>
#include <string.h>

enum { CHECK_BYTES = 16, BLOCK = 255, MOST_BYTES = 300, MOST_ERRORS = 8, SYNC = 0x47, ANY = -1 };

struct kind {
    const char *name;
    int length;
    int first; /* the first byte of a corrected word, or ANY */
    int refusal;
    void *code;
};

static struct kind slot = { "slot", 204, SYNC, 16, NULL };
static struct kind tmcc = { "tmcc", 64, ANY, 14, NULL };
static struct kind *const kinds[] = { &slot, &tmcc };

static const char CAPITALS[] = "0123456789ABCDEF";
static const char SMALL[] = "0123456789abcdef";

static FILE *requests;
static FILE *answers;

/* The next number of a fixed sequence (splitmix64), below `limit`. */
static int below(int limit)
{
    static uint64_t state = 20408;
    uint64_t z = state += 0x9E3779B97F4A7C15u;

    z = (z ^ z >> 30) * 0xBF58476D1CE4E5B9u;
    z = (z ^ z >> 27) * 0x94D049BB133111EBu;
    return (int)((z ^ z >> 31) % (uint64_t)limit);
}

static int data_length(const struct kind *kind)
{
    return kind->length - CHECK_BYTES;
}

/* Write the check bytes behind the data. */
static void code(const struct kind *kind, uint8_t *word)
{
    encode_rs_char(kind->code, word, word + data_length(kind));
}

static int is_codeword(const struct kind *kind, const uint8_t *word)
{
    uint8_t coded[MOST_BYTES];

    memcpy(coded, word, (size_t)data_length(kind));
    code(kind, coded);
    return memcmp(coded, word, (size_t)kind->length) == 0;
}

static int distance(const uint8_t *a, const uint8_t *b, int length)
{
    int differing = 0;

    for (int i = 0; i < length; i++)
        differing += a[i] != b[i];
    return differing;
}

/*
 * Correct `word` by libfec and say whether the outcome is an answer. libfec works on the padded
 * block and may place an error in the padding, so that what it leaves is no codeword.
 */
static int correct(const struct kind *kind, int bound, uint8_t *word)
{
    uint8_t received[MOST_BYTES];

    memcpy(received, word, (size_t)kind->length);
    return decode_rs_char(kind->code, word, NULL, 0) >= 0 && is_codeword(kind, word)
        && distance(received, word, kind->length) <= bound && (kind->first == ANY || word[0] == kind->first);
}

/* Write the bytes and a line's end, in the sixteen digits given. */
static void put_hex(FILE *to, const char *digits, const uint8_t *bytes, int length)
{
    for (int i = 0; i < length; i++) {
        fputc(digits[bytes[i] >> 4], to);
        fputc(digits[bytes[i] & 15], to);
    }
    fputc('\n', to);
}

/* A request to code, and its answer. */
static void ask_code(const struct kind *kind, const uint8_t *data, int length)
{
    uint8_t word[MOST_BYTES];

    fprintf(requests, "E %s ", kind->name);
    put_hex(requests, CAPITALS, data, length);
    if (length != data_length(kind)) {
        fputs("REFUSED 8\n", answers);
        return;
    }
    memcpy(word, data, (size_t)length);
    code(kind, word);
    put_hex(answers, CAPITALS, word, kind->length);
}

/* A request to correct, and its answer. */
static void ask_correct(const struct kind *kind, int bound, const uint8_t *received, int length)
{
    uint8_t word[MOST_BYTES];

    fprintf(requests, "C %s %d ", kind->name, bound);
    put_hex(requests, CAPITALS, received, length);
    memcpy(word, received, (size_t)length);
    if (length != kind->length)
        fputs("REFUSED 8\n", answers);
    else if (bound > MOST_ERRORS)
        fputs("REFUSED 9\n", answers);
    else if (correct(kind, bound, word))
        put_hex(answers, CAPITALS, word, kind->length);
    else
        fprintf(answers, "REFUSED %d\n", kind->refusal);
}

static void random_bytes(uint8_t *bytes, int length)
{
    for (int i = 0; i < length; i++)
        bytes[i] = (uint8_t)below(256);
}

/* A random codeword that may be sent: its first byte is the permitted one. */
static void random_codeword(const struct kind *kind, uint8_t *word)
{
    random_bytes(word, data_length(kind));
    if (kind->first != ANY)
        word[0] = (uint8_t)kind->first;
    code(kind, word);
}

static void damage(uint8_t *word, int place)
{
    word[place] ^= (uint8_t)(1 + below(255));
}

/* Make exactly `count` bytes wrong, at places from `from` on. */
static void damage_random(uint8_t *word, int from, int length, int count)
{
    char taken[MOST_BYTES] = { 0 };

    while (count > 0) {
        int place = from + below(length - from);

        if (!taken[place]) {
            taken[place] = 1;
            damage(word, place);
            count--;
        }
    }
}

/* Coding: random data, one byte repeated, a single byte set, the null packet. */
static void cases_of_coding(const struct kind *kind)
{
    static const uint8_t null_packet[4] = { SYNC, 0x1F, 0xFF, 0x10 };
    static const uint8_t repeated[] = { 0x00, 0x01, 0x47, 0x80, 0xFF };
    const int length = data_length(kind);
    uint8_t data[MOST_BYTES];

    for (int i = 0; i < 8; i++) {
        random_bytes(data, length);
        data[0] = i % 2 == 0 ? SYNC : data[0];
        ask_code(kind, data, length);
    }
    for (size_t i = 0; i < sizeof repeated; i++) {
        memset(data, repeated[i], (size_t)length);
        ask_code(kind, data, length);
    }
    for (int i = 0; i < 4; i++) {
        memset(data, 0, (size_t)length);
        data[i < 2 ? i * (length - 1) : below(length)] = (uint8_t)(1 + below(255));
        ask_code(kind, data, length);
    }
    memset(data, 0xFF, (size_t)length);
    memcpy(data, null_packet, sizeof null_packet);
    ask_code(kind, data, length);
}

/* Every bound with every number of errors up to eight, and up to sixteen with the widest bounds. */
static void cases_of_bounds(const struct kind *kind)
{
    uint8_t word[MOST_BYTES];

    for (int bound = 0; bound <= MOST_ERRORS; bound++)
        for (int errors = 0; errors <= (bound < 7 ? MOST_ERRORS : CHECK_BYTES); errors++) {
            random_codeword(kind, word);
            damage_random(word, 0, kind->length, errors);
            ask_correct(kind, bound, word, kind->length);
        }
}

/* Errors at both ends, in the check bytes alone, and side by side. */
static void cases_of_places(const struct kind *kind)
{
    uint8_t word[MOST_BYTES];

    for (int errors = 1; errors <= MOST_ERRORS + 1; errors++) {
        random_codeword(kind, word);
        for (int i = 0; i < errors; i++)
            damage(word, i % 2 == 0 ? i / 2 : kind->length - 1 - i / 2);
        ask_correct(kind, MOST_ERRORS, word, kind->length);

        random_codeword(kind, word);
        damage_random(word, data_length(kind), kind->length, errors);
        ask_correct(kind, MOST_ERRORS, word, kind->length);
    }
    for (int from = 0; from <= kind->length - MOST_ERRORS; from += (kind->length - MOST_ERRORS) / 4) {
        random_codeword(kind, word);
        for (int i = 0; i < MOST_ERRORS; i++)
            damage(word, from + i);
        ask_correct(kind, MOST_ERRORS, word, kind->length);
    }
}

/*
 * Words between two codewords that differ in seventeen bytes, the data byte at `place` and all check
 * bytes: a word that differs from the first in k of these bytes differs from the other in 17 - k.
 */
static void cases_between(const struct kind *kind, int place)
{
    uint8_t from[MOST_BYTES], to[MOST_BYTES], word[MOST_BYTES];
    const int first_check = data_length(kind);

    random_codeword(kind, from);
    memcpy(to, from, (size_t)kind->length);
    damage(to, place);
    code(kind, to);
    for (int steps = 6; steps <= 11; steps++) {
        memcpy(word, from, (size_t)kind->length);
        memcpy(word + first_check, to + first_check, (size_t)steps - 1);
        word[place] = to[place];
        ask_correct(kind, 8, word, kind->length);
        ask_correct(kind, 7, word, kind->length);
    }
}

/* Words near a codeword that begins with another byte than 47h, itself and with 47h written over. */
static void cases_of_first_byte(const struct kind *kind)
{
    static const uint8_t firsts[] = { 0x00, 0x46, 0x48, 0xB8, 0xFF };
    uint8_t word[MOST_BYTES];

    for (size_t i = 0; i < sizeof firsts; i++)
        for (int errors = 0; errors <= 7; errors += 7) {
            random_codeword(kind, word);
            word[0] = firsts[i];
            code(kind, word);
            damage_random(word, 1, kind->length, errors);
            ask_correct(kind, 8, word, kind->length);
            word[0] = SYNC;
            ask_correct(kind, 8, word, kind->length);
        }
    for (int bound = 0; bound <= 1; bound++) {
        random_codeword(kind, word);
        damage(word, 0);
        ask_correct(kind, bound, word, kind->length);
    }
}

/*
 * Ends of 255-byte codewords that are not zero in the padding before the word: a locator finds its
 * places, some of them in the padding, but no codeword is within the bound.
 */
static void cases_of_padding(const struct kind *kind)
{
    const int padding = BLOCK - kind->length;
    void *whole = init_rs_char(8, 0x11D, 0, 1, CHECK_BYTES, 0);
    uint8_t block[MOST_BYTES] = { 0 };

    for (int outside = 1; outside <= MOST_ERRORS; outside++) {
        uint8_t *word = block + padding;

        memset(block, 0, (size_t)padding);
        damage_random(block, 0, padding, outside);
        random_bytes(word, data_length(kind));
        word[0] = SYNC;
        encode_rs_char(whole, block, block + BLOCK - CHECK_BYTES);
        ask_correct(kind, 8, word, kind->length);
        damage_random(word, 0, kind->length, MOST_ERRORS - outside);
        ask_correct(kind, 8, word, kind->length);
    }
    free_rs_char(whole);
}

/* Words with no tie to the code, and the plainest words there are. */
static void cases_of_rubbish(const struct kind *kind)
{
    uint8_t word[MOST_BYTES];

    for (int i = 0; i < 12; i++) {
        random_bytes(word, kind->length);
        word[0] = i % 2 == 0 ? SYNC : word[0];
        ask_correct(kind, i % 3 == 0 ? below(9) : 8, word, kind->length);
    }
    memset(word, 0, sizeof word);
    ask_correct(kind, 0, word, kind->length);
    word[kind->length / 2] = 1;
    ask_correct(kind, 3, word, kind->length);
    memset(word, 0xFF, sizeof word);
    ask_correct(kind, 8, word, kind->length);
}

/* Lengths that are off, bounds that are too large, and both at once. */
static void cases_of_limits(const struct kind *kind)
{
    static const int bounds[] = { 9, 10, 200, 255, 256, 264 };
    const int data = data_length(kind);
    const int other = slot.length + tmcc.length - kind->length;
    const int wrong_words[] = { 0, 1, data, kind->length - 1, kind->length + 1, other, BLOCK };
    const int wrong_data[] = { 0, 1, data - 1, data + 1, kind->length };
    uint8_t word[MOST_BYTES] = { 0 };

    random_codeword(kind, word);
    for (size_t i = 0; i < sizeof wrong_words / sizeof wrong_words[0]; i++) {
        ask_correct(kind, 8, word, wrong_words[i]);
        ask_correct(kind, 9, word, wrong_words[i]);
    }
    for (size_t i = 0; i < sizeof wrong_data / sizeof wrong_data[0]; i++)
        ask_code(kind, word, wrong_data[i]);
    for (size_t i = 0; i < sizeof bounds / sizeof bounds[0]; i++)
        ask_correct(kind, bounds[i], word, kind->length);
}

/* A sound request whose digits are of the other case. */
static void case_of_small_letters(const struct kind *kind)
{
    uint8_t word[MOST_BYTES];

    random_codeword(kind, word);
    fprintf(requests, "E %s ", kind->name);
    put_hex(requests, SMALL, word, data_length(kind));
    put_hex(answers, CAPITALS, word, kind->length);
    fprintf(requests, "C %s 0 ", kind->name);
    put_hex(requests, SMALL, word, kind->length);
    put_hex(answers, CAPITALS, word, kind->length);
}

/* Lines that are no requests. */
static void cases_of_other_lines(void)
{
    static const char *const lines[] = {
        "", " ", "?", "E", "C", "E slot", "E tmcc", "C slot", "C tmcc 8", "E  slot 47", "E slot  47",
        " E slot 47", "E slot 47 ", "E slot 4", "E tmcc 474", "E slot 4G", "E slot 0x47",
        "E slot 47 48", "E slots 47", "E SLOT 47", "E frame 47", "e slot 47", "D slot 47", "EE slot 47",
        "slot E 47", "C slot 4747", "C slot  4747", "C slot x 47", "C slot -1 47", "C slot +1 47",
        "C slot 1.0 47", "C slot 8h 47", "C slot 47 8", "C tmcc 8 474", "C tmcc 9 4", "C tmcc 8 GG",
        "C tmcc 8 47 47", "c tmcc 8 47", "C slot8 47", "E slot\t47", "REFUSED 8",
    };

    for (size_t i = 0; i < sizeof lines / sizeof lines[0]; i++) {
        fprintf(requests, "%s\n", lines[i]);
        fputs("?\n", answers);
    }
}

static void cases_of(const struct kind *kind)
{
    cases_of_coding(kind);
    cases_of_bounds(kind);
    cases_of_places(kind);
    cases_between(kind, 0);
    cases_between(kind, data_length(kind) - 1);
    cases_of_first_byte(kind);
    cases_of_padding(kind);
    cases_of_rubbish(kind);
    cases_of_limits(kind);
    case_of_small_letters(kind);
}

static FILE *opened(const char *name)
{
    FILE *file = fopen(name, "w");

    if (file == NULL) {
        perror(name);
        exit(1);
    }
    return file;
}

int main(int argc, char **argv)
{
    if (argc != 3) {
        fprintf(stderr, "usage: %s REQUESTS ANSWERS\n", argv[0]);
        return 2;
    }
    requests = opened(argv[1]);
    answers = opened(argv[2]);
    for (int i = 0; i < 2; i++) {
        kinds[i]->code = init_rs_char(8, 0x11D, 0, 1, CHECK_BYTES, BLOCK - kinds[i]->length);
        cases_of(kinds[i]);
        free_rs_char(kinds[i]->code);
    }
    cases_of_other_lines();
    return fclose(requests) != 0 || fclose(answers) != 0;
}
