/*
 * The speed of writing a super-frame and of taking one apart: 48 slots, all of them TC8-PSK and active.
 *
 * Three sides do a job in every round, one right after the other, and the side that begins changes
 * from round to round: ours, the same job done with libfec and plain byte loops, and memcpy of the
 * super-frame's bytes. The rounds go through a set of distinct super-frames that is larger than the
 * inner caches. The plain loops get the sequence and the interleaver's places ready made. Clearing the
 * target for a side, and comparing its outcome with what it must be, are outside of the timed part.
 *
 * To write means: packets, ordered by frame, then slot, into the bytes of a super-frame, TMCC and frame
 * heads included. The plan has stream 0 in every slot, and its TS_IDs, control and expanded bits are 0;
 * the order of change is 0. To fill means the same out of a packet file's records. Ours reads and checks the
 * plan file anew for every super-frame, and for a fill the packet file too; libfec's side does neither.
 * To read means: the bytes of a super-frame into its corrected slot words.
 *
 * The table has medians over the rounds: microseconds for a super-frame on each side, and ratios of
 * times in one round. libfec/ours above 1 means that ours is faster.
 */
#include "bench.h"

#include <fec.h>
#include <stdio.h>
#include <string.h>

enum { FRAMES = 8, SLOTS = 48, WORDS = FRAMES * SLOTS };
enum { CHECK_BYTES = 16, PACKET = 188, WORD = PACKET + CHECK_BYTES, ROW = WORD - 1, SYNC = 0x47 };
enum { TMCC_DATA = 48, TMCC_WORD = TMCC_DATA + CHECK_BYTES, TMCC_PART = TMCC_WORD / FRAMES };
enum { HEAD = 2 + TMCC_PART + 2, FRAME = HEAD + ROW * SLOTS, LENGTH = FRAMES * FRAME };
enum { PACKETS = WORDS * PACKET, ALL_WORDS = WORDS * WORD };
enum { RECORD = 1 + PACKET, RECORDS = WORDS * RECORD, PLAN = 39 + SLOTS, BOUND = 8 };
enum { SET = 32, BATCH = 4, ROUNDS = 101 };
enum { OURS, LIBFEC, MEMCPY, SIDES };

/*
 * Ours: a plan file and packets into a super-frame; a plan file and a packet file into the modulator's first
 * super-frame; a super-frame into slot words, 204 bytes each; a slot word corrected. 0: done.
 */
uint8_t rondvysti_bench_write(const uint8_t *plan, size_t plan_len, const uint8_t *packets, size_t packets_len,
                              uint8_t *out, size_t out_len);
uint8_t rondvysti_bench_fill(const uint8_t *plan, size_t plan_len, const uint8_t *records, size_t records_len,
                             uint8_t *out, size_t out_len);
uint8_t rondvysti_bench_read(uint8_t slots, const uint8_t *bytes, size_t len, uint8_t *words, size_t words_len);
uint8_t rondvysti_bench_correct(uint8_t *word, size_t len, uint8_t bound);

/* Work on one super-frame; answers 0 if it was done. */
typedef int work(const uint8_t *from, uint8_t *to);

struct job {
    const char *name;
    work *sides[SIDES];
    const uint8_t *from, *to; /* what all sides are given, and what ours and libfec's have to make of it */
    size_t from_size, to_size; /* of one super-frame */
    int errors;                /* wrong bytes in each slot word */
};

/* The frame's sync words, and the TMCC data before their zeros: order 0, word 7 with 48 slots, three unused lines. */
static const uint8_t W1[2] = { 0x1B, 0x95 }, W2[2] = { 0xA3, 0x40 }, W3[2] = { 0x5C, 0xBF };
static const uint8_t TMCC_LINES[5] = { 0x03, 0xE1, 0xE0, 0x78, 0x1E };

static void *slot_code, *tmcc_code;
static uint8_t sequence[WORDS * WORD];
static size_t sent_at[FRAMES][ROW]; /* where a row's byte goes, counted from its slot's place in frame 1 */

static uint8_t plan[PLAN] = { 'S', 'L', 'P', 0, 1, SLOTS, 7, SLOTS, 15, 0, 15, 0, 15, 0 };
static uint8_t packets[SET][PACKETS];
static uint8_t records[SET][RECORDS];
static uint8_t sent[SET][LENGTH];
static uint8_t received[SET][LENGTH];
static uint8_t words[SET][ALL_WORDS];
static uint8_t target[BATCH][ALL_WORDS];

static int ours_write(const uint8_t *from, uint8_t *to)
{
    return rondvysti_bench_write(plan, PLAN, from, PACKETS, to, LENGTH);
}

static int ours_fill(const uint8_t *from, uint8_t *to)
{
    return rondvysti_bench_fill(plan, PLAN, from, RECORDS, to, LENGTH);
}

static int ours_read(const uint8_t *from, uint8_t *to)
{
    int failed = rondvysti_bench_read(SLOTS, from, LENGTH, to, ALL_WORDS);

    for (int w = 0; w < WORDS; w++)
        failed |= rondvysti_bench_correct(to + WORD * w, WORD, BOUND);
    return failed;
}

static int memcpy_write(const uint8_t *from, uint8_t *to)
{
    memcpy(to, sent[(from - packets[0]) / PACKETS], LENGTH);
    return 0;
}

static int memcpy_fill(const uint8_t *from, uint8_t *to)
{
    memcpy(to, sent[(from - records[0]) / RECORDS], LENGTH);
    return 0;
}

static int memcpy_read(const uint8_t *from, uint8_t *to)
{
    memcpy(to, from, LENGTH);
    return 0;
}

/* The heads of all frames, with the TMCC word coded and dispersed. */
static void libfec_heads(uint8_t *to)
{
    uint8_t word[TMCC_WORD] = { 0 };

    memcpy(word, TMCC_LINES, sizeof TMCC_LINES);
    encode_rs_char(tmcc_code, word, word + TMCC_DATA);
    for (int f = 0; f < FRAMES; f++) {
        uint8_t *head = to + f * FRAME;

        memcpy(head, W1, 2);
        for (int i = 0; i < TMCC_PART; i++)
            head[2 + i] = word[TMCC_PART * f + i] ^ sequence[HEAD * f + i];
        memcpy(head + 2 + TMCC_PART, f == 0 ? W2 : W3, 2);
    }
}

/* A super-frame from packets that stand so many bytes apart. */
static int libfec_frames(const uint8_t *from, size_t apart, uint8_t *to)
{
    const uint8_t *run = sequence;

    libfec_heads(to);
    for (int f = 0; f < FRAMES; f++)
        for (int s = 0; s < SLOTS; s++) {
            uint8_t word[WORD], *slot = to + HEAD + ROW * s;

            memcpy(word, from, PACKET);
            encode_rs_char(slot_code, word, word + PACKET);
            for (int b = 0; b < ROW; b++)
                slot[sent_at[f][b]] = word[1 + b] ^ run[b];
            from += apart;
            run += WORD;
        }
    return 0;
}

static int libfec_write(const uint8_t *from, uint8_t *to)
{
    return libfec_frames(from, PACKET, to);
}

static int libfec_fill(const uint8_t *from, uint8_t *to)
{
    return libfec_frames(from + 1, RECORD, to);
}

/* Whether the TMCC word of a super-frame can be corrected. */
static int libfec_tmcc(const uint8_t *from)
{
    uint8_t word[TMCC_WORD];

    for (int f = 0; f < FRAMES; f++)
        for (int i = 0; i < TMCC_PART; i++)
            word[TMCC_PART * f + i] = from[FRAME * f + 2 + i] ^ sequence[HEAD * f + i];
    return decode_rs_char(tmcc_code, word, NULL, 0) < 0;
}

static int libfec_read(const uint8_t *from, uint8_t *to)
{
    const uint8_t *run = sequence;
    int failed = libfec_tmcc(from);

    for (int f = 0; f < FRAMES; f++)
        for (int s = 0; s < SLOTS; s++) {
            const uint8_t *slot = from + HEAD + ROW * s;

            to[0] = SYNC;
            for (int b = 0; b < ROW; b++)
                to[1 + b] = slot[sent_at[f][b]] ^ run[b];
            failed |= decode_rs_char(slot_code, to, NULL, 0) < 0;
            to += WORD;
            run += WORD;
        }
    return failed;
}

/* The sequence, bit by bit: stage 1 is the highest of fifteen bits. */
static void make_sequence(void)
{
    unsigned stages = 0x4A80;

    for (int i = 0; i < WORDS * WORD; i++)
        for (int bit = 0; bit < 8; bit++) {
            unsigned next = (stages ^ stages >> 1) & 1;

            stages = stages >> 1 | next << 14;
            sequence[i] = (uint8_t)(sequence[i] << 1 | next);
        }
}

/* Column by column over the eight rows, then 203 to a frame. */
static void make_places(void)
{
    for (size_t k = 0; k < FRAMES * ROW; k++)
        sent_at[k % FRAMES][k / FRAMES] = k / ROW * FRAME + k % ROW;
}

/* Distinct packets, their words and super-frames. */
static void make_set(void)
{
    for (int n = 0; n < SET; n++) {
        for (int w = 0; w < WORDS; w++) {
            uint8_t *packet = packets[n] + PACKET * w, *word = words[n] + WORD * w;

            packet[0] = SYNC;
            for (int i = 1; i < PACKET; i++)
                packet[i] = (uint8_t)below(256);
            memcpy(records[n] + RECORD * w + 1, packet, PACKET);
            memcpy(word, packet, PACKET);
            encode_rs_char(slot_code, word, word + PACKET);
        }
        libfec_write(packets[n], sent[n]);
    }
}

/* Make exactly `errors` bytes wrong in each slot word of a super-frame. */
static void damage(uint8_t *bytes, int errors)
{
    for (int w = 0; w < WORDS; w++) {
        char taken[ROW] = { 0 };

        for (int left = errors; left > 0;) {
            int b = below(ROW);

            if (!taken[b]) {
                taken[b] = 1;
                bytes[HEAD + ROW * (w % SLOTS) + sent_at[w / SLOTS][b]] ^= (uint8_t)(1 + below(255));
                left--;
            }
        }
    }
}

/* One side at work on the batch that begins at super-frame `first`: microseconds for a super-frame. */
static double timed(const struct job *job, int side, int first)
{
    const uint8_t *from = job->from + job->from_size * (size_t)first;
    double begun, ended;
    int failed = 0;

    memset(target, 0, sizeof target);
    begun = seconds();
    for (int i = 0; i < BATCH; i++)
        failed |= job->sides[side](from + job->from_size * (size_t)i, target[i]);
    ended = seconds();
    for (int i = 0; side != MEMCPY && i < BATCH; i++)
        failed |= memcmp(target[i], job->to + job->to_size * (size_t)(first + i), job->to_size);
    if (failed) {
        fprintf(stderr, "%s, %s: a wrong outcome\n", job->name, side == OURS ? "ours" : "libfec");
        exit(1);
    }
    return (ended - begun) * 1e6 / BATCH;
}

/* All rounds of a job, and its row of the table. */
static void run(const struct job *job)
{
    static double time[SIDES][ROUNDS], gain[ROUNDS], cost[ROUNDS];

    memcpy(received, sent, sizeof sent);
    for (int n = 0; n < SET; n++)
        damage(received[n], job->errors);
    for (int side = 0; side < SIDES; side++)
        timed(job, side, 0);
    for (int r = 0; r < ROUNDS; r++) {
        for (int i = 0; i < SIDES; i++)
            time[(r + i) % SIDES][r] = timed(job, (r + i) % SIDES, r * BATCH % SET);
        gain[r] = time[LIBFEC][r] / time[OURS][r];
        cost[r] = time[OURS][r] / time[MEMCPY][r];
    }
    printf("%-22s %10.1f %10.1f %10.1f %12.2f %12.2f\n", job->name, median(time[OURS], ROUNDS), median(time[LIBFEC], ROUNDS),
           median(time[MEMCPY], ROUNDS), median(gain, ROUNDS), median(cost, ROUNDS));
}

int main(void)
{
    static const struct job jobs[] = {
        { "write", { ours_write, libfec_write, memcpy_write }, packets[0], sent[0], PACKETS, LENGTH, 0 },
        { "fill", { ours_fill, libfec_fill, memcpy_fill }, records[0], sent[0], RECORDS, LENGTH, 0 },
        { "read", { ours_read, libfec_read, memcpy_read }, received[0], words[0], LENGTH, ALL_WORDS, 0 },
        { "read 1 error a word", { ours_read, libfec_read, memcpy_read }, received[0], words[0], LENGTH, ALL_WORDS, 1 },
    };

    slot_code = init_rs_char(8, 0x11D, 0, 1, CHECK_BYTES, 255 - WORD);
    tmcc_code = init_rs_char(8, 0x11D, 0, 1, CHECK_BYTES, 255 - TMCC_WORD);
    make_sequence();
    make_places();
    make_set();
    printf("%-22s %10s %10s %10s %12s %12s\n", "job", "ours us", "libfec us", "memcpy us", "libfec/ours",
           "ours/memcpy");
    for (size_t i = 0; i < sizeof jobs / sizeof jobs[0]; i++)
        run(&jobs[i]);
    free_rs_char(slot_code);
    free_rs_char(tmcc_code);
    return 0;
}
