/*
 * Checks slot plan files before they are loaded into a modulator.
 *
 *     control PLAN...
 *
 * prints for each file whether its plan is accepted, or the number and meaning of the refusal.
 * Ends with status 0 if all were accepted, 1 if one was refused, 2 if a file cannot be read.
 */
#include "read_file.h"
#include "rondvysti.h"

/* The longest plan file has 39 + 48 bytes; one byte more shows that a file is too long. */
enum { ROOM = 39 + 48 + 1 };

static const char *meaning(uint8_t refusal)
{
    switch (refusal) {
    case RONDVYSTI_PLAN_MARK: return "no plan file";
    case RONDVYSTI_PLAN_VERSION: return "unknown version";
    case RONDVYSTI_PLAN_LENGTH: return "wrong number of slots or length";
    case RONDVYSTI_PLAN_WORDS: return "mode words break their rule";
    case RONDVYSTI_PLAN_COUNTS: return "slot counts break their rule";
    case RONDVYSTI_PLAN_STREAMS: return "stream numbers break their rule";
    case RONDVYSTI_PLAN_BITS: return "control or expanded bits too large";
    default: return "unknown refusal";
    }
}

/* Check one plan file, say the outcome and answer this program's status for it. */
static int check_plan(const char *name)
{
    uint8_t file[ROOM];
    size_t len;
    uint8_t refusal;

    if (read_file(name, file, sizeof file, &len) != 0)
        return 2;
    refusal = rondvysti_plan_check(file, len);
    if (refusal == RONDVYSTI_OK) {
        printf("plan %s: accepted\n", name);
        return 0;
    }
    printf("plan %s: refused %u (%s)\n", name, (unsigned)refusal, meaning(refusal));
    return 1;
}

int main(int argc, char **argv)
{
    int status = 0;

    if (argc < 2) {
        fprintf(stderr, "usage: %s PLAN...\n", argv[0]);
        return 2;
    }
    for (int i = 1; i < argc; i++) {
        int one = check_plan(argv[i]);

        status = one > status ? one : status;
    }
    return status;
}
