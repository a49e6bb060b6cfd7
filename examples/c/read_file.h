/* Whole small files into memory, for the control programs. */
#ifndef READ_FILE_H
#define READ_FILE_H

#include <stddef.h>
#include <stdint.h>
#include <stdio.h>

/*
 * Read at most `room` bytes of the file into `bytes` and set `len` to how many came.
 * Answers 0, or -1 with a message on standard error where the file cannot be read.
 */
static int read_file(const char *name, uint8_t *bytes, size_t room, size_t *len)
{
    FILE *file = fopen(name, "rb");
    int failed;

    if (file == NULL) {
        perror(name);
        return -1;
    }
    *len = fread(bytes, 1, room, file);
    failed = ferror(file);
    if (failed)
        perror(name);
    fclose(file);
    return failed ? -1 : 0;
}

#endif
