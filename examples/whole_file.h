/* For the examples: reading a whole file into memory, and ending with a status. */
#ifndef WHOLE_FILE_H
#define WHOLE_FILE_H

#include <stdint.h>
#include <stdio.h>
#include <stdlib.h>

/* The whole of a file, in memory that is never given back; NULL where it cannot be read. */
static uint8_t *whole_file(const char *path, size_t *length)
{
    FILE *file = fopen(path, "rb");
    size_t room = 1 << 16;
    uint8_t *octets = malloc(room);
    *length = 0;
    while (file && octets) {
        size_t got = fread(octets + *length, 1, room - *length, file);
        *length += got;
        if (got == 0)
            break;
        if (*length == room)
            octets = realloc(octets, room *= 2);
    }
    if (!file || !octets || ferror(file))
        return NULL;
    fclose(file);
    return octets;
}

/* The status to end with: the one given, or 2 where something printed could not be written. */
static int printed(int status)
{
    if (fflush(stdout) == 0 && !ferror(stdout))
        return status;
    perror("standard output");
    return 2;
}

#endif
