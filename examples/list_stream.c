/* Lists a BTSnoop stream from standard input as it arrives, each line as soon as it can be told, with tabs between
 * fields:
 *
 *   file  version, datalink code
 *   rec   place, original length, included length, flags, drops, seconds, microseconds
 *   end   how many records
 *   stop  refusal number, place, the refusal in words
 *
 * Exits 0 at the end, 1 at a stop, and 2 for wrong arguments, input that cannot be read, or output that cannot be
 * written. The argument, if any, is how many octets are read at once, at most and where nothing is said 65,536. */
#include <errno.h>
#include <inttypes.h>
#include <stdio.h>
#include <stdlib.h>
#include <unistd.h>

#include "zalghimo.h"
#include "zalghimo_words.h"

/* What is kept of the stream: one chunk, the state, and how many records there were. */
static uint8_t chunk[65536];
static zalghimo_stream state;
static uint64_t records;

static void print_record(const zalghimo_taken *taken)
{
    printf("rec\t%" PRIu64 "\t%" PRIu64 "\t%" PRIu64 "\t%" PRIu64 "\t%" PRIu64, taken->start, taken->original,
           taken->included, taken->flags, taken->drops);
    zalghimo_time time = zalghimo_btsnoop_read_time(taken->time);
    if (time.kind == ZALGHIMO_VALUES)
        printf("\t%" PRId64 "\t%" PRIu64 "\n", time.seconds, time.microseconds);
    else
        printf("\t-\t-\n");
}

/* Prints what a call answered; the status to end with, or -1 where the stream goes on. */
static int print(const zalghimo_taken *taken)
{
    switch (taken->kind) {
    case ZALGHIMO_REFUSED:
        printf("stop\t%" PRIu64 "\t%" PRIu64 "\t%s\n", taken->number, taken->place,
               zalghimo_refusal_words(taken->number));
        return 1;
    case ZALGHIMO_END:
        printf("end\t%" PRIu64 "\n", records);
        return 0;
    case ZALGHIMO_FILE_HEADER:
        printf("file\t1\t%" PRIu64 "\n", taken->datalink);
        return -1;
    case ZALGHIMO_VALUES:
        records++;
        print_record(taken);
        return -1;
    default:
        return -1;
    }
}

/* Prints what the octets of a chunk tell, or the stream's end where there are none; as print. */
static int list(size_t length)
{
    size_t place = 0;
    int status;
    do {
        zalghimo_taken taken = length > 0 ? zalghimo_stream_take(state, chunk + place, length - place)
                                          : zalghimo_stream_end(state);
        /* Packet octets are chunk + place + taken.part, taken.size of them, from taken.position on in the packet. */
        place += taken.taken;
        state = taken.state;
        status = print(&taken);
    } while (status < 0 && place < length);
    return status;
}

/* How many octets are read at once; 0 for wrong arguments. */
static size_t parse(int count, char **words)
{
    char *rest;
    if (count == 1)
        return sizeof chunk;
    unsigned long number = strtoul(words[1], &rest, 10);
    return count == 2 && *rest == '\0' && number <= sizeof chunk ? number : 0;
}

int main(int count, char **words)
{
    size_t most = parse(count, words);
    int status = -1;
    if (most == 0) {
        fprintf(stderr, "usage: list_stream [OCTETS]\n");
        return 2;
    }
    setvbuf(stdout, NULL, _IOLBF, BUFSIZ);
    state = zalghimo_stream_fresh();
    while (status < 0) {
        ssize_t got = read(STDIN_FILENO, chunk, most);
        if (got >= 0) {
            status = list((size_t)got);
        } else if (errno != EINTR) {
            perror("standard input");
            return 2;
        }
    }
    if (fflush(stdout) != 0 || ferror(stdout)) {
        perror("standard output");
        return 2;
    }
    return status;
}
