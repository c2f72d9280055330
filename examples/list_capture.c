/* Lists a BTSnoop file, a line for the file, for each record and for how it ends, with tabs between fields:
 *
 *   file  version, datalink code
 *   rec   place, original length, included length, flags, drops, seconds, microseconds
 *   end   how many records
 *   stop  refusal number, place, the refusal in words
 *
 * Exits 0 at the end, 1 at a stop, and 2 for wrong arguments, a file that cannot be read, or output that cannot be
 * written. */
#include <inttypes.h>
#include <stdio.h>

#include "whole_file.h"
#include "zalghimo.h"
#include "zalghimo_words.h"

/* Where the first record starts. */
enum { FIRST_RECORD = 16 };

static int stop(uint64_t number, uint64_t place)
{
    printf("stop\t%" PRIu64 "\t%" PRIu64 "\t%s\n", number, place, zalghimo_refusal_words(number));
    return 1;
}

static void print_record(uint64_t place, const zalghimo_record *record)
{
    printf("rec\t%" PRIu64 "\t%" PRIu64 "\t%" PRIu64 "\t%" PRIu64 "\t%" PRIu64, place, record->original,
           record->included, record->flags, record->drops);
    zalghimo_time time = zalghimo_btsnoop_read_time(record->time);
    if (time.kind == ZALGHIMO_VALUES)
        printf("\t%" PRId64 "\t%" PRIu64 "\n", time.seconds, time.microseconds);
    else
        printf("\t-\t-\n");
}

static int list(const uint8_t *octets, size_t length)
{
    zalghimo_header header = zalghimo_btsnoop_header(octets, length);
    if (header.kind == ZALGHIMO_REFUSED)
        return stop(header.number, header.place);
    printf("file\t1\t%" PRIu64 "\n", header.datalink);

    uint64_t records = 0;
    size_t place = FIRST_RECORD;
    for (;;) {
        zalghimo_record record = zalghimo_btsnoop_record(octets, length, place);
        if (record.kind == ZALGHIMO_REFUSED)
            return stop(record.number, record.place);
        if (record.kind == ZALGHIMO_END)
            break;
        print_record(place, &record); /* the packet is octets + record.packet, of record.included octets */
        records++;
        place = record.next;
    }
    printf("end\t%" PRIu64 "\n", records);
    return 0;
}

int main(int count, char **words)
{
    size_t length;
    if (count != 2) {
        fprintf(stderr, "usage: list_capture FILE\n");
        return 2;
    }
    uint8_t *octets = whole_file(words[1], &length);
    if (!octets) {
        perror(words[1]);
        return 2;
    }
    return printed(list(octets, length));
}
