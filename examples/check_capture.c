/* Asks the library about a BTSnoop file: whether it is accepted, and where not, why and at which place.
 *
 * Exits 0 where the file is accepted, 1 where it is refused, and 2 where there is no verdict: wrong arguments, a file
 * that cannot be read, or output that cannot be written. */
#include <inttypes.h>
#include <stdio.h>

#include "whole_file.h"
#include "zalghimo.h"
#include "zalghimo_words.h"

int main(int count, char **words)
{
    size_t length;
    if (count != 2) {
        fprintf(stderr, "usage: check-capture FILE\n");
        return 2;
    }
    uint8_t *octets = whole_file(words[1], &length);
    if (!octets) {
        perror(words[1]);
        return 2;
    }
    zalghimo_file file = zalghimo_btsnoop_check(octets, length);
    if (file.kind == ZALGHIMO_REFUSED) {
        printf("refused: number %" PRIu64 ", place %" PRIu64 ": %s\n", file.number, file.place,
               zalghimo_refusal_words(file.number));
        return printed(1);
    }
    printf("accepted: datalink %" PRIu64 ", %" PRIu64 " records\n", file.datalink, file.records);
    return printed(0);
}
