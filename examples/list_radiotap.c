/* Lists the fields of a radiotap header in an edition, with tabs between fields of a line:
 *
 *   header   pad octet, how many presence words, place of the frame
 *   field    word, bit, published name, start, size
 *   end      how many fields
 *   stop     word and bit that the edition does not know, its published name; "continued" where the word has none, since
 *            it goes on behind the bits of a word without bit 29
 *   refused  refusal number, place, the refusal in words
 *
 * Exits 0 at the end or a stop, 1 at a refusal, and 2 for wrong arguments, a file that cannot be read, or output that
 * cannot be written. */
#include <inttypes.h>
#include <stdio.h>

#include "whole_file.h"
#include "zalghimo.h"
#include "zalghimo_words.h"

/* What a stop's bit is called: the bits of a continued word have no published names, but for bit 30. */
static const char *stop_name(const uint8_t *octets, size_t length, zalghimo_radiotap header)
{
    if (header.word > 0 && header.bit != 30) {
        zalghimo_word before = zalghimo_radiotap_word(octets, length, header.word - 1);
        if (!(before.value >> 29 & 1))
            return "continued";
    }
    return zalghimo_radiotap_name(header.bit);
}

/* Word, bit, start and size of each field. */
static uint64_t fields[4 * ZALGHIMO_RADIOTAP_MOST_FIELDS];

static int list(const uint8_t *octets, size_t length, uint32_t edition)
{
    zalghimo_radiotap header =
        zalghimo_radiotap_fields(octets, length, edition, fields, sizeof fields / sizeof fields[0]);
    if (header.kind == ZALGHIMO_REFUSED) {
        printf("refused\t%" PRIu64 "\t%" PRIu64 "\t%s\n", header.number, header.place,
               zalghimo_refusal_words(header.number));
        return 1;
    }
    printf("header\t%" PRIu64 "\t%" PRIu64 "\t%" PRIu64 "\n", header.pad, header.words, header.frame);
    for (uint64_t i = 0; i < header.fields; i++) {
        const uint64_t *field = fields + 4 * i; /* the field is octets + field[2], of field[3] octets */
        printf("field\t%" PRIu64 "\t%" PRIu64 "\t%s\t%" PRIu64 "\t%" PRIu64 "\n", field[0], field[1],
               zalghimo_radiotap_name(field[1]), field[2], field[3]);
    }
    if (header.kind == ZALGHIMO_STOPPED)
        printf("stop\t%" PRIu64 "\t%" PRIu64 "\t%s\n", header.word, header.bit, stop_name(octets, length, header));
    else
        printf("end\t%" PRIu64 "\n", header.fields);
    return 0;
}

/* An edition is a decimal number; 0 asks for the default. */
static int parse_edition(const char *text, uint32_t *edition)
{
    char *rest;
    unsigned long number = strtoul(text, &rest, 10);
    *edition = (uint32_t)number;
    return text[0] >= '0' && text[0] <= '9' && *rest == '\0' && number <= UINT32_MAX;
}

int main(int count, char **words)
{
    size_t length;
    uint32_t edition;
    if (count != 3 || !parse_edition(words[1], &edition)) {
        fprintf(stderr, "usage: list_radiotap EDITION FILE\n");
        return 2;
    }
    uint8_t *octets = whole_file(words[2], &length);
    if (!octets) {
        perror(words[2]);
        return 2;
    }
    return printed(list(octets, length, edition));
}
