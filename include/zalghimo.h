/* The C boundary of the capture reader: libzalghimo.a, made by `bin/static-library`, for x86-64 Linux.
 *
 * Each function answers for every input and asks nothing of its caller beyond this: a pointer and its length are those
 * of a live buffer, and a buffer that is written shares nothing with another that is lent to the same call. No pointer
 * may be NULL, not even one whose length is 0: for an empty buffer pass the address of anything.
 * The library allocates nothing, keeps no pointer and has no state.
 *
 * The answer is a struct returned by value. Look at its `kind` first. Fields that a kind has no value for are 0.
 * A place is an offset in octets from the start of the buffer lent, or of the stream. An input is only read. A refusal
 * changes nothing that was lent, an accepted write only the octets written. */
#ifndef ZALGHIMO_H
#define ZALGHIMO_H

#include <stddef.h>
#include <stdint.h>

#ifdef __cplusplus
extern "C" {
#endif

/* What every answer's kind says. A function's comment names the kinds that it gives: VALUES where it names none, and
 * REFUSED where it names refusals. */
enum {
    ZALGHIMO_REFUSED = 0, /* number and place are the refusal's, and 0 for every other kind */
    ZALGHIMO_VALUES = 1,
    ZALGHIMO_END = 2,
    ZALGHIMO_MORE = 3,
    ZALGHIMO_STOPPED = 4, /* a radiotap header read up to a bit that the edition does not know, named by word and bit */
    ZALGHIMO_FILE_HEADER = 5 /* a stream's file header is whole */
};

/* The refusals: condition; place. A writer's refusal has place 0, whatever stands here.
 * Each function names its refusals in the order in which they are judged. */
enum {
    ZALGHIMO_SHORT_HEADER = 1,            /* input shorter than the fixed header (BTSnoop 16, LE 10, radiotap 8);
                                           * the input's length */
    ZALGHIMO_IDENTIFICATION = 2,          /* the identification octets differ; 0 */
    ZALGHIMO_VERSION = 3,                 /* BTSnoop version not 1, or radiotap version not 0; 8, or 0 */
    ZALGHIMO_DATALINK = 4,                /* datalink code not 1001 to 1004; 12 */
    ZALGHIMO_SHORT_RECORD = 5,            /* 1 to 23 octets remain where a record starts; the record's start */
    ZALGHIMO_INCLUDED_ABOVE_ORIGINAL = 6, /* included length above original length; the record's start + 4 */
    ZALGHIMO_SHORT_PACKET = 7,            /* packet octets run past the input, or LE packet under 4 octets (5 for the
                                           * coded PHY); the record's start, or 10 */
    ZALGHIMO_RF_CHANNEL = 8,              /* LE: RF channel above 39; 0 */
    ZALGHIMO_RADIOTAP_LENGTH = 9,         /* radiotap length below 8 or above the input; 2 */
    ZALGHIMO_WORD_PAST_LENGTH = 10,       /* a presence word runs past the radiotap length; 4 */
    ZALGHIMO_NINTH_WORD = 11,             /* a ninth presence word is called for; 4 */
    ZALGHIMO_FIELD_PAST_LENGTH = 12,      /* a known field runs past the radiotap length; its start, after alignment */
    ZALGHIMO_NO_ROOM = 13,                /* the output has no room from the given place; 0 */
    ZALGHIMO_TIME = 14,                   /* a time cannot be expressed; 0 */
    ZALGHIMO_EDITION = 15,                /* edition above 3; 0 */
    ZALGHIMO_TALLY_SUM = 16,              /* a tally sum would pass 2^64 - 1; 0 */
    ZALGHIMO_RECORD_PLACE = 17,           /* a record place below 16 or above the input's length; the place given */
    ZALGHIMO_UNKNOWN_BIT = 18,            /* writer: a presence bit unknown to the edition, 29 to 31 included; 0 */
    ZALGHIMO_VALUES_LENGTH = 19,          /* writer: packed values not of the summed length; 0 */
    ZALGHIMO_LISTING_INPUT = 20,          /* listing program only: input above 65,536 octets; 65536 */
    ZALGHIMO_RESERVED_PDU_TYPE = 21,      /* LE: PDU type 7; 8, where the flags start */
    ZALGHIMO_RESERVED_PHY = 22,           /* LE: PHY 3; 8, where the flags start */
    ZALGHIMO_TALLY_BROKEN = 23,           /* sent and received, or commands and data, of a tally handed in do not add up
                                           * to its records; 0 */
    ZALGHIMO_LONG_STREAM = 32             /* a chunk takes the stream past 2^63 - 1 octets; 0 */
};

/* ---- The answers ---- */

typedef struct { uint64_t kind, number, place, datalink; } zalghimo_header;
typedef struct { uint64_t kind, number, place, datalink, records; } zalghimo_file;
typedef struct {
    uint64_t kind, number, place, original, included, flags, drops;
    int64_t time;
    uint64_t packet, next; /* places */
} zalghimo_record;
typedef struct { uint64_t kind, number, place, count, reached; } zalghimo_survey;
typedef struct { uint64_t kind, number, place, capture, packet, length; } zalghimo_earlier;
typedef struct {
    uint64_t phase;         /* what comes next: 0 file header, 1 record header, 2 packet; 3 refused; any other: ended */
    uint64_t number, place; /* of the refusal, otherwise 0 */
    uint64_t octets;        /* octets of the stream that were taken */
    uint64_t count;         /* octets held */
    uint64_t done;          /* octets of the packet handed out */
    uint8_t held[24];
} zalghimo_stream;
typedef struct {
    uint64_t kind, number, place;
    uint64_t taken;                /* octets of the chunk */
    uint64_t part, size, position; /* packet octets: their place in the chunk, how many, their place in the packet */
    uint64_t datalink;
    uint64_t start;                /* the record's place */
    uint64_t original, included, flags, drops;
    int64_t time;
    zalghimo_stream state;         /* for the next call */
} zalghimo_taken;
typedef struct { uint64_t kind, number, place; int64_t seconds; uint64_t microseconds; } zalghimo_time;
typedef struct { uint64_t kind, number, place; int64_t field; } zalghimo_time_field;
typedef struct { uint64_t kind, number, place; } zalghimo_done;
typedef struct { uint64_t kind, number, place, next; } zalghimo_written;
typedef struct {
    uint64_t kind, number, place, rf_channel;
    int64_t signal, noise; /* dBm */
    uint64_t offences, reference, flags;
    uint64_t known;         /* ZALGHIMO_KNOWN_... of those that the flags tell as known */
    uint64_t pdu_type, phy; /* ZALGHIMO_PDU_..., ZALGHIMO_PHY_... */
    uint64_t dependent;     /* for auxiliary advertising ZALGHIMO_AUX_..., otherwise ZALGHIMO_MIC_... */
    uint64_t packet;        /* its place */
} zalghimo_le;
typedef struct {
    uint64_t kind, number, place;
    uint64_t fields;     /* how many are shown */
    uint64_t frame;      /* its place */
    uint64_t word, bit;  /* of the stop */
    uint64_t pad, words; /* the pad octet as found, how many presence words */
} zalghimo_radiotap;
typedef struct { uint64_t kind, number, place, value; } zalghimo_word;
typedef struct { uint64_t kind, number, place, word, bit, start, size; } zalghimo_field;

/* ---- BTSnoop, reading ----
 * A file is a header of 16 octets, then records end to end: 24 octets, then the packet. */

/* Reads the file header: its datalink code. The records are not looked at.
 * Refusals: SHORT_HEADER, IDENTIFICATION, VERSION, DATALINK. */
zalghimo_header zalghimo_btsnoop_header(const uint8_t *input, size_t length);

/* Checks a whole file: its datalink code and how many records it has; a header alone has 0.
 * Refusals: those of the header, then of the first record refused: SHORT_RECORD, INCLUDED_ABOVE_ORIGINAL,
 * SHORT_PACKET. */
zalghimo_file zalghimo_btsnoop_check(const uint8_t *input, size_t length);

/* Reads the record at a place; the first is at 16. The file header is not judged.
 * VALUES: original and included length, all 32 flag bits (bit 0 received, bit 1 command or event), cumulative drops,
 * the time field, the place of the packet, whose length is `included`, and the place of the next record.
 * END: the place is the input's length.
 * Refusals: RECORD_PLACE, SHORT_RECORD, INCLUDED_ABOVE_ORIGINAL, SHORT_PACKET. */
zalghimo_record zalghimo_btsnoop_record(const uint8_t *input, size_t length, size_t place);

/* Passes the records from a place on, at most a number of them. The file header is not judged.
 * END: the input's end is reached, also for a number of 0. MORE: the number is used up; go on from `reached`.
 * Both say how many records were passed and the place reached.
 * Refusals: RECORD_PLACE, SHORT_RECORD, INCLUDED_ABOVE_ORIGINAL, SHORT_PACKET; `count` is then that of the whole
 * records before the one refused, and `reached` is 0. */
zalghimo_survey zalghimo_btsnoop_survey(const uint8_t *input, size_t length, size_t place, size_t number);

/* Finds which of two captures has the earlier record, each at its place; on equal times the first. A capture at its end
 * leaves the other's. The file headers are not judged.
 * VALUES: the capture (1 or 2), and the place in it and the length of that record's packet. END: both are at their end.
 * Refusals: as for a record, the first capture's before the second's; `capture` says which. */
zalghimo_earlier zalghimo_btsnoop_earlier(const uint8_t *first, size_t first_length, size_t first_place,
                                          const uint8_t *second, size_t second_length, size_t second_place);

/* Converts a record's time field to Unix time: seconds, rounded down, and microseconds in 0 to 999,999.
 * Refusals: TIME, for a field below -2^63 + 0x00DCDDB30F2F8000. */
zalghimo_time zalghimo_btsnoop_read_time(int64_t field);

/* The drops between two records: later less earlier, modulo 2^32. */
uint32_t zalghimo_btsnoop_drops(uint32_t earlier, uint32_t later);

/* Adds a record to a tally of nine numbers: records, received, commands, octets included, lost, and the last drop
 * number, which is taken modulo 2^32 and is of no account while records is 0; then truncated (included below original),
 * sent (received bit clear) and data (command bit clear). Start from nine zeros: then sent plus received, and commands
 * plus data, are always records, and TALLY_BROKEN is never given.
 * A tally of six numbers is of an older release: this function reads and writes nine.
 * Refusals: TALLY_BROKEN, TALLY_SUM; the tally stays as it was. */
zalghimo_done zalghimo_btsnoop_tally(uint64_t tally[9], uint32_t original, uint32_t included, uint32_t flags,
                                     uint32_t drops);

/* ---- BTSnoop, as it arrives ----
 * A stream is a file that comes in chunks of whatever length, sometimes of none. Start from zalghimo_stream_fresh.
 * Each call is given the `state` that the last one left, and the octets that the last one did not take come first in
 * its chunk. However the stream is cut, the calls tell what zalghimo_btsnoop_header and then zalghimo_btsnoop_record
 * tell of the whole file; places count from the stream's start. The state is all that is kept between calls. Of it
 * only `octets` is for reading, and a state that no call left gets some answer. */

/* The state before the first octet. */
zalghimo_stream zalghimo_stream_fresh(void);

/* Takes octets of a chunk, at least one where it has any, at most up to the end of the file header or of a record.
 * FILE_HEADER: the file header's last octet was taken; its datalink code.
 * VALUES: a record's last octet was taken; the record's place, and its numbers as zalghimo_btsnoop_record has them.
 * MORE: nothing is finished yet, and the whole chunk was taken.
 * END: the end was told before.
 * With VALUES and MORE come the packet octets that were taken, where there are any: `size` octets from `part` on in the
 * chunk. The parts of a packet come in order and without gaps, and its last one with VALUES.
 * Refusals: LONG_STREAM, by the whole chunk, even where less of it would be taken; with the file header's last octet
 * IDENTIFICATION, VERSION, DATALINK; with the last octet of a record's 24 INCLUDED_ABOVE_ORIGINAL.
 * After a refusal or the end every further call gets the same answer, whatever its chunk. Both take nothing. */
zalghimo_taken zalghimo_stream_take(zalghimo_stream state, const uint8_t *chunk, size_t length);

/* Says that the stream has ended. END: its last octet is the file header's or a record's.
 * Refusals: SHORT_HEADER, SHORT_RECORD, SHORT_PACKET. The parts of a packet that SHORT_PACKET ends are the packet's
 * start, and no record. After a refusal or the end the answer is the one given then. */
zalghimo_taken zalghimo_stream_end(zalghimo_stream state);

/* ---- BTSnoop, writing ----
 * A writer writes into the output at a place and answers the place after what it wrote, `next`. */

/* Converts Unix time to a record's time field.
 * Refusals: TIME, for microseconds above 999,999 or a field outside the signed 64-bit range. */
zalghimo_time_field zalghimo_btsnoop_write_time(int64_t seconds, uint32_t microseconds);

/* Writes a file header, 16 octets. Refusals: DATALINK, NO_ROOM. */
zalghimo_written zalghimo_btsnoop_write_header(uint8_t *output, size_t length, size_t place, uint32_t datalink);

/* Writes a record, 24 octets and the packet, whose length is the included length.
 * Refusals: INCLUDED_ABOVE_ORIGINAL, NO_ROOM. */
zalghimo_written zalghimo_btsnoop_write_record(uint8_t *output, size_t length, size_t place, uint32_t original,
                                               uint32_t flags, uint32_t drops, int64_t time,
                                               const uint8_t *packet, size_t packet_length);

/* ---- The LE pseudo-header ----
 * Ten octets, then the packet. The flags alone say the PDU type, the PHY and what is known. To write them, put the
 * numbers in their places, as in ZALGHIMO_LE_SIGNAL_KNOWN | ZALGHIMO_PHY_2M << ZALGHIMO_LE_PHY_SHIFT. */

/* The flags. A value whose flag of being known is clear stands in the header all the same, and means nothing. */
enum {
    ZALGHIMO_LE_DEWHITENED = 0x0001,
    ZALGHIMO_LE_SIGNAL_KNOWN = 0x0002,
    ZALGHIMO_LE_NOISE_KNOWN = 0x0004,
    ZALGHIMO_LE_DECRYPTED = 0x0008,
    ZALGHIMO_LE_REFERENCE_KNOWN = 0x0010,
    ZALGHIMO_LE_OFFENCES_KNOWN = 0x0020,
    ZALGHIMO_LE_CHANNEL_ALIASED = 0x0040, /* the RF channel is subject to aliasing */
    ZALGHIMO_LE_PDU_TYPE = 0x0380,        /* bits 7 to 9 */
    ZALGHIMO_LE_CRC_CHECKED = 0x0400,
    ZALGHIMO_LE_CRC_PASSED = 0x0800,
    ZALGHIMO_LE_DEPENDENT = 0x3000,       /* bits 12 and 13 */
    ZALGHIMO_LE_PHY = 0xC000              /* bits 14 and 15 */
};

/* By how many bits those parts of the flags that are numbers are shifted. */
enum { ZALGHIMO_LE_PDU_TYPE_SHIFT = 7, ZALGHIMO_LE_DEPENDENT_SHIFT = 12, ZALGHIMO_LE_PHY_SHIFT = 14 };

/* The bits of `known`. */
enum {
    ZALGHIMO_KNOWN_SIGNAL = 1,
    ZALGHIMO_KNOWN_NOISE = 2,
    ZALGHIMO_KNOWN_REFERENCE = 4,
    ZALGHIMO_KNOWN_OFFENCES = 8
};

/* PDU types, `pdu_type`. 7 is refused with RESERVED_PDU_TYPE. */
enum {
    ZALGHIMO_PDU_ADVERTISING_OR_DATA = 0, /* direction not specified */
    ZALGHIMO_PDU_AUXILIARY_ADVERTISING = 1,
    ZALGHIMO_PDU_DATA_MASTER_TO_SLAVE = 2,
    ZALGHIMO_PDU_DATA_SLAVE_TO_MASTER = 3,
    ZALGHIMO_PDU_CONNECTED_ISOCHRONOUS_MASTER_TO_SLAVE = 4,
    ZALGHIMO_PDU_CONNECTED_ISOCHRONOUS_SLAVE_TO_MASTER = 5,
    ZALGHIMO_PDU_BROADCAST_ISOCHRONOUS = 6
};

/* PHYs, `phy`. 3 is refused with RESERVED_PHY. */
enum { ZALGHIMO_PHY_1M = 0, ZALGHIMO_PHY_2M = 1, ZALGHIMO_PHY_CODED = 2 };

/* `dependent` for auxiliary advertising: a number. */
enum {
    ZALGHIMO_AUX_ADV_IND = 0,
    ZALGHIMO_AUX_CHAIN_IND = 1,
    ZALGHIMO_AUX_SYNC_IND = 2,
    ZALGHIMO_AUX_SCAN_RSP = 3
};

/* `dependent` for every other PDU type: two bits, which are 0x1000 (checked) and 0x2000 (passed) in the flags. */
enum { ZALGHIMO_MIC_CHECKED = 1, ZALGHIMO_MIC_PASSED = 2 };

/* Reads an LE pseudo-header: its values as they stand, which of them are known, PDU type, PHY, what depends on the PDU
 * type, and the place of the packet, which is the rest of the input.
 * Refusals: SHORT_HEADER, RF_CHANNEL, RESERVED_PDU_TYPE, RESERVED_PHY, SHORT_PACKET. */
zalghimo_le zalghimo_le_read(const uint8_t *input, size_t length);

/* Writes an LE pseudo-header and its packet.
 * Refusals: RF_CHANNEL, RESERVED_PDU_TYPE, RESERVED_PHY, SHORT_PACKET, NO_ROOM. */
zalghimo_written zalghimo_le_write(uint8_t *output, size_t length, size_t place, uint8_t rf_channel, int8_t signal,
                                   int8_t noise, uint8_t offences, uint32_t reference, uint16_t flags,
                                   const uint8_t *packet, size_t packet_length);

/* ---- Radiotap ----
 * An edition says which bits of a presence word have a known field: edition 1 knows bits 0 to 13, edition 2 also 14 to
 * 17, edition 3 also 19 to 21; edition 0 asks for the default, 1. Words and fields are numbered from 0.
 * A word numbers its bits from 0 where it is the first, or where the word before it has bit 29 set. Another word is
 * continued: its bits go on past the table, and no edition knows a field of it. Bits 29 and 31 of a word carry no field;
 * another set bit that the edition does not know stops the reading. Before request W-205 every word numbered its bits
 * from 0.
 * Bits 5, 6 and 10 are signed dBm. zalghimo_words.h has the published name of each bit.
 * A header is judged whole first: one refused at a field shows none. Octets left before its length are allowed.
 *
 * A field starts at the next multiple of its alignment, counted from the header's start. In octets:
 *
 *   bits                         alignment  size  first edition
 *   0                                    8     8  1
 *   1, 2, 5, 6, 10, 11, 12, 13           1     1  1
 *   3                                    2     4  1
 *   4, 7, 8, 9                           2     2  1
 *   14, 15                               2     2  2
 *   16, 17                               1     1  2
 *   19                                   1     3  3
 *   20                                   4     8  3
 *   21                                   2    12  3 */

/* The most fields that a header can have: 29 bits in each of 8 words. */
enum { ZALGHIMO_RADIOTAP_MOST_FIELDS = 232 };

/* Reads a header: how many fields are shown, the place of the frame, which is the rest of the input, the pad octet and
 * how many presence words there are. VALUES: read to the end. STOPPED: read up to the bit named by word and bit.
 * Refusals: EDITION, SHORT_HEADER, VERSION, RADIOTAP_LENGTH, for each word NINTH_WORD and WORD_PAST_LENGTH, then for
 * the fields in their order FIELD_PAST_LENGTH. */
zalghimo_radiotap zalghimo_radiotap_read(const uint8_t *input, size_t length, uint32_t edition);

/* Reads a presence word by its number. END: there are no more.
 * Refusals: SHORT_HEADER, VERSION, RADIOTAP_LENGTH, for each word NINTH_WORD and WORD_PAST_LENGTH. */
zalghimo_word zalghimo_radiotap_word(const uint8_t *input, size_t length, size_t number);

/* Reads a field by its number: word, bit, the place where it starts, and its size.
 * END: there are no more. STOPPED: none is shown from there on; word and bit name the stop.
 * Refusals: as zalghimo_radiotap_read. */
zalghimo_field zalghimo_radiotap_field(const uint8_t *input, size_t length, uint32_t edition, size_t number);

/* As zalghimo_radiotap_read, and puts word, bit, start and size of each field into `fields`: four numbers a field, as
 * many whole fields as fit into its `fields_length` numbers. The rest of `fields` stays as it was, on a refusal all. */
zalghimo_radiotap zalghimo_radiotap_fields(const uint8_t *input, size_t length, uint32_t edition, uint64_t *fields,
                                           size_t fields_length);

/* Writes a header with one presence word; the values are given packed without gaps in bit order. Pad octets are 0.
 * The room needed is 8 octets, the fields, and the pad octets that put each field at its alignment: 68 octets for every
 * bit of edition 3, never more.
 * Refusals: EDITION, UNKNOWN_BIT, VALUES_LENGTH, NO_ROOM. */
zalghimo_written zalghimo_radiotap_write(uint8_t *output, size_t length, size_t place, uint32_t edition,
                                         uint32_t presence, const uint8_t *values, size_t values_length);

#ifdef __cplusplus
}
#endif

#endif
