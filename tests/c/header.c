/* Holds include/zalghimo.h and include/zalghimo_words.h to the library: calls every function through the header and
 * prints every field, every constant and every word by name. header.expected has what document 01 says, and
 * bin/examples-check compares. Inputs are such that a field exchanged with another one shows. */
#include <inttypes.h>
#include <stdio.h>
#include <string.h>

#include "zalghimo.h"
#include "zalghimo_words.h"

/* ---- The functions, declared once more: another type in the header does not compile ---- */

zalghimo_header zalghimo_btsnoop_header(const uint8_t *, size_t);
zalghimo_file zalghimo_btsnoop_check(const uint8_t *, size_t);
zalghimo_record zalghimo_btsnoop_record(const uint8_t *, size_t, size_t);
zalghimo_survey zalghimo_btsnoop_survey(const uint8_t *, size_t, size_t, size_t);
zalghimo_earlier zalghimo_btsnoop_earlier(const uint8_t *, size_t, size_t, const uint8_t *, size_t, size_t);
zalghimo_time zalghimo_btsnoop_read_time(int64_t);
zalghimo_time_field zalghimo_btsnoop_write_time(int64_t, uint32_t);
uint32_t zalghimo_btsnoop_drops(uint32_t, uint32_t);
zalghimo_done zalghimo_btsnoop_tally(uint64_t[9], uint32_t, uint32_t, uint32_t, uint32_t);
zalghimo_stream zalghimo_stream_fresh(void);
zalghimo_taken zalghimo_stream_take(zalghimo_stream, const uint8_t *, size_t);
zalghimo_taken zalghimo_stream_end(zalghimo_stream);
zalghimo_written zalghimo_btsnoop_write_header(uint8_t *, size_t, size_t, uint32_t);
zalghimo_written zalghimo_btsnoop_write_record(uint8_t *, size_t, size_t, uint32_t, uint32_t, uint32_t, int64_t,
                                               const uint8_t *, size_t);
zalghimo_le zalghimo_le_read(const uint8_t *, size_t);
zalghimo_written zalghimo_le_write(uint8_t *, size_t, size_t, uint8_t, int8_t, int8_t, uint8_t, uint32_t, uint16_t,
                                   const uint8_t *, size_t);
zalghimo_radiotap zalghimo_radiotap_read(const uint8_t *, size_t, uint32_t);
zalghimo_word zalghimo_radiotap_word(const uint8_t *, size_t, size_t);
zalghimo_field zalghimo_radiotap_field(const uint8_t *, size_t, uint32_t, size_t);
zalghimo_radiotap zalghimo_radiotap_fields(const uint8_t *, size_t, uint32_t, uint64_t *, size_t);
zalghimo_written zalghimo_radiotap_write(uint8_t *, size_t, size_t, uint32_t, uint32_t, const uint8_t *, size_t);

/* ---- Printing: a line for each answer, with its fields by name. A field of another type does not compile ---- */

static void plain(const char *name, const uint64_t *value)
{
    printf(" %s %" PRIu64, name, *value);
}

static void with_sign(const char *name, const int64_t *value)
{
    printf(" %s %+" PRId64, name, *value);
}

#define PLAIN(field) plain(#field, &answer.field)
#define SIGNED(field) with_sign(#field, &answer.field)
#define BEGIN() (printf("%s:", what), PLAIN(kind), PLAIN(number), PLAIN(place))
#define END() putchar('\n')

static void header(const char *what, zalghimo_header answer)
{
    BEGIN(), PLAIN(datalink), END();
}

static void file(const char *what, zalghimo_file answer)
{
    BEGIN(), PLAIN(datalink), PLAIN(records), END();
}

static void record(const char *what, zalghimo_record answer)
{
    BEGIN(), PLAIN(original), PLAIN(included), PLAIN(flags), PLAIN(drops);
    SIGNED(time), PLAIN(packet), PLAIN(next), END();
}

static void survey(const char *what, zalghimo_survey answer)
{
    BEGIN(), PLAIN(count), PLAIN(reached), END();
}

static void earlier(const char *what, zalghimo_earlier answer)
{
    BEGIN(), PLAIN(capture), PLAIN(packet), PLAIN(length), END();
}

/* What a state says by its phase. Of the octets held there are `count`, in a packet all 24. */
static void stream(const char *what, zalghimo_stream answer)
{
    printf("%s:", what), PLAIN(octets);
    if (answer.phase < 4)
        PLAIN(phase), PLAIN(number), PLAIN(place);
    if (answer.phase < 2)
        PLAIN(count);
    if (answer.phase == 2)
        PLAIN(done);
    uint64_t held = answer.phase < 2 ? answer.count : answer.phase == 2 ? sizeof answer.held : 0;
    for (uint64_t i = 0; i < held; i++)
        printf(" %02x", answer.held[i]);
    END();
}

/* Prints an answer and the state that it leaves, and hands that on. */
static zalghimo_stream taken(const char *what, zalghimo_taken answer)
{
    BEGIN(), PLAIN(taken), PLAIN(part), PLAIN(size), PLAIN(position), PLAIN(datalink), PLAIN(start), PLAIN(original);
    PLAIN(included), PLAIN(flags), PLAIN(drops), SIGNED(time), END();
    stream("state", answer.state);
    return answer.state;
}

static void unix_time(const char *what, zalghimo_time answer)
{
    BEGIN(), SIGNED(seconds), PLAIN(microseconds), END();
}

static void time_field(const char *what, zalghimo_time_field answer)
{
    BEGIN(), SIGNED(field), END();
}

static void done(const char *what, zalghimo_done answer)
{
    BEGIN(), END();
}

static void written(const char *what, zalghimo_written answer)
{
    BEGIN(), PLAIN(next), END();
}

static void le(const char *what, zalghimo_le answer)
{
    BEGIN(), PLAIN(rf_channel), SIGNED(signal), SIGNED(noise), PLAIN(offences), PLAIN(reference), PLAIN(flags);
    PLAIN(known), PLAIN(pdu_type), PLAIN(phy), PLAIN(dependent), PLAIN(packet), END();
}

static void radiotap(const char *what, zalghimo_radiotap answer)
{
    BEGIN(), PLAIN(fields), PLAIN(frame), PLAIN(word), PLAIN(bit), PLAIN(pad), PLAIN(words), END();
}

static void word(const char *what, zalghimo_word answer)
{
    BEGIN(), PLAIN(value), END();
}

static void field(const char *what, zalghimo_field answer)
{
    BEGIN(), PLAIN(word), PLAIN(bit), PLAIN(start), PLAIN(size), END();
}

static void numbers(const char *what, const uint64_t *from, size_t count)
{
    printf("%s:", what);
    for (size_t i = 0; i < count; i++)
        printf(" %" PRIu64, from[i]);
    END();
}

/* The output of the writers, and what stands in it where they write nothing. */
static uint8_t out[80];
enum { UNTOUCHED = 0xEE };

static void clear(void)
{
    memset(out, UNTOUCHED, sizeof out);
}

/* Prints the first octets of the output, and makes it untouched again. */
static void octets(size_t count)
{
    printf("octets:");
    for (size_t i = 0; i < count; i++)
        printf(" %02x", out[i]);
    END();
    clear();
}

/* ---- BTSnoop ---- */

/* Records at 16, 45 and 71; their times are C - 1, the year-2000 constant and -2. */
static const uint8_t first[98] = {
    'b', 't', 's', 'n', 'o', 'o', 'p', 0, 0, 0, 0, 1, 0, 0, 0x03, 0xEB,
    0, 0, 0, 9, 0, 0, 0, 5, 0x80, 0, 0, 3, 0, 0, 0, 7, 0x00, 0xDC, 0xDD, 0xB3, 0x0F, 0x2F, 0x7F, 0xFF, 1, 2, 3, 4, 5,
    0, 0, 0, 2, 0, 0, 0, 2, 0, 0, 0, 1, 0, 0, 0, 11, 0x00, 0xE0, 0x3A, 0xB4, 0x4A, 0x67, 0x60, 0x00, 1, 2,
    0, 0, 0, 4, 0, 0, 0, 3, 0, 0, 0, 2, 0, 0, 0, 12, 0xFF, 0xFF, 0xFF, 0xFF, 0xFF, 0xFF, 0xFF, 0xFE, 1, 2, 3
};

/* A record at 16, of time C. */
static const uint8_t second[46] = {
    'b', 't', 's', 'n', 'o', 'o', 'p', 0, 0, 0, 0, 1, 0, 0, 0x03, 0xEA,
    0, 0, 0, 6, 0, 0, 0, 6, 0, 0, 0, 0, 0, 0, 0, 0, 0x00, 0xDC, 0xDD, 0xB3, 0x0F, 0x2F, 0x80, 0x00, 1, 2, 3, 4, 5, 6
};

static void btsnoop_reading(void)
{
    header("btsnoop_header", zalghimo_btsnoop_header(first, 98));
    header("btsnoop_header of 15 octets", zalghimo_btsnoop_header(first, 15));
    file("btsnoop_check", zalghimo_btsnoop_check(first, 98));
    file("btsnoop_check of 97 octets", zalghimo_btsnoop_check(first, 97));
    record("btsnoop_record at 16", zalghimo_btsnoop_record(first, 98, 16));
    record("btsnoop_record at 71", zalghimo_btsnoop_record(first, 98, 71));
    record("btsnoop_record at 98", zalghimo_btsnoop_record(first, 98, 98));
    record("btsnoop_record at 99", zalghimo_btsnoop_record(first, 98, 99));
    survey("btsnoop_survey of 2", zalghimo_btsnoop_survey(first, 98, 16, 2));
    survey("btsnoop_survey of 5", zalghimo_btsnoop_survey(first, 98, 16, 5));
    survey("btsnoop_survey of 97 octets", zalghimo_btsnoop_survey(first, 97, 16, 5));
    earlier("btsnoop_earlier at 45, 16", zalghimo_btsnoop_earlier(first, 98, 45, second, 46, 16));
    earlier("btsnoop_earlier at 71, 16", zalghimo_btsnoop_earlier(first, 98, 71, second, 46, 16));
    earlier("btsnoop_earlier at 98, 46", zalghimo_btsnoop_earlier(first, 98, 98, second, 46, 46));
    earlier("btsnoop_earlier of 97 and 45 octets", zalghimo_btsnoop_earlier(first, 97, 71, second, 45, 16));
    earlier("btsnoop_earlier of 98 and 45 octets", zalghimo_btsnoop_earlier(first, 98, 71, second, 45, 16));
    unix_time("btsnoop_read_time of C - 1", zalghimo_btsnoop_read_time(INT64_C(0x00DCDDB30F2F8000) - 1));
    unix_time("btsnoop_read_time of 2000", zalghimo_btsnoop_read_time(INT64_C(0x00E03AB44A676000) + 5));
    unix_time("btsnoop_read_time of the lowest", zalghimo_btsnoop_read_time(INT64_MIN));
    printf("btsnoop_drops: %" PRIu32 "\n", zalghimo_btsnoop_drops(4294967290u, 5));
}

/* Each call goes on where the last one ended. */
static void stream_reading(void)
{
    zalghimo_stream state = zalghimo_stream_fresh();
    stream("stream_fresh", state);
    state = taken("stream_take of 10 octets", zalghimo_stream_take(state, first, 10));
    state = taken("stream_take of the rest", zalghimo_stream_take(state, first + 10, 88));
    state = taken("stream_take of a record's start", zalghimo_stream_take(state, first + 16, 26));
    taken("stream_end in a packet", zalghimo_stream_end(state));
    state = taken("stream_take of the rest", zalghimo_stream_take(state, first + 42, 56));
    state = taken("stream_take of 20 octets", zalghimo_stream_take(state, first + 45, 20));
    zalghimo_stream cut = taken("stream_end in a record's header", zalghimo_stream_end(state));
    taken("stream_take after it", zalghimo_stream_take(cut, first + 65, 33));
    state = taken("stream_take of the rest", zalghimo_stream_take(state, first + 65, 33));
    state = taken("stream_take of a record's header", zalghimo_stream_take(state, first + 71, 24));
    state = taken("stream_take of none", zalghimo_stream_take(state, first + 95, 0));
    state = taken("stream_take of a packet", zalghimo_stream_take(state, first + 95, 3));
    state = taken("stream_end", zalghimo_stream_end(state));
    taken("stream_take after it", zalghimo_stream_take(state, first, 98));
    state = zalghimo_stream_fresh();
    state.octets = INT64_MAX;
    taken("stream_take past the most", zalghimo_stream_take(state, first, 1));
}

static void btsnoop_tally(void)
{
    uint64_t tally[9] = { 10, 3, 4, 40, 50, 60, 2, 7, 6 };
    done("btsnoop_tally of a command", zalghimo_btsnoop_tally(tally, 9, 5, 2, 67));
    numbers("tally", tally, 9);
    done("btsnoop_tally of a packet received", zalghimo_btsnoop_tally(tally, 9, 8, 1, 3));
    numbers("tally", tally, 9);
    done("btsnoop_tally of a whole packet", zalghimo_btsnoop_tally(tally, 8, 8, 0, 3));
    numbers("tally", tally, 9);
    tally[3] = UINT64_MAX;
    done("btsnoop_tally past the most", zalghimo_btsnoop_tally(tally, 9, 8, 1, 3));
    numbers("tally", tally, 9);
    tally[7] += 1;
    done("btsnoop_tally of a broken tally", zalghimo_btsnoop_tally(tally, 9, 8, 1, 3));
    numbers("tally", tally, 9);
}

static void btsnoop_writing(void)
{
    static const uint8_t packet[3] = { 0xA1, 0xA2, 0xA3 };
    time_field("btsnoop_write_time of -1", zalghimo_btsnoop_write_time(-1, 999999));
    time_field("btsnoop_write_time of -62168256001", zalghimo_btsnoop_write_time(INT64_C(-62168256001), 7));
    time_field("btsnoop_write_time of 1000000", zalghimo_btsnoop_write_time(0, 1000000));
    written("btsnoop_write_header", zalghimo_btsnoop_write_header(out, 20, 3, 1004));
    octets(20);
    written("btsnoop_write_header of 1000", zalghimo_btsnoop_write_header(out, 20, 3, 1000));
    written("btsnoop_write_record",
            zalghimo_btsnoop_write_record(out, 30, 2, 0xFEDCBA98u, 0x80000001u, 0x01020304u, -2, packet, 3));
    octets(30);
    written("btsnoop_write_record into 28", zalghimo_btsnoop_write_record(out, 28, 2, 3, 1, 2, 4, packet, 3));
    octets(30);
}

/* ---- The LE pseudo-header ---- */

static const uint8_t le_packet[5] = { 0xD6, 0xBE, 0x89, 0x8E, 1 };

static void le_reading(void)
{
    /* Flags 0xBEB2. */
    static const uint8_t input[15] = {
        37, 0xBA, 0xA1, 6, 0xD6, 0xBE, 0x89, 0x8E, 0xB2, 0xBE, 0xD6, 0xBE, 0x89, 0x8E, 1
    };
    le("le_read", zalghimo_le_read(input, 15));
    le("le_read of 14 octets", zalghimo_le_read(input, 14));
    /* Flags 0xC380, and 0xC000. */
    static const uint8_t type_7[14] = { 0, 0, 0, 0, 0, 0, 0, 0, 0x80, 0xC3 };
    static const uint8_t phy_3[14] = { 0, 0, 0, 0, 0, 0, 0, 0, 0, 0xC0 };
    le("le_read of PDU type 7", zalghimo_le_read(type_7, 14));
    le("le_read of PHY 3", zalghimo_le_read(phy_3, 14));
}

/* What is read behind flags alone. */
static void le_flags(const char *what, uint32_t flags)
{
    zalghimo_le_write(out, 15, 0, 1, -2, -3, 4, 5, (uint16_t)flags, le_packet, 5);
    le(what, zalghimo_le_read(out, 15));
    clear();
}

static void le_writing(void)
{
    written("le_write", zalghimo_le_write(out, 18, 1, 37, -70, -95, 6, 0x8E89BED6u, 0xBEB2, le_packet, 5));
    octets(18);
    written("le_write of channel 40", zalghimo_le_write(out, 18, 1, 40, -70, -95, 6, 0, 0, le_packet, 5));
    written("le_write of PDU type 7", zalghimo_le_write(out, 18, 1, 39, 0, 0, 0, 0, ZALGHIMO_LE_PDU_TYPE, le_packet, 5));
    written("le_write of PHY 3", zalghimo_le_write(out, 18, 1, 39, 0, 0, 0, 0, ZALGHIMO_LE_PHY, le_packet, 5));
    le_flags("le_read, signal", ZALGHIMO_LE_SIGNAL_KNOWN);
    le_flags("le_read, noise", ZALGHIMO_LE_NOISE_KNOWN);
    le_flags("le_read, reference", ZALGHIMO_LE_REFERENCE_KNOWN);
    le_flags("le_read, offences", ZALGHIMO_LE_OFFENCES_KNOWN);
    le_flags("le_read, broadcast", ZALGHIMO_PDU_BROADCAST_ISOCHRONOUS << ZALGHIMO_LE_PDU_TYPE_SHIFT);
    le_flags("le_read, MIC checked", ZALGHIMO_MIC_CHECKED << ZALGHIMO_LE_DEPENDENT_SHIFT);
    le_flags("le_read, 2M", ZALGHIMO_PHY_2M << ZALGHIMO_LE_PHY_SHIFT);
}

/* ---- Radiotap ---- */

/* Pad 0xA5, length 31, words 0xA0000007 and 0x00044020: bits 0, 1, 2, and in word 1 bits 5, 14, 18. */
static const uint8_t two_words[34] = { 0, 0xA5, 31, 0, 7, 0, 0, 0xA0, 0x20, 0x40, 0x04, 0 };

/* Length 36, word 0x00380008: bits 3, 19, 20, 21. */
static const uint8_t one_word[36] = { 0, 0, 36, 0, 8, 0, 0x38, 0 };

/* As two_words, of length 29. */
static const uint8_t cut[34] = { 0, 0xA5, 29, 0, 7, 0, 0, 0xA0, 0x20, 0x40, 0x04, 0 };

static void radiotap_reading(void)
{
    uint64_t fields[18];
    radiotap("radiotap_read, edition 1", zalghimo_radiotap_read(two_words, 34, 1));
    radiotap("radiotap_read, edition 2", zalghimo_radiotap_read(two_words, 34, 2));
    radiotap("radiotap_read, edition 3", zalghimo_radiotap_read(one_word, 36, 3));
    radiotap("radiotap_read, cut", zalghimo_radiotap_read(cut, 34, 2));
    word("radiotap_word 0", zalghimo_radiotap_word(two_words, 34, 0));
    word("radiotap_word 1", zalghimo_radiotap_word(two_words, 34, 1));
    word("radiotap_word 2", zalghimo_radiotap_word(two_words, 34, 2));
    word("radiotap_word of 30 octets", zalghimo_radiotap_word(two_words, 30, 2));
    field("radiotap_field 0", zalghimo_radiotap_field(two_words, 34, 2, 0));
    field("radiotap_field 4", zalghimo_radiotap_field(two_words, 34, 2, 4));
    field("radiotap_field 5", zalghimo_radiotap_field(two_words, 34, 2, 5));
    field("radiotap_field 4, edition 3", zalghimo_radiotap_field(one_word, 36, 3, 4));
    field("radiotap_field, cut", zalghimo_radiotap_field(cut, 34, 2, 0));
    for (size_t i = 0; i < 18; i++)
        fields[i] = 1000 + i;
    radiotap("radiotap_fields into 18", zalghimo_radiotap_fields(two_words, 34, 2, fields, 18));
    numbers("fields", fields, 18);
    radiotap("radiotap_fields, edition 3", zalghimo_radiotap_fields(one_word, 36, 3, fields, 18));
    numbers("fields", fields, 18);
}

static void radiotap_writing(void)
{
    static const uint8_t values[57] = { 1, 2, 3, 4, 5, 6, 7, 8 };
    written("radiotap_write, edition 3", zalghimo_radiotap_write(out, 24, 5, 3, 0x0008000Au, values, 8));
    octets(24);
    written("radiotap_write, edition 2", zalghimo_radiotap_write(out, 24, 5, 2, 0x0008000Au, values, 8));
    written("radiotap_write of 7 octets", zalghimo_radiotap_write(out, 24, 5, 3, 0x0008000Au, values, 7));
    written("radiotap_write of every bit into 67", zalghimo_radiotap_write(out, 67, 0, 3, 0x003BFFFFu, values, 57));
    written("radiotap_write of every bit into 68", zalghimo_radiotap_write(out, 68, 0, 3, 0x003BFFFFu, values, 57));
}

/* ---- What the headers name ---- */

#define CONSTANT(name) printf(#name " %d\n", name)

static void constants(void)
{
    CONSTANT(ZALGHIMO_REFUSED);
    CONSTANT(ZALGHIMO_VALUES);
    CONSTANT(ZALGHIMO_END);
    CONSTANT(ZALGHIMO_MORE);
    CONSTANT(ZALGHIMO_STOPPED);
    CONSTANT(ZALGHIMO_FILE_HEADER);

    CONSTANT(ZALGHIMO_SHORT_HEADER);
    CONSTANT(ZALGHIMO_IDENTIFICATION);
    CONSTANT(ZALGHIMO_VERSION);
    CONSTANT(ZALGHIMO_DATALINK);
    CONSTANT(ZALGHIMO_SHORT_RECORD);
    CONSTANT(ZALGHIMO_INCLUDED_ABOVE_ORIGINAL);
    CONSTANT(ZALGHIMO_SHORT_PACKET);
    CONSTANT(ZALGHIMO_RF_CHANNEL);
    CONSTANT(ZALGHIMO_RADIOTAP_LENGTH);
    CONSTANT(ZALGHIMO_WORD_PAST_LENGTH);
    CONSTANT(ZALGHIMO_NINTH_WORD);
    CONSTANT(ZALGHIMO_FIELD_PAST_LENGTH);
    CONSTANT(ZALGHIMO_NO_ROOM);
    CONSTANT(ZALGHIMO_TIME);
    CONSTANT(ZALGHIMO_EDITION);
    CONSTANT(ZALGHIMO_TALLY_SUM);
    CONSTANT(ZALGHIMO_RECORD_PLACE);
    CONSTANT(ZALGHIMO_UNKNOWN_BIT);
    CONSTANT(ZALGHIMO_VALUES_LENGTH);
    CONSTANT(ZALGHIMO_LISTING_INPUT);
    CONSTANT(ZALGHIMO_RESERVED_PDU_TYPE);
    CONSTANT(ZALGHIMO_RESERVED_PHY);
    CONSTANT(ZALGHIMO_TALLY_BROKEN);
    CONSTANT(ZALGHIMO_LONG_STREAM);

    CONSTANT(ZALGHIMO_RADIOTAP_MOST_FIELDS);
}

static void le_constants(void)
{
    CONSTANT(ZALGHIMO_LE_DEWHITENED);
    CONSTANT(ZALGHIMO_LE_SIGNAL_KNOWN);
    CONSTANT(ZALGHIMO_LE_NOISE_KNOWN);
    CONSTANT(ZALGHIMO_LE_DECRYPTED);
    CONSTANT(ZALGHIMO_LE_REFERENCE_KNOWN);
    CONSTANT(ZALGHIMO_LE_OFFENCES_KNOWN);
    CONSTANT(ZALGHIMO_LE_CHANNEL_ALIASED);
    CONSTANT(ZALGHIMO_LE_PDU_TYPE);
    CONSTANT(ZALGHIMO_LE_CRC_CHECKED);
    CONSTANT(ZALGHIMO_LE_CRC_PASSED);
    CONSTANT(ZALGHIMO_LE_DEPENDENT);
    CONSTANT(ZALGHIMO_LE_PHY);
    CONSTANT(ZALGHIMO_LE_PDU_TYPE_SHIFT);
    CONSTANT(ZALGHIMO_LE_DEPENDENT_SHIFT);
    CONSTANT(ZALGHIMO_LE_PHY_SHIFT);

    CONSTANT(ZALGHIMO_KNOWN_SIGNAL);
    CONSTANT(ZALGHIMO_KNOWN_NOISE);
    CONSTANT(ZALGHIMO_KNOWN_REFERENCE);
    CONSTANT(ZALGHIMO_KNOWN_OFFENCES);

    CONSTANT(ZALGHIMO_PDU_ADVERTISING_OR_DATA);
    CONSTANT(ZALGHIMO_PDU_AUXILIARY_ADVERTISING);
    CONSTANT(ZALGHIMO_PDU_DATA_MASTER_TO_SLAVE);
    CONSTANT(ZALGHIMO_PDU_DATA_SLAVE_TO_MASTER);
    CONSTANT(ZALGHIMO_PDU_CONNECTED_ISOCHRONOUS_MASTER_TO_SLAVE);
    CONSTANT(ZALGHIMO_PDU_CONNECTED_ISOCHRONOUS_SLAVE_TO_MASTER);
    CONSTANT(ZALGHIMO_PDU_BROADCAST_ISOCHRONOUS);

    CONSTANT(ZALGHIMO_PHY_1M);
    CONSTANT(ZALGHIMO_PHY_2M);
    CONSTANT(ZALGHIMO_PHY_CODED);

    CONSTANT(ZALGHIMO_AUX_ADV_IND);
    CONSTANT(ZALGHIMO_AUX_CHAIN_IND);
    CONSTANT(ZALGHIMO_AUX_SYNC_IND);
    CONSTANT(ZALGHIMO_AUX_SCAN_RSP);

    CONSTANT(ZALGHIMO_MIC_CHECKED);
    CONSTANT(ZALGHIMO_MIC_PASSED);
}

/* How many 64-bit numbers a struct has; how many octets one has that holds others too. */
#define NUMBERS(type) printf(#type " has %zu numbers\n", sizeof(type) / sizeof(uint64_t))
#define OCTETS(type) printf(#type " has %zu octets\n", sizeof(type))

static void structs(void)
{
    NUMBERS(zalghimo_header);
    NUMBERS(zalghimo_file);
    NUMBERS(zalghimo_record);
    NUMBERS(zalghimo_survey);
    NUMBERS(zalghimo_earlier);
    OCTETS(zalghimo_stream);
    OCTETS(zalghimo_taken);
    NUMBERS(zalghimo_time);
    NUMBERS(zalghimo_time_field);
    NUMBERS(zalghimo_done);
    NUMBERS(zalghimo_written);
    NUMBERS(zalghimo_le);
    NUMBERS(zalghimo_radiotap);
    NUMBERS(zalghimo_word);
    NUMBERS(zalghimo_field);
}

static void words(void)
{
    for (uint64_t number = 0; number <= 33; number++)
        printf("refusal %" PRIu64 ": %s\n", number, zalghimo_refusal_words(number));
    for (uint64_t bit = 0; bit <= 32; bit++)
        printf("bit %" PRIu64 ": %s\n", bit, zalghimo_radiotap_name(bit));
}

int main(void)
{
    clear();
    btsnoop_reading();
    stream_reading();
    btsnoop_tally();
    btsnoop_writing();
    le_reading();
    le_writing();
    radiotap_reading();
    radiotap_writing();
    constants();
    le_constants();
    structs();
    words();
    return fflush(stdout) == 0 && !ferror(stdout) ? 0 : 2;
}
