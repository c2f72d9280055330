/* Words for the numbers of zalghimo.h: each refusal in plain words, and radiotap's published field names. */
#ifndef ZALGHIMO_WORDS_H
#define ZALGHIMO_WORDS_H

#include "zalghimo.h"

/* A refusal's condition in words, from its number. */
static inline const char *zalghimo_refusal_words(uint64_t number)
{
    switch (number) {
    case 0: return "not a refusal";
    case ZALGHIMO_SHORT_HEADER: return "the input is shorter than the fixed header";
    case ZALGHIMO_IDENTIFICATION: return "the identification octets differ";
    case ZALGHIMO_VERSION: return "the version is not served";
    case ZALGHIMO_DATALINK: return "the datalink code is not 1001 to 1004";
    case ZALGHIMO_SHORT_RECORD: return "1 to 23 octets remain where a record starts";
    case ZALGHIMO_INCLUDED_ABOVE_ORIGINAL: return "the included length is above the original length";
    case ZALGHIMO_SHORT_PACKET: return "the packet runs past the input, or an LE packet is too short";
    case ZALGHIMO_RF_CHANNEL: return "the RF channel is above 39";
    case ZALGHIMO_RADIOTAP_LENGTH: return "the radiotap length is below 8 or above the input";
    case ZALGHIMO_WORD_PAST_LENGTH: return "a presence word runs past the radiotap length";
    case ZALGHIMO_NINTH_WORD: return "a ninth presence word is called for";
    case ZALGHIMO_FIELD_PAST_LENGTH: return "a known field runs past the radiotap length";
    case ZALGHIMO_NO_ROOM: return "the output has no room from the given place";
    case ZALGHIMO_TIME: return "the time cannot be expressed";
    case ZALGHIMO_EDITION: return "the edition is above 3";
    case ZALGHIMO_TALLY_SUM: return "a tally sum would pass 2^64 - 1";
    case ZALGHIMO_RECORD_PLACE: return "the record place is below 16 or above the input's length";
    case ZALGHIMO_UNKNOWN_BIT: return "a presence bit is not known to the edition";
    case ZALGHIMO_VALUES_LENGTH: return "the packed values are not of the summed length";
    case ZALGHIMO_LISTING_INPUT: return "the input is above 65,536 octets";
    case ZALGHIMO_RESERVED_PDU_TYPE: return "the PDU type is 7, which is reserved";
    case ZALGHIMO_RESERVED_PHY: return "the PHY is 3, which is reserved";
    case ZALGHIMO_TALLY_BROKEN: return "sent and received, or commands and data, do not add up to the tally's records";
    case ZALGHIMO_LONG_STREAM: return "a chunk takes the stream past 2^63 - 1 octets";
    default: return "a number that is not in the list";
    }
}

/* The published name of a radiotap presence bit, in a word that numbers its bits from 0. */
static inline const char *zalghimo_radiotap_name(uint64_t bit)
{
    static const char *const names[] = {
        "TSFT", "Flags", "Rate", "Channel", "FHSS", "Antenna signal", "Antenna noise", "Lock quality",
        "TX attenuation", "dB TX attenuation", "dBm TX power", "Antenna", "dB antenna signal", "dB antenna noise",
        "RX flags", "TX flags", "RTS retries", "data retries", "XChannel", "MCS", "A-MPDU status", "VHT",
        "timestamp", "HE", "HE-MU", "HE-MU-other-user", "0-length-PSDU", "L-SIG", "TLV",
        "Radiotap Namespace", "Vendor Namespace", "another presence word"
    };
    return bit < sizeof names / sizeof names[0] ? names[bit] : "not a bit";
}

#endif
