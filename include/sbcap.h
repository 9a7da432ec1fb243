/*
 * Warnings over SBc-AP (TS 29.168, clause 4.4) at the MME's end, for a process in C: a reader and a writer of Stop-Warning Request, Stop-Warning Response
 * and Error Indication. The calls are in libm3ap.a, and the words of m3ap.h on its calls hold for them: no state, any octets, one answer. No unit is reached.
 * M3AP_STACK_OCTETS is enough for them too (seen: 880 for reading, 2,480 for writing).
 *
 * sbcap_read and sbcap_write go by the tables of clause 4.4.4. sbcap_read_lab and sbcap_write_lab go by the lab profile, in which a Stop-Warning Request has
 * two rows, Message Identifier and Serial Number: every other element of it is unknown, and goes by the criticality that it was received with.
 */
#ifndef SBCAP_H
#define SBCAP_H

#include "m3ap.h"

#ifdef __cplusplus
extern "C" {
#endif

/* A record has this many octets: struct sbcap_record. */
#define SBCAP_RECORD_OCTETS 2662

/* Which message it is. */
#define SBCAP_STOP_WARNING_REQUEST 1
#define SBCAP_STOP_WARNING_RESPONSE 2
#define SBCAP_ERROR_INDICATION 3

/*
 * The layout of struct m3ap_record, without items. The value of a row stands in its slot as struct m3ap_slot has it:
 *     Message Identifier, Serial Number    its two octets
 *     Cause                                its number, 0 to 255
 *     Criticality Diagnostics              as in m3ap.h; the triggering message is 0 to 3
 *     any other value                      is carried: its place in the octets that were read (2), and how many octets it has (2)
 */
struct sbcap_record {
    uint8_t message;     /* one of the three numbers above */
    uint8_t criticality; /* of the frame, as received: 0 reject, 1 ignore, 2 notify. Writing puts the one that the tables give */
    struct m3ap_slot slots[12];
    uint8_t no_items[1538]; /* zeros */
    uint8_t entry_count[2];
    struct m3ap_entry entries[256];
};

/* The rows of each table, as numbers of slots. The lab profile has the first two of a request, and all of the others. */
#define SBCAP_REQUEST_MESSAGE_IDENTIFIER 0
#define SBCAP_REQUEST_SERIAL_NUMBER 1
#define SBCAP_REQUEST_LIST_OF_TAIS 2
#define SBCAP_REQUEST_WARNING_AREA_LIST 3
#define SBCAP_REQUEST_OMC_ID 4
#define SBCAP_REQUEST_SEND_STOP_WARNING_INDICATION 5
#define SBCAP_REQUEST_STOP_ALL_INDICATOR 6
#define SBCAP_RESPONSE_MESSAGE_IDENTIFIER 0
#define SBCAP_RESPONSE_SERIAL_NUMBER 1
#define SBCAP_RESPONSE_CAUSE 2
#define SBCAP_RESPONSE_DIAGNOSTICS 3
#define SBCAP_RESPONSE_UNKNOWN_TRACKING_AREAS 4
#define SBCAP_ERROR_INDICATION_CAUSE 0
#define SBCAP_ERROR_INDICATION_DIAGNOSTICS 1

/*
 * Reads a message. Answers 0 to 5 and 10, as m3ap_read. An extension in the container beside the elements is an unknown element of its id, whatever the id;
 * extensions come behind the elements, and before what is missing.
 */
struct m3ap_answer sbcap_read(const uint8_t *message, size_t message_len, struct sbcap_record *record, size_t record_len);
struct m3ap_answer sbcap_read_lab(const uint8_t *message, size_t message_len, struct sbcap_record *record, size_t record_len);

/*
 * Writes a message. Answers 0, 10 and 11, as m3ap_write; carried values lie in values. No container is written: with the octets that were read, it is the
 * message again, if that had none, holds only elements of its table, with the criticalities that the tables give, lacks no mandatory one, and was read with 0.
 * Two records, each with its values, that differ in any octet but the frame's criticality and the places of carried values, or in the octets of a carried
 * value, have messages that differ. A record with a value that the profile has no row for is none: 11.
 */
struct m3ap_answer sbcap_write(const struct sbcap_record *record, size_t record_len, const uint8_t *values, size_t values_len, uint8_t *room, size_t room_len);
struct m3ap_answer sbcap_write_lab(const struct sbcap_record *record, size_t record_len, const uint8_t *values, size_t values_len, uint8_t *room,
                                   size_t room_len);

#ifdef __cplusplus
}
#endif

#endif
