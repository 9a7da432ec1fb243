/*
 * Warnings over SBc-AP in use: the MME's end of a lab. It reads messages from the file that is named, or from standard input, each behind its length (two
 * octets, high first). For each it prints the answer and the place, and of a Stop-Warning Request what was read: Message Identifier, Serial Number, and the
 * octets of the carried values that it has. Then, in a line that begins with 'lab', what the lab profile answers to the same message, and to the record that
 * was read. To a request that is accepted it writes the Stop-Warning Response that accepts it, prints its octets, reads them back, and prints what they say.
 */
#include "sbcap.h"

#include <stdio.h>
#include <string.h>

static uint8_t message[65535];
static uint8_t room[M3AP_MESSAGE_OCTETS];
static struct sbcap_record record, other;

/* The record is handed over as octets, so nothing may stand between them. */
_Static_assert(sizeof record == SBCAP_RECORD_OCTETS, "a record has SBCAP_RECORD_OCTETS octets");

static unsigned two(const uint8_t *at)
{
    return at[0] * 256u + at[1];
}

static void show_octets(const uint8_t *at, size_t octets)
{
    for (size_t i = 0; i < octets; i++)
        printf("%02x", at[i]);
}

static void show_two(const char *name, const struct m3ap_slot *slot)
{
    if (slot->there)
        printf(" %s=%04x", name, two(slot->value));
}

/* The carried values lie in the message that was read. */
static void show_request(const struct sbcap_record *r)
{
    static const char *const names[] = {[SBCAP_REQUEST_LIST_OF_TAIS] = "tais",
                                        [SBCAP_REQUEST_WARNING_AREA_LIST] = "areas",
                                        [SBCAP_REQUEST_OMC_ID] = "omc",
                                        [SBCAP_REQUEST_SEND_STOP_WARNING_INDICATION] = "indication",
                                        [SBCAP_REQUEST_STOP_ALL_INDICATOR] = "all"};
    printf("request:");
    show_two("identifier", &r->slots[SBCAP_REQUEST_MESSAGE_IDENTIFIER]);
    show_two("serial", &r->slots[SBCAP_REQUEST_SERIAL_NUMBER]);
    for (int row = SBCAP_REQUEST_LIST_OF_TAIS; row <= SBCAP_REQUEST_STOP_ALL_INDICATOR; row++) {
        const struct m3ap_slot *slot = &r->slots[row];
        if (!slot->there)
            continue;
        printf(" %s=", names[row]);
        show_octets(message + two(slot->value), two(slot->value + 2));
    }
    puts("");
}

/* Writes the response that accepts a request, and reads it back. */
static void respond(const struct sbcap_record *request)
{
    memset(&other, 0, sizeof other);
    other.message = SBCAP_STOP_WARNING_RESPONSE;
    other.slots[SBCAP_RESPONSE_MESSAGE_IDENTIFIER] = request->slots[SBCAP_REQUEST_MESSAGE_IDENTIFIER];
    other.slots[SBCAP_RESPONSE_SERIAL_NUMBER] = request->slots[SBCAP_REQUEST_SERIAL_NUMBER];
    /* Its number is 0: message accepted. */
    other.slots[SBCAP_RESPONSE_CAUSE].there = 1;
    struct m3ap_answer w = sbcap_write(&other, sizeof other, NULL, 0, room, sizeof room);
    printf("response: answer=%u octets=", (unsigned)w.answer);
    show_octets(room, w.octets);
    /* Here an MME sends the first w.octets octets of the room. */
    struct m3ap_answer r = sbcap_read(room, w.octets, &other, sizeof other);
    printf("\nread back: answer=%u", (unsigned)r.answer);
    if (r.answer == M3AP_CARRIED_OUT && other.message == SBCAP_STOP_WARNING_RESPONSE) {
        show_two("identifier", &other.slots[SBCAP_RESPONSE_MESSAGE_IDENTIFIER]);
        show_two("serial", &other.slots[SBCAP_RESPONSE_SERIAL_NUMBER]);
        printf(" cause=%u", other.slots[SBCAP_RESPONSE_CAUSE].value[0]);
    }
    puts("");
}

int main(int argc, char **argv)
{
    uint8_t head[2];
    unsigned long messages = 0;

    if (argc > 2 || (argc == 2 && freopen(argv[1], "rb", stdin) == NULL)) {
        fprintf(stderr, "usage: warning [FILE]\n");
        return 2;
    }
    while (fread(head, 1, sizeof head, stdin) == sizeof head) {
        size_t length = two(head);
        if (fread(message, 1, length, stdin) < length)
            return 1;
        struct m3ap_answer a = sbcap_read(message, length, &record, sizeof record);
        printf("message=%lu answer=%u place=%u\n", ++messages, (unsigned)a.answer, (unsigned)a.place);
        if (a.octets == 0 || record.message != SBCAP_STOP_WARNING_REQUEST)
            continue;
        show_request(&record);
        struct m3ap_answer l = sbcap_read_lab(message, length, &other, sizeof other);
        struct m3ap_answer w = sbcap_write_lab(&record, sizeof record, message, length, room, sizeof room);
        printf("lab: answer=%u written=%u\n", (unsigned)l.answer, (unsigned)w.answer);
        if (a.answer == M3AP_CARRIED_OUT)
            respond(&record);
    }
    return ferror(stdin) || fflush(stdout) != 0 ? 1 : 0;
}
