/*
 * The reader and the writer in use. It reads messages from standard input, each behind its length (two octets, high first), and for each the record;
 * then it writes the message of that record again, with the octets that were read as the carried values, and prints a line: the reader's answer and
 * place, how many octets were written, and whether they are the same octets. A message that is not read, or not written, has 0 written.
 */
#include "m3ap.h"

#include <stdio.h>
#include <string.h>

static uint8_t message[65535];
static uint8_t room[M3AP_MESSAGE_OCTETS];
static struct m3ap_record record;

/* The record is handed over as octets, so nothing may stand between them. */
_Static_assert(sizeof record == M3AP_RECORD_OCTETS, "a record has M3AP_RECORD_OCTETS octets");

int main(void)
{
    uint8_t head[2];

    while (fread(head, 1, sizeof head, stdin) == sizeof head) {
        size_t length = head[0] * 256u + head[1];
        if (fread(message, 1, length, stdin) < length)
            return 1;
        struct m3ap_answer r = m3ap_read(message, length, &record, sizeof record);
        struct m3ap_answer w = {M3AP_NOT_WRITTEN, 0, 0, 0, 0};
        if (r.answer == M3AP_CARRIED_OUT || r.answer == M3AP_REJECTED)
            w = m3ap_write(&record, sizeof record, message, length, room, sizeof room);
        int same = w.answer == M3AP_CARRIED_OUT && w.octets == length && memcmp(room, message, length) == 0;
        printf("answer=%u place=%u written=%u %s\n", (unsigned)r.answer, (unsigned)r.place, (unsigned)w.octets, same ? "same" : "differs");
    }
    return ferror(stdin) || fflush(stdout) != 0 ? 1 : 0;
}
