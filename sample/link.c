/*
 * A sample link process. It sends a setup request, takes the response to it, and shows the name that it sent, in lines that begin with 'setup'.
 * Then it reads a capture from standard input: entries of an offered identity (two octets, high first), a length (likewise)
 * and a message. It plays each on a unit that starts fresh, with a room of 8,192 octets, and writes four lines for each; at the end it writes
 * how many there were, and whether the capture ended inside an entry, which is then not played; and then, in lines that begin with 'unit' and
 * 'row', what the unit remembers, and the first associations that it holds.
 */
#include "m3ap.h"

#include <stdio.h>
#include <string.h>

enum { ROWS_SHOWN = 4 };

static uint8_t unit[M3AP_UNIT_OCTETS];
static uint8_t room[M3AP_MESSAGE_OCTETS];
/* An entry's length is two octets, so the longest is read whole; over M3AP_MESSAGE_OCTETS the call gives answer 1. */
static uint8_t message[65535];

static unsigned two(const uint8_t *at)
{
    return at[0] * 256u + at[1];
}

static unsigned three(const uint8_t *at)
{
    return at[0] * 65536u + at[1] * 256u + at[2];
}

/* A slot whose value lies in the values: where it begins, and how many octets it has. */
static struct m3ap_slot lies_at(size_t from, size_t octets)
{
    struct m3ap_slot s = {1, {(uint8_t)(from / 256), (uint8_t)(from % 256), (uint8_t)(octets / 256), (uint8_t)(octets % 256), 0, 0, 0}};
    return s;
}

static void show_part(const uint8_t *request, size_t octets)
{
    static const char label[] = "unnamed unit";
    struct m3ap_part p = m3ap_shown(request, octets, (const uint8_t *)label, strlen(label));
    printf("setup: shown=%.*s\n", (int)p.octets, (p.of_label ? label : (const char *)request) + p.from);
}

/* Sends a setup request with this name, and takes the response that a core sends for it. */
static void set_up(const char *name)
{
    static const uint8_t global_id[] = {0x00, 0x01, 0x02, 0x03, 0xaa, 0xbb}, areas[] = {0x01, 0x00, 0x01};
    static const uint8_t response[] = {0x20, 0x07, 0x00, 0x03, 0x00, 0x00, 0x00};
    struct m3ap_record record;
    uint8_t values[512];
    size_t named = sizeof global_id, behind = named + strlen(name);

    memset(&record, 0, sizeof record);
    memcpy(values, global_id, sizeof global_id);
    memcpy(values + named, name, strlen(name));
    memcpy(values + behind, areas, sizeof areas);
    record.message = M3AP_SETUP_REQUEST;
    record.slots[M3AP_SETUP_REQUEST_GLOBAL_ID] = lies_at(0, sizeof global_id);
    record.slots[M3AP_SETUP_REQUEST_NAME] = lies_at(named, strlen(name));
    record.slots[M3AP_SETUP_REQUEST_AREAS] = lies_at(behind, sizeof areas);
    struct m3ap_answer a = m3ap_setup(unit, sizeof unit, &record, sizeof record, values, behind + sizeof areas, room, sizeof room);
    printf("setup: answer=%u octets=%u open=%u\n", (unsigned)a.answer, (unsigned)a.octets, (unsigned)m3ap_marks(unit, sizeof unit).open);
    if (a.answer != M3AP_CARRIED_OUT)
        return;
    /* Here a link process sends the first a.octets octets of the room, and waits for what comes back. */
    show_part(room, a.octets);
    a = m3ap_call(unit, sizeof unit, response, sizeof response, 0, room, sizeof room);
    printf("setup: response=%u open=%u\n", (unsigned)a.answer, (unsigned)m3ap_marks(unit, sizeof unit).open);
}

static void show_unit(void)
{
    struct m3ap_marks m = m3ap_marks(unit, sizeof unit);
    printf("unit: answer=%u held=%u,%u open=%u,%u edition=%u rooms=%u next=%u settings=%u\n", (unsigned)m.answer, (unsigned)m.held,
           (unsigned)m.held_1, (unsigned)m.open, (unsigned)m.open_1, (unsigned)m.edition, (unsigned)m.rooms, (unsigned)m.next, (unsigned)m.settings);
    for (uint32_t k = 0; k < m.held && k < ROWS_SHOWN; k++) {
        struct m3ap_association a = m3ap_row(unit, sizeof unit, k).association;
        printf("row %u: mme=%u mce=%u tmgi=%06x.%06x session=", (unsigned)k, a.mme, a.mce, three(a.tmgi.plmn), three(a.tmgi.service));
        if (a.has_session)
            printf("%u\n", a.session);
        else
            puts("-");
    }
}

int main(void)
{
    unsigned long messages = 0;
    int cut = 0;

    if (m3ap_version() != M3AP_VERSION) {
        fprintf(stderr, "link: the header is of version %d, the archive of %u\n", M3AP_VERSION, (unsigned)m3ap_version());
        return 2;
    }
    set_up("Sports @ 8");
    set_up("North Hall, plate 7");
    for (;;) {
        uint8_t head[4];
        size_t got = fread(head, 1, sizeof head, stdin);
        if (got == 0)
            break;
        size_t length = got == sizeof head ? two(head + 2) : 0;
        if (got < sizeof head || fread(message, 1, length, stdin) < length) {
            cut = 1;
            break;
        }
        struct m3ap_answer a = m3ap_call(unit, sizeof unit, message, length, (uint16_t)two(head), room, sizeof room);
        messages++;
        /* Here a link process sends the first a.octets octets of the room, if there are any. */
        printf("message=%lu\nanswer=%u\nreply=%u\nheld=%u\n", messages, (unsigned)a.answer, (unsigned)a.octets,
               (unsigned)m3ap_marks(unit, sizeof unit).held);
    }
    printf("messages=%lu\ncut=%d\n", messages, cut);
    show_unit();
    /* A capture that could not be read, or lines that could not be written, are no end of a capture. */
    return ferror(stdin) || fflush(stdout) != 0 ? 1 : 0;
}
