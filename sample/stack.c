/*
 * Calls at the edges of what may be handed over, and how much stack calls need: a capture from standard input is played on a painted stack, and each of
 * its messages is read, written again and shown, and read and written again as one of SBc-AP, in both profiles. Writes the deepest of each call in octets,
 * from the caller's frame on. Status 1 if a call answers otherwise than it must, or needs more than the header says.
 */
#include "sbcap.h"

#include <pthread.h>
#include <stdio.h>
#include <string.h>

enum { STACK = 1 << 20, PAINT = 0xA5, SPARE = 512 };

static uint8_t stack[STACK] __attribute__((aligned(4096)));
static uint8_t unit[M3AP_UNIT_OCTETS];
static uint8_t room[M3AP_MESSAGE_OCTETS];
static uint8_t message[65535];
static struct m3ap_record record;
static struct sbcap_record warning;
static struct m3ap_association run[257];
static size_t deepest_call, deepest_read, deepest_write, deepest_setup, deepest_shown, deepest_count, deepest_row, deepest_count_in, deepest_marks;
/* Of SBc-AP, by profile: ordinary, lab. */
static size_t deepest_warning_read[2], deepest_warning_write[2];
static int wrong;

/* The painting leaves the frames that are in use alone. */
static void paint(const uint8_t *here)
{
    for (volatile uint8_t *p = stack; p < here - SPARE; p++)
        *p = PAINT;
}

/* How far down was written. */
static void look(const uint8_t *here, size_t *deepest)
{
    const uint8_t *low = stack;
    while (low < here && *low == PAINT)
        low++;
    if ((size_t)(here - low) > *deepest)
        *deepest = (size_t)(here - low);
}

/* One call each, which paints before and looks afterwards. */
__attribute__((noinline)) static struct m3ap_answer called(uint8_t *u, size_t u_len, const uint8_t *m, size_t m_len,
                                                           uint16_t offered, uint8_t *r, size_t r_len)
{
    const uint8_t *here = __builtin_frame_address(0);
    paint(here);
    struct m3ap_answer a = m3ap_call(u, u_len, m, m_len, offered, r, r_len);
    look(here, &deepest_call);
    return a;
}

__attribute__((noinline)) static struct m3ap_answer was_read(const uint8_t *m, size_t m_len, struct m3ap_record *r, size_t r_len)
{
    const uint8_t *here = __builtin_frame_address(0);
    paint(here);
    struct m3ap_answer a = m3ap_read(m, m_len, r, r_len);
    look(here, &deepest_read);
    return a;
}

__attribute__((noinline)) static struct m3ap_answer written(const struct m3ap_record *r, size_t r_len, const uint8_t *v, size_t v_len, uint8_t *o, size_t o_len)
{
    const uint8_t *here = __builtin_frame_address(0);
    paint(here);
    struct m3ap_answer a = m3ap_write(r, r_len, v, v_len, o, o_len);
    look(here, &deepest_write);
    return a;
}

__attribute__((noinline)) static struct m3ap_answer set_up(uint8_t *u, size_t u_len, const struct m3ap_record *r, size_t r_len, const uint8_t *v, size_t v_len,
                                                           uint8_t *o, size_t o_len)
{
    const uint8_t *here = __builtin_frame_address(0);
    paint(here);
    struct m3ap_answer a = m3ap_setup(u, u_len, r, r_len, v, v_len, o, o_len);
    look(here, &deepest_setup);
    return a;
}

__attribute__((noinline)) static struct m3ap_part shown(const uint8_t *q, size_t q_len, const uint8_t *l, size_t l_len)
{
    const uint8_t *here = __builtin_frame_address(0);
    paint(here);
    struct m3ap_part p = m3ap_shown(q, q_len, l, l_len);
    look(here, &deepest_shown);
    return p;
}

__attribute__((noinline)) static struct m3ap_counted counted(size_t length)
{
    const uint8_t *here = __builtin_frame_address(0);
    paint(here);
    struct m3ap_counted c = m3ap_count(run, length, (struct m3ap_tmgi){{0, 0, 0}, {0, 0, 0}});
    look(here, &deepest_count);
    return c;
}

__attribute__((noinline)) static struct m3ap_row row(const uint8_t *u, size_t u_len, uint32_t k)
{
    const uint8_t *here = __builtin_frame_address(0);
    paint(here);
    struct m3ap_row r = m3ap_row(u, u_len, k);
    look(here, &deepest_row);
    return r;
}

__attribute__((noinline)) static struct m3ap_counted counted_in(const uint8_t *u, size_t u_len, struct m3ap_tmgi tmgi)
{
    const uint8_t *here = __builtin_frame_address(0);
    paint(here);
    struct m3ap_counted c = m3ap_count_in(u, u_len, tmgi);
    look(here, &deepest_count_in);
    return c;
}

__attribute__((noinline)) static struct m3ap_marks marks(const uint8_t *u, size_t u_len)
{
    const uint8_t *here = __builtin_frame_address(0);
    paint(here);
    struct m3ap_marks m = m3ap_marks(u, u_len);
    look(here, &deepest_marks);
    return m;
}

__attribute__((noinline)) static struct m3ap_answer warning_read(int lab, const uint8_t *m, size_t m_len, struct sbcap_record *r, size_t r_len)
{
    const uint8_t *here = __builtin_frame_address(0);
    paint(here);
    struct m3ap_answer a = (lab ? sbcap_read_lab : sbcap_read)(m, m_len, r, r_len);
    look(here, &deepest_warning_read[lab]);
    return a;
}

__attribute__((noinline)) static struct m3ap_answer warning_written(int lab, const struct sbcap_record *r, size_t r_len, const uint8_t *v, size_t v_len,
                                                                    uint8_t *o, size_t o_len)
{
    const uint8_t *here = __builtin_frame_address(0);
    paint(here);
    struct m3ap_answer a = (lab ? sbcap_write_lab : sbcap_write)(r, r_len, v, v_len, o, o_len);
    look(here, &deepest_warning_write[lab]);
    return a;
}

static void expect(const char *what, struct m3ap_answer a, uint32_t answer, uint32_t place, uint32_t octets)
{
    if (a.answer == answer && a.place == place && a.octets == octets && a.bit == 0 && a.wait == 0)
        return;
    printf("%s: answer=%u place=%u octets=%u bit=%u wait=%u, not %u %u %u 0 0\n", what, (unsigned)a.answer, (unsigned)a.place, (unsigned)a.octets,
           (unsigned)a.bit, (unsigned)a.wait, (unsigned)answer, (unsigned)place, (unsigned)octets);
    wrong = 1;
}

static void expect_part(const char *what, struct m3ap_part p, uint32_t of_label, uint32_t from, uint32_t octets)
{
    if (p.of_label == of_label && p.from == from && p.octets == octets)
        return;
    printf("%s: of_label=%u from=%u octets=%u, not %u %u %u\n", what, (unsigned)p.of_label, (unsigned)p.from, (unsigned)p.octets, (unsigned)of_label,
           (unsigned)from, (unsigned)octets);
    wrong = 1;
}

static void expect_octets(const char *what, const uint8_t *is, const uint8_t *must, size_t n)
{
    if (memcmp(is, must, n) == 0)
        return;
    printf("%s: other octets\n", what);
    wrong = 1;
}

static const uint8_t reset[] = {0x00, 0x04, 0x00, 0x17, 0x00, 0x00, 0x02, 0x00, 0x09, 0x40, 0x01, 0x42, 0x00, 0x0d,
                                0x00, 0x0b, 0x40, 0x00, 0x00, 0x0e, 0x00, 0x05, 0x60, 0x00, 0x01, 0x00, 0x02};
static const uint8_t extended[] = {0x00, 0x04, 0x00, 0x01, 0x80};

static void call_edges(void)
{
    /* The reply, and that the room behind it keeps its octets. */
    static const uint8_t acknowledged[] = {0x20, 0x04, 0x00, 0x11, 0x00, 0x00, 0x01, 0x00, 0x0f, 0x40, 0x0a,
                                           0x00, 0x00, 0x0e, 0x40, 0x05, 0x60, 0x00, 0x01, 0x00, 0x02, 0xEE};
    uint8_t other[M3AP_UNIT_OCTETS] = {0};

    memset(room, 0xEE, sizeof room);
    expect("reset", called(unit, sizeof unit, reset, sizeof reset, 0, room, sizeof room), M3AP_CARRIED_OUT, 0, 21);
    expect_octets("reset", room, acknowledged, sizeof acknowledged);
    expect_octets("reset, end of room", room + 8191, acknowledged + 21, 1);
    expect("room of 20", called(unit, sizeof unit, reset, sizeof reset, 0, room, 20), M3AP_NO_ROOM, 0, 0);
    expect("no room", called(unit, sizeof unit, reset, sizeof reset, 0, NULL, 0), M3AP_NO_ROOM, 0, 0);
    expect("no message", called(unit, sizeof unit, NULL, 0, 0, room, sizeof room), M3AP_FAULT, 0, 0);
    expect("cut", called(unit, sizeof unit, reset, 26, 0, room, sizeof room), M3AP_FAULT, 3, 0);
    expect("cut in the frame", called(unit, sizeof unit, reset, 3, 0, room, sizeof room), M3AP_FAULT, 3, 0);
    expect("extension", called(unit, sizeof unit, extended, sizeof extended, 0, room, sizeof room), M3AP_EXTENSION, 4, 0);
    expect("too long", called(unit, sizeof unit, message, 8193, 0, room, sizeof room), M3AP_TOO_LONG, 0, 0);
    expect("no unit", called(NULL, 0, reset, sizeof reset, 0, room, sizeof room), M3AP_NO_UNIT, 0, 0);
    expect("unit cut", called(other, sizeof other - 1, reset, sizeof reset, 0, room, sizeof room), M3AP_NO_UNIT, 0, 0);
    expect("table alone", called(other, 3074, reset, sizeof reset, 0, room, sizeof room), M3AP_NO_UNIT, 0, 0);
    /* No mark may be set, but that of a setup request, which may be 1. */
    for (size_t at = 3074; at < sizeof other; at++) {
        other[at] = at == 3076 ? 2 : 1;
        expect("a mark set", called(other, sizeof other, reset, sizeof reset, 0, room, sizeof room), M3AP_NO_UNIT, 0, 0);
        other[at] = 0;
    }
    expect("marks put back", called(other, sizeof other, reset, sizeof reset, 0, room, sizeof room), M3AP_CARRIED_OUT, 0, 21);
    memset(other, 0xFF, sizeof other);
    expect("octets of no unit", called(other, sizeof other, message, 8193, 0, room, sizeof room), M3AP_NO_UNIT, 0, 0);
}

static void record_edges(void)
{
    /* RESET, frame of reject; cause 4.2; part of the interface. One item. */
    static const uint8_t slots[18] = {M3AP_RESET, 0, 1, 4, 2, 0, 0, 0, 0, 0, 2};
    static const uint8_t item[9] = {0, 1, 1, 0, 1, 1, 0, 2};
    static struct m3ap_record r;

    memset(&record, 0xEE, sizeof record);
    expect("read, no room", was_read(reset, sizeof reset, NULL, 0), M3AP_NO_ROOM, 0, 0);
    expect("read, room of 2661", was_read(reset, sizeof reset, &record, sizeof record - 1), M3AP_NO_ROOM, 0, 0);
    expect("read, extension", was_read(extended, sizeof extended, &record, sizeof record), M3AP_EXTENSION, 4, 0);
    expect("read, no message", was_read(NULL, 0, &record, sizeof record), M3AP_FAULT, 0, 0);
    expect("read, too long", was_read(message, 8193, NULL, 0), M3AP_TOO_LONG, 0, 0);
    for (size_t i = 0; i < sizeof record; i++)
        expect_octets("read, room that is kept", (const uint8_t *)&record + i, (const uint8_t[]){0xEE}, 1);

    expect("read", was_read(reset, sizeof reset, &record, sizeof record), M3AP_CARRIED_OUT, 0, M3AP_RECORD_OCTETS);
    r = record;
    expect_octets("read, slots", (const uint8_t *)&record, slots, sizeof slots);
    expect_octets("read, items", r.item_count, item, sizeof item);

    memset(room, 0xEE, sizeof room);
    expect("write, no room", written(&record, sizeof record, NULL, 0, NULL, 0), M3AP_NO_ROOM, 0, 0);
    expect("write, room of 26", written(&record, sizeof record, NULL, 0, room, 26), M3AP_NO_ROOM, 0, 0);
    expect("write, no record", written(NULL, 0, reset, sizeof reset, room, sizeof room), M3AP_NOT_WRITTEN, 0, 0);
    expect("write, record cut", written(&record, sizeof record - 1, NULL, 0, room, sizeof room), M3AP_NOT_WRITTEN, 0, 0);
    /* An octet behind the items; items that no slot announces; a criticality that is none; and a cause of no group. */
    r.items[1].mce[1] = 1;
    expect("write, octets of no record", written(&r, sizeof r, NULL, 0, room, sizeof room), M3AP_NOT_WRITTEN, 0, 0);
    r.items[1].mce[1] = 0;
    r.slots[M3AP_RESET_TYPE].there = 1;
    expect("write, items of no part", written(&r, sizeof r, NULL, 0, room, sizeof room), M3AP_NOT_WRITTEN, 0, 0);
    r.slots[M3AP_RESET_TYPE].there = 2;
    r.criticality = 3;
    expect("write, criticality of 3", written(&r, sizeof r, NULL, 0, room, sizeof room), M3AP_NOT_WRITTEN, 0, 0);
    r.criticality = 0;
    r.slots[M3AP_RESET_CAUSE].value[0] = 5;
    expect("write, no message", written(&r, sizeof r, NULL, 0, room, sizeof room), M3AP_NOT_WRITTEN, 0, 0);
    expect_octets("write, room that is kept", room, (const uint8_t[]){0xEE, 0xEE}, 2);
    expect("write", written(&record, sizeof record, NULL, 0, room, sizeof reset), M3AP_CARRIED_OUT, 0, sizeof reset);
    expect_octets("write", room, reset, sizeof reset);
}

/* On a unit without an open request, whose table stays as it is. */
static void setup_edges(uint8_t *u)
{
    /* M3 SETUP REQUEST with the name AB and carried values of one octet; M3 SETUP FAILURE with a Time to Wait of 5 seconds. */
    static const uint8_t request[] = {0, 7, 0, 21, 0, 0, 3, 0, 18, 0, 1, 0xaa, 0, 19, 64, 4, 0, 128, 'A', 'B', 0, 20, 0, 1, 0xaa};
    static const uint8_t failure[] = {64, 7, 0, 13, 0, 0, 2, 0, 9, 64, 1, 0x42, 0, 12, 64, 1, 32};
    static const uint8_t label[151] = {0};
    uint8_t wrong_name[sizeof request];

    memcpy(wrong_name, request, sizeof request);
    wrong_name[19] = '@';
    expect("read, setup", was_read(request, sizeof request, &record, sizeof record), M3AP_CARRIED_OUT, 0, M3AP_RECORD_OCTETS);
    memset(room, 0xEE, sizeof room);
    expect("write, no such name", written(&record, sizeof record, wrong_name, sizeof wrong_name, room, sizeof room), M3AP_NAME, 0, 0);
    expect("setup, no unit", set_up(NULL, 0, &record, sizeof record, wrong_name, sizeof wrong_name, room, sizeof room), M3AP_NO_UNIT, 0, 0);
    expect("setup, no such name", set_up(u, M3AP_UNIT_OCTETS, &record, sizeof record, wrong_name, sizeof wrong_name, room, sizeof room), M3AP_NAME, 0, 0);
    expect("setup, no values", set_up(u, M3AP_UNIT_OCTETS, &record, sizeof record, NULL, 0, room, sizeof room), M3AP_NAME, 0, 0);
    expect("setup, no record", set_up(u, M3AP_UNIT_OCTETS, NULL, 0, request, sizeof request, room, sizeof room), M3AP_NOT_WRITTEN, 0, 0);
    expect("setup, no room", set_up(u, M3AP_UNIT_OCTETS, &record, sizeof record, request, sizeof request, NULL, 0), M3AP_NO_ROOM, 0, 0);
    expect("setup, room of 24", set_up(u, M3AP_UNIT_OCTETS, &record, sizeof record, request, sizeof request, room, 24), M3AP_NO_ROOM, 0, 0);
    expect_octets("setup, room that is kept", room, (const uint8_t[]){0xEE, 0xEE}, 2);
    expect("failure, none open", called(u, M3AP_UNIT_OCTETS, failure, sizeof failure, 0, room, sizeof room), M3AP_NONE_OPEN, 0, 0);
    expect("setup", set_up(u, M3AP_UNIT_OCTETS, &record, sizeof record, request, sizeof request, room, sizeof room), M3AP_CARRIED_OUT, 0, sizeof request);
    expect_octets("setup", room, request, sizeof request);
    expect_octets("setup, behind it", room + sizeof request, (const uint8_t[]){0xEE}, 1);
    expect("setup, one is open", set_up(u, M3AP_UNIT_OCTETS, &record, sizeof record, request, sizeof request, room, sizeof room), M3AP_ALREADY_OPEN, 0, 0);
    if (marks(u, M3AP_UNIT_OCTETS).open != 1 || called(u, M3AP_UNIT_OCTETS, failure, sizeof failure, 0, NULL, 0).wait != 5 ||
        marks(u, M3AP_UNIT_OCTETS).open != 0) {
        printf("failure: not closed, or another wait\n");
        wrong = 1;
    }
    expect_part("shown, name", shown(request, sizeof request, label, sizeof label), 0, 18, 2);
    expect_part("shown, no such name", shown(wrong_name, sizeof wrong_name, label, 5), 1, 0, 5);
    expect_part("shown, no request", shown(NULL, 0, label, sizeof label), 1, 0, 150);
    expect_part("shown, no label", shown(NULL, 0, NULL, 0), 1, 0, 0);
}

/* Stop-Warning Request with the message identifier 1, the serial number 2, a carried value (an OMC identity) and an extension of notify. */
static const uint8_t stop_warning[] = {0, 1, 0, 28, 64, 0, 3, 0, 5, 0, 2, 0, 1, 0, 11, 0, 2, 0, 2, 0, 19, 64, 2, 7, 8, 0, 0, 0, 99, 128, 1, 9};

/* Writes what stands in the record of a warning, or in its front, with the values of that request. */
static struct m3ap_answer rewritten(int lab, size_t r_len, uint8_t *o, size_t o_len)
{
    return warning_written(lab, r_len == 0 ? NULL : &warning, r_len, stop_warning, sizeof stop_warning, o, o_len);
}

/* In either profile. The lab profile does not know the carried value. */
static void warning_edges(int lab)
{
    static const uint8_t slots[34] = {SBCAP_STOP_WARNING_REQUEST, 0, 1, 0, 1, 0, 0, 0, 0, 0, 1, 0, 2};
    static const uint8_t omc[8] = {1, 0, 23, 0, 2};
    /* The message of the record: without the extension, and the lab profile's without the value. */
    static const uint8_t again[] = {0, 1, 0, 21, 0, 0, 3, 0, 5, 0, 2, 0, 1, 0, 11, 0, 2, 0, 2, 0, 19, 64, 2, 7, 8};
    static const uint8_t fewer[] = {0, 1, 0, 15, 0, 0, 2, 0, 5, 0, 2, 0, 1, 0, 11, 0, 2, 0, 2};
    static const uint8_t extended_warning[] = {0, 1, 0, 3, 192, 0, 0};
    const uint8_t *due = lab ? fewer : again;
    uint32_t octets = lab ? sizeof fewer : sizeof again;

    memset(&warning, 0xEE, sizeof warning);
    expect("warning read, no room", warning_read(lab, stop_warning, sizeof stop_warning, NULL, 0), M3AP_NO_ROOM, 0, 0);
    expect("warning read, room of 2661", warning_read(lab, stop_warning, sizeof stop_warning, &warning, sizeof warning - 1), M3AP_NO_ROOM, 0, 0);
    expect("warning read, extension", warning_read(lab, extended_warning, sizeof extended_warning, &warning, sizeof warning), M3AP_EXTENSION, 4, 0);
    expect("warning read, cut", warning_read(lab, stop_warning, sizeof stop_warning - 1, &warning, sizeof warning), M3AP_FAULT, 3, 0);
    expect("warning read, no message", warning_read(lab, NULL, 0, &warning, sizeof warning), M3AP_FAULT, 0, 0);
    expect("warning read, not ours", warning_read(lab, reset, sizeof reset, &warning, sizeof warning), M3AP_NO_REQUEST, 0, 0);
    expect("warning read, too long", warning_read(lab, message, 8193, NULL, 0), M3AP_TOO_LONG, 0, 0);
    for (size_t i = 0; i < sizeof warning; i++)
        expect_octets("warning read, room that is kept", (const uint8_t *)&warning + i, (const uint8_t[]){0xEE}, 1);

    expect("warning read", warning_read(lab, stop_warning, sizeof stop_warning, &warning, sizeof warning), M3AP_CARRIED_OUT, 0, SBCAP_RECORD_OCTETS);
    expect_octets("warning read, slots", (const uint8_t *)&warning, slots, sizeof slots);
    expect_octets("warning read, a carried value", &warning.slots[SBCAP_REQUEST_OMC_ID].there, lab ? (const uint8_t[8]){0} : omc, sizeof omc);

    memset(room, 0xEE, sizeof room);
    expect("warning write, no room", rewritten(lab, sizeof warning, NULL, 0), M3AP_NO_ROOM, 0, 0);
    expect("warning write, an octet short", rewritten(lab, sizeof warning, room, octets - 1), M3AP_NO_ROOM, 0, 0);
    expect("warning write, no record", rewritten(lab, 0, room, sizeof room), M3AP_NOT_WRITTEN, 0, 0);
    expect("warning write, record cut", rewritten(lab, sizeof warning - 1, room, sizeof room), M3AP_NOT_WRITTEN, 0, 0);
    /* An octet where M3AP has items; a message that there is not; a value that lies nowhere, for which the lab profile has no row. */
    warning.no_items[1537] = 1;
    expect("warning write, items", rewritten(lab, sizeof warning, room, sizeof room), M3AP_NOT_WRITTEN, 0, 0);
    warning.no_items[1537] = 0;
    warning.message = 4;
    expect("warning write, no message", rewritten(lab, sizeof warning, room, sizeof room), M3AP_NOT_WRITTEN, 0, 0);
    warning.message = SBCAP_STOP_WARNING_REQUEST;
    warning.slots[SBCAP_REQUEST_STOP_ALL_INDICATOR].there = 1;
    expect("warning write, no value", rewritten(lab, sizeof warning, room, sizeof room), M3AP_NOT_WRITTEN, 0, 0);
    warning.slots[SBCAP_REQUEST_STOP_ALL_INDICATOR].there = 0;
    expect_octets("warning write, room that is kept", room, (const uint8_t[]){0xEE, 0xEE}, 2);
    expect("warning write", rewritten(lab, sizeof warning, room, sizeof room), M3AP_CARRIED_OUT, 0, octets);
    expect_octets("warning write", room, due, octets);
    expect_octets("warning write, behind it", room + octets, (const uint8_t[]){0xEE}, 1);
}

/* Stop-Warning Response with a list of 256 entries, of zeros: the longest that a record has. */
static void long_warning(int lab)
{
    static const uint8_t front[] = {32, 1, 0, 131, 28, 0, 0, 4, 0, 5, 0, 2, 0, 1, 0, 11, 0, 2, 0, 2, 0, 1, 0, 1, 0, 0, 2, 64, 131, 3, 8, 255};
    static uint8_t response[sizeof front + 1 + 3 * 256];

    memcpy(response, front, sizeof front);
    expect("warning read, 256 entries", warning_read(lab, response, sizeof response, &warning, sizeof warning), M3AP_CARRIED_OUT, 0, SBCAP_RECORD_OCTETS);
    expect_octets("warning read, 256 entries", warning.entry_count, (const uint8_t[]){1, 0}, 2);
    expect("warning write, 256 entries", warning_written(lab, &warning, sizeof warning, NULL, 0, room, sizeof response), M3AP_CARRIED_OUT, 0, sizeof response);
    expect_octets("warning write, 256 entries", room, response, sizeof response);
}

static void count_edges(void)
{
    for (unsigned i = 0; i < 257; i++)
        run[i] = (struct m3ap_association){(uint16_t)i, (uint16_t)(i * 257), {{0, 0, 0}, {0, 0, 0}}, false, 0, 0};
    if (counted(256).count != 256 || counted(257).answer != M3AP_NO_UNIT) {
        printf("count: another answer\n");
        wrong = 1;
    }
}

/* All of it but the pad, which says nothing. */
static bool is_zero(const struct m3ap_association *a)
{
    static const struct m3ap_tmgi zero;
    return a->mme == 0 && a->mce == 0 && memcmp(&a->tmgi, &zero, sizeof zero) == 0 && !a->has_session && a->session == 0 && a->link == 0;
}

/* What is said of a unit with the associations 1 to held, of which view_edges has the starts, or of octets that are none. */
static void expect_view(const char *what, const uint8_t *u, size_t u_len, uint32_t answer, uint32_t held)
{
    /* The last, and none: behind it, and where the number would be one of a row if it were cut. */
    const uint32_t ks[] = {held - 1, held, 256, 65536, UINT32_MAX};
    struct m3ap_counted c = counted_in(u, u_len, (struct m3ap_tmgi){{0, 0, 0}, {0, 0, 0}});
    struct m3ap_marks m = marks(u, u_len);
    uint32_t good = answer == M3AP_CARRIED_OUT;

    for (size_t i = 0; i < sizeof ks / sizeof *ks; i++) {
        struct m3ap_row r = row(u, u_len, ks[i]);
        const struct m3ap_association *a = &r.association;
        bool as_due = ks[i] < held ? a->mme == held && a->mce == 1000 + held && a->has_session && a->session == 7 && a->link == 0 : is_zero(a);
        if (r.answer == answer && r.held == held && as_due)
            continue;
        printf("%s: another row %u\n", what, (unsigned)ks[i]);
        wrong = 1;
    }
    if (c.answer != answer || c.count != held) {
        printf("%s: another count\n", what);
        wrong = 1;
    }
    if (m.answer != answer || m.held != held || m.held_1 != 0 || m.open != 0 || m.open_1 != 0 || m.edition != 18 * good || m.rooms != 256 * good ||
        m.next != 0 || m.settings != 0) {
        printf("%s: other marks\n", what);
        wrong = 1;
    }
}

static void view_edges(void)
{
    /* START REQUEST with an MME identity, a TMGI of zeros, a Session Identity and carried values of one octet. */
    static uint8_t start[] = {0, 0, 0, 50, 0, 0, 8, 0, 0, 0, 2, 0, 0, 0, 2, 0, 7, 0, 0, 0, 0, 0, 0, 0, 0, 3, 64, 1, 7, 0, 4, 0, 1, 1,
                              0, 5, 0, 1, 1, 0, 6, 0, 1, 1, 0, 16, 0, 1, 1, 0, 7, 0, 1, 1};
    static uint8_t other[M3AP_UNIT_OCTETS];

    expect_view("no unit", NULL, 0, M3AP_NO_UNIT, 0);
    expect_view("fresh unit", other, sizeof other, M3AP_CARRIED_OUT, 0);
    for (unsigned k = 1; k <= 256; k++) {
        start[11] = (uint8_t)(k >> 8);
        start[12] = (uint8_t)k;
        expect("start", called(other, sizeof other, start, sizeof start, (uint16_t)(1000 + k), room, sizeof room), M3AP_CARRIED_OUT, 0, 19);
        if (k < 3 || k > 254)
            expect_view("unit", other, sizeof other, M3AP_CARRIED_OUT, k);
    }
    setup_edges(other);
    expect_view("unit after a setup that failed", other, sizeof other, M3AP_CARRIED_OUT, 256);
    expect_view("unit cut", other, sizeof other - 1, M3AP_NO_UNIT, 0);
    expect_view("table alone", other, 3074, M3AP_NO_UNIT, 0);
    other[3087] = 1;
    expect_view("a mark set", other, sizeof other, M3AP_NO_UNIT, 0);
}

static void expect_stack(const char *what, size_t deepest)
{
    if (deepest <= M3AP_STACK_OCTETS)
        return;
    printf("%s: %zu octets of stack, the header says at most %d\n", what, deepest, M3AP_STACK_OCTETS);
    wrong = 1;
}

static void *play(void *unused)
{
    uint8_t head[4];

    (void)unused;
    call_edges();
    record_edges();
    setup_edges(unit);
    for (int lab = 0; lab < 2; lab++) {
        warning_edges(lab);
        long_warning(lab);
    }
    count_edges();
    view_edges();
    while (fread(head, 1, 4, stdin) == 4) {
        size_t length = head[2] * 256u + head[3];
        if (fread(message, 1, length, stdin) < length)
            break;
        called(unit, sizeof unit, message, length, (uint16_t)(head[0] * 256u + head[1]), room, sizeof room);
        if (was_read(message, length, &record, sizeof record).octets != 0)
            written(&record, sizeof record, message, length, room, sizeof room);
        shown(message, length, NULL, 0);
        for (int lab = 0; lab < 2; lab++)
            if (warning_read(lab, message, length, &warning, sizeof warning).octets != 0)
                warning_written(lab, &warning, sizeof warning, message, length, room, sizeof room);
    }
    return NULL;
}

int main(void)
{
    pthread_t thread;
    pthread_attr_t how;

    if (m3ap_version() != M3AP_VERSION || sizeof(struct m3ap_answer) != 16 || sizeof(struct m3ap_part) != 12 || sizeof(struct m3ap_record) != M3AP_RECORD_OCTETS ||
        sizeof(struct sbcap_record) != SBCAP_RECORD_OCTETS || sizeof(struct m3ap_association) != 14 || sizeof(struct m3ap_row) != 24 ||
        sizeof(struct m3ap_marks) != 36 || pthread_attr_init(&how) != 0 || pthread_attr_setstack(&how, stack, sizeof stack) != 0 ||
        pthread_create(&thread, &how, play, NULL) != 0 || pthread_join(thread, NULL) != 0)
        return 2;
    printf("stack: call=%zu read=%zu write=%zu setup=%zu shown=%zu count=%zu row=%zu count_in=%zu marks=%zu\n", deepest_call, deepest_read, deepest_write,
           deepest_setup, deepest_shown, deepest_count, deepest_row, deepest_count_in, deepest_marks);
    printf("stack: sbcap_read=%zu sbcap_read_lab=%zu sbcap_write=%zu sbcap_write_lab=%zu\n", deepest_warning_read[0], deepest_warning_read[1],
           deepest_warning_write[0], deepest_warning_write[1]);
    expect_stack("call", deepest_call);
    expect_stack("read", deepest_read);
    expect_stack("write", deepest_write);
    expect_stack("setup", deepest_setup);
    expect_stack("shown", deepest_shown);
    expect_stack("count", deepest_count);
    expect_stack("row", deepest_row);
    expect_stack("count_in", deepest_count_in);
    expect_stack("marks", deepest_marks);
    expect_stack("sbcap_read", deepest_warning_read[0]);
    expect_stack("sbcap_read_lab", deepest_warning_read[1]);
    expect_stack("sbcap_write", deepest_warning_write[0]);
    expect_stack("sbcap_write_lab", deepest_warning_write[1]);
    return wrong;
}
