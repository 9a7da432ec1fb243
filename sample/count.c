/*
 * The console's count in use: what it answers for runs of associations, and for units. Ends in 'count: ok', or says what differs.
 */
#include "m3ap.h"

#include <stdio.h>

static struct m3ap_association run[257];
static uint8_t unit[M3AP_UNIT_OCTETS + 1];
static int wrong;

static void same(const char *what, struct m3ap_counted c, unsigned answer, size_t count)
{
    if (c.answer == answer && c.count == count)
        return;
    printf("count: %s: answer=%u count=%zu\n", what, (unsigned)c.answer, c.count);
    wrong = 1;
}

static void expect(const char *what, size_t length, struct m3ap_tmgi tmgi, unsigned answer, size_t count)
{
    same(what, m3ap_count(length == 0 ? NULL : run, length, tmgi), answer, count);
}

static void expect_in(const char *what, size_t length, struct m3ap_tmgi tmgi, unsigned answer, size_t count)
{
    same(what, m3ap_count_in(length == 0 ? NULL : unit, length, tmgi), answer, count);
}

/* Starts an association on the unit: a START REQUEST with what it must have, of which the carried values are one octet each. */
static void start(unsigned mme, unsigned mce, struct m3ap_tmgi t)
{
    static uint8_t room[M3AP_MESSAGE_OCTETS];
    const uint8_t message[] = {
        0, 0, 0, 45, 0, 0, 7,
        0, 0, 0, 2, (uint8_t)(mme >> 8), (uint8_t)mme,
        0, 2, 0, 7, 0, t.plmn[0], t.plmn[1], t.plmn[2], t.service[0], t.service[1], t.service[2],
        0, 4, 0, 1, 1, 0, 5, 0, 1, 1, 0, 6, 0, 1, 1, 0, 16, 0, 1, 1, 0, 7, 0, 1, 1,
    };
    struct m3ap_answer a = m3ap_call(unit, M3AP_UNIT_OCTETS, message, sizeof message, (uint16_t)mce, room, sizeof room);
    if (a.answer == M3AP_CARRIED_OUT)
        return;
    printf("count: start of %u: answer=%u place=%u\n", mme, (unsigned)a.answer, (unsigned)a.place);
    wrong = 1;
}

int main(void)
{
    struct m3ap_tmgi one = {{0x62, 0xf2, 0x10}, {0, 0, 1}};
    struct m3ap_tmgi other = {{0x62, 0xf2, 0x11}, {0, 0, 1}};
    struct m3ap_tmgi zero = {{0, 0, 0}, {0, 0, 0}};

    /* The two series run against each other, so equal figures meet in them, which means nothing. */
    for (unsigned i = 0; i < 257; i++)
        run[i] = (struct m3ap_association){(uint16_t)i, (uint16_t)(300 - i), i % 3 == 0 ? one : other, i % 2 == 0, (uint8_t)i, 0};
    expect("no association", 0, one, 0, 0);
    expect("one", 1, one, 0, 1);
    expect("255", 255, one, 0, 85);
    expect("256", 256, one, 0, 86);
    expect("256, another TMGI", 256, other, 0, 170);
    expect("257", 257, one, M3AP_NO_UNIT, 0);
    run[255].mme = 7;
    expect("an MME identity twice", 256, one, M3AP_NO_UNIT, 0);
    expect("behind the run", 255, one, 0, 85);
    run[255].mme = 255;
    run[0].mce = 299;
    expect("an MCE identity twice", 256, one, M3AP_NO_UNIT, 0);
    run[0].mce = 300;
    run[255].link = 1;
    expect("a link that there is not", 256, one, M3AP_NO_UNIT, 0);
    expect("behind the run", 255, one, 0, 85);

    /* The same associations on a unit, by calls. */
    expect_in("no unit", 0, zero, M3AP_NO_UNIT, 0);
    expect_in("fresh unit", M3AP_UNIT_OCTETS, zero, 0, 0);
    for (unsigned i = 0; i < 256; i++) {
        start(i, 300 - i, i % 3 == 0 ? one : other);
        if (i == 0)
            expect_in("unit of one", M3AP_UNIT_OCTETS, one, 0, 1);
        if (i == 254)
            expect_in("unit of 255", M3AP_UNIT_OCTETS, one, 0, 85);
    }
    expect_in("unit of 256", M3AP_UNIT_OCTETS, one, 0, 86);
    expect_in("unit of 256, another TMGI", M3AP_UNIT_OCTETS, other, 0, 170);
    expect_in("unit of 256, a TMGI that is not held", M3AP_UNIT_OCTETS, zero, 0, 0);
    expect_in("unit cut", M3AP_UNIT_OCTETS - 1, one, M3AP_NO_UNIT, 0);
    expect_in("unit and an octet", M3AP_UNIT_OCTETS + 1, one, M3AP_NO_UNIT, 0);
    unit[M3AP_UNIT_OCTETS - 1] = 1;
    expect_in("octets of no unit", M3AP_UNIT_OCTETS, one, M3AP_NO_UNIT, 0);
    if (!wrong)
        puts("count: ok");
    return wrong;
}
