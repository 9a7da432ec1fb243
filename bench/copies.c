/*
 * How many octets the calls copy and set: the archive takes memcpy and memset from here, which count. Writes a Markdown table.
 *     gcc -O2 -fno-builtin -Iinclude bench/copies.c -Ltarget/staticlib -lm3ap -o copies && ./copies
 */
#include "m3ap.h"

#include <stdio.h>

static size_t copies, copied, sets, set;

/* volatile: or the compiler makes a call of memcpy out of the loop. */
void *memcpy(void *to, const void *from, size_t n)
{
    volatile uint8_t *d = to;
    for (size_t i = 0; i < n; i++)
        d[i] = ((const uint8_t *)from)[i];
    copies++;
    copied += n;
    return to;
}

void *memset(void *to, int octet, size_t n)
{
    volatile uint8_t *d = to;
    for (size_t i = 0; i < n; i++)
        d[i] = (uint8_t)octet;
    sets++;
    set += n;
    return to;
}

static uint8_t unit[M3AP_UNIT_OCTETS], room[M3AP_MESSAGE_OCTETS], message[M3AP_MESSAGE_OCTETS];
static struct m3ap_record record;
static size_t length;

static void put(unsigned octet)
{
    message[length++] = (uint8_t)octet;
}

static void put_two(unsigned number)
{
    put(number >> 8);
    put(number & 255);
}

static void element(unsigned id, unsigned criticality, unsigned size)
{
    put_two(id);
    put(criticality << 6);
    if (size < 128)
        put(size);
    else
        put_two(0x8000 | size);
}

/* The frame and the number of elements. Its length is put in at the end, in two octets, so every message here has at least 128. */
static void begin(unsigned code, unsigned elements)
{
    length = 0;
    put(0);
    put(code);
    put(0);
    put_two(0);
    put(0);
    put_two(elements);
}

static void end(void)
{
    size_t inside = length - 5;
    message[3] = (uint8_t)(0x80 | inside >> 8);
    message[4] = (uint8_t)inside;
}

/* As bench measures it: 153 octets. */
static void start(unsigned mme)
{
    static const uint8_t carried[7][2] = {{4, 9}, {5, 3}, {6, 40}, {16, 2}, {7, 18}, {21, 8}, {25, 20}};
    begin(0, 9);
    element(0, 0, 2);
    put_two(mme);
    element(2, 0, 7);
    for (int i = 0; i < 7; i++)
        put(0);
    for (int k = 0; k < 7; k++) {
        element(carried[k][0], carried[k][0] == 21, carried[k][1]);
        for (int i = 0; i < carried[k][1]; i++)
            put(7);
    }
    end();
}

static void reset(unsigned items)
{
    begin(4, 2);
    element(9, 1, 1);
    put(0x42);
    element(13, 0, 2 + 9 * items);
    put(0x40);
    put(items - 1);
    for (unsigned i = 0; i < items; i++) {
        element(14, 0, 5);
        put(0x60);
        put_two(i);
        put_two(i);
    }
    end();
}

/* It carries a value, or it would be too short. */
static void stop(unsigned mme)
{
    begin(1, 3);
    element(0, 0, 2);
    put_two(mme);
    element(1, 0, 2);
    put_two(mme);
    element(22, 1, 120);
    for (int i = 0; i < 120; i++)
        put(7);
    end();
}

static void row(const char *name, unsigned answer, unsigned due)
{
    if (answer != due)
        printf("| %s: answer %u, not %u", name, answer, due);
    else
        printf("| %s", name);
    printf(" | %zu | %zu | %zu | %zu |\n", copies, copied, sets, set);
}

static void count(void)
{
    copies = copied = sets = set = 0;
}

static unsigned call(unsigned offered)
{
    count();
    return m3ap_call(unit, sizeof unit, message, length, (uint16_t)offered, room, sizeof room).answer;
}

int main(void)
{
    printf("| | copies | octets copied | sets | octets set |\n|---|---|---|---|---|\n");
    start(0);
    row("call START REQUEST, 0 held", call(0), 0);
    stop(0);
    row("call STOP REQUEST, 1 held", call(0), 0);
    reset(16);
    row("call RESET of 16 items, 0 held", call(0), 0);
    for (unsigned i = 0; i < 256; i++) {
        start(i);
        call(i);
    }
    stop(300);
    row("call STOP REQUEST that is not held, 256 held", call(0), M3AP_PAIR_NOT_HELD);
    count();
    row("row 255, 256 held", m3ap_row(unit, sizeof unit, 255).answer, 0);
    count();
    row("count by TMGI, 256 held", m3ap_count_in(unit, sizeof unit, (struct m3ap_tmgi){{0, 0, 0}, {0, 0, 0}}).answer, 0);
    count();
    row("marks, 256 held", m3ap_marks(unit, sizeof unit).answer, 0);
    reset(256);
    row("call RESET of 256 items, 256 held", call(0), 0);
    start(0);
    count();
    row("read START REQUEST", m3ap_read(message, length, &record, sizeof record).answer, 0);
    count();
    row("write START REQUEST", m3ap_write(&record, sizeof record, message, length, room, sizeof room).answer, 0);
    reset(256);
    count();
    row("read RESET of 256 items", m3ap_read(message, length, &record, sizeof record).answer, 0);
    count();
    row("write RESET of 256 items", m3ap_write(&record, sizeof record, message, length, room, sizeof room).answer, 0);
    return 0;
}
