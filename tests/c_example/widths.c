/* Values of every width, taken one after another: messages whose data are laid bit by bit here, of every N from 0 to 24
 * and of so many points that the values end at every place of a turn and about the end of a block, with every point
 * present and with a bitmap. Reading gives each X at its point, and so does the cursor; the check says yes, and 17 as
 * soon as one present number is a step off. A greater N is refused. Prints the lines of what differs, and ends with 1
 * where any does. */
#include <string.h>

#define TEST "widths.c"
#include "by_index.h"

enum { MOST = 520, AFTER = 3, ROOM = 2048, PDS = 28, GDS = 32, LEAST = -8388606, GREATEST = 16777212 };

static uint8_t message[ROOM], none[1];
static uint8_t marks[MOST], marks_read[MOST + AFTER];
static uint32_t values[MOST], values_read[MOST + AFTER];
static int32_t numbers[MOST];
static size_t length;

static uint32_t state = 1;
static uint32_t some(void)
{
    state ^= state << 13;
    state ^= state >> 17;
    state ^= state << 5;
    return state;
}

/* the message goes on with a number of so many octets */
static void lay(uint32_t number, int octets)
{
    while (octets-- > 0)
        message[length++] = (uint8_t)(number >> 8 * octets);
}

/* bit k after a place */
static void lay_bit(size_t place, size_t k, uint32_t bit)
{
    uint8_t one = (uint8_t)(128 >> k % 8);

    message[place + k / 8] = (uint8_t)((message[place + k / 8] & ~one) | (bit ? one : 0));
}

static void lay_head(uint32_t points, int bitmap)
{
    length = 0;
    memcpy(message, "GRIB", 4);
    length = 8;
    lay(PDS, 3);
    lay(1, 1);
    lay(7, 1);
    lay(1, 1);
    lay(255, 1);
    lay(bitmap ? 192 : 128, 1);
    lay(33, 1);
    lay(1, 1);
    lay(0, 2);
    lay(1, 1); /* 2001, the first of January */
    lay(1, 1);
    lay(1, 1);
    lay(0, 2);
    lay(1, 1);
    lay(0, 6);
    lay(21, 1);
    lay(0, 3);
    lay(GDS, 3);
    lay(0, 1);
    lay(255, 1);
    lay(0, 1);
    lay(points, 2);
    lay(1, 2);
    lay(0, 6); /* La1 and Lo1 */
    lay(128, 1);
    lay(0, 6);
    lay(1000, 4);
    lay(0, 5);
}

/* the padding of both sections is ones, which nobody takes */
static void lay_bitmap(uint32_t points)
{
    uint32_t octets = (points + 7) / 8 + (points + 7) / 8 % 2;

    lay(6 + octets, 3);
    lay(8 * octets - points, 1);
    lay(0, 2);
    memset(message + length, 255, octets);
    for (uint32_t i = 0; i < points; i++)
        lay_bit(length, i, marks[i]);
    length += octets;
}

static void lay_data(uint32_t points, uint32_t present, uint32_t bits)
{
    uint32_t t = present * bits, octets = (t + 7) / 8, k = 0;

    octets = t == 0 ? 1 : octets + (11 + octets) % 2;
    lay(11 + octets, 3);
    lay(8 * octets - t, 1);
    lay(0, 2);
    lay(0xC67FFFFE, 4); /* R is the least number */
    lay(bits, 1);
    memset(message + length, 255, octets);
    for (uint32_t i = 0; i < points; i++)
        for (uint32_t j = 0; marks[i] && j < bits; j++)
            lay_bit(length, k++, values[i] >> (bits - 1 - j) & 1);
    length += octets;
    memcpy(message + length, "7777", 4);
    length += 4;
    message[4] = (uint8_t)(length >> 16);
    message[5] = (uint8_t)(length >> 8);
    message[6] = (uint8_t)length;
    message[7] = 1;
}

static uint32_t checked(uint32_t points)
{
    return grib1_check(message, length, 0, none, 0, numbers, points, marks, points, 0).reply;
}

/* a field of which one in every so many points is absent, or none where that is 0 */
static void field(uint32_t bits, uint32_t points, uint32_t every)
{
    uint32_t present = 0, mask = ((uint32_t)1 << bits) - 1;
    Grib1Header h;

    for (uint32_t i = 0; i < points; i++) {
        marks[i] = every == 0 || some() % every != 0;
        values[i] = marks[i] ? some() & mask : 0;
        values[i] = values[i] < GREATEST ? values[i] : GREATEST;
        numbers[i] = LEAST + (int32_t)values[i];
        present += marks[i];
    }
    lay_head(points, every != 0);
    if (every != 0)
        lay_bitmap(points);
    lay_data(points, present, bits);

    memset(values_read, 90, sizeof values_read);
    memset(marks_read, 90, sizeof marks_read);
    h = grib1_read(message, length, 0, none, 0, values_read, points + AFTER, marks_read, points + AFTER);
    same_reply(__LINE__, h, GRIB1_ACCEPTED, 0, 0);
    same(h.points, points);
    same(h.present, present);
    same(h.bits, bits);
    same(memcmp(values_read, values, points * sizeof *values), 0);
    same(memcmp(marks_read, marks, points), 0);
    for (uint32_t i = points; i < points + AFTER; i++) {
        same(values_read[i], 0x5A5A5A5A);
        same(marks_read[i], 90);
    }

    as_read(__LINE__, message, length, 0, none, 0, points / 64 + 1);

    same(checked(points), GRIB1_ACCEPTED);
    for (uint32_t i = 0; i < points; i++) {
        int32_t step = i % 2 == 0 ? 1 : -1;
        numbers[i] += step;
        same(checked(points), marks[i] ? GRIB1_OUT : GRIB1_ACCEPTED);
        numbers[i] -= step;
    }
}

/* a width over 24 is refused, and changes nothing */
static void too_wide(uint32_t bits)
{
    static uint32_t untouched[MOST];

    field(24, 16, 0);
    lay_head(16, 0);
    lay_data(16, 16, bits);
    memset(untouched, 90, sizeof untouched);
    memset(values_read, 90, sizeof values_read);
    same_refusal(__LINE__, grib1_read(message, length, 0, none, 0, values_read, 16, marks_read, 16), GRIB1_PACKING);
    same(memcmp(values_read, untouched, sizeof untouched), 0);
    same(checked(16), GRIB1_PACKING);
    unanswered(__LINE__, message, length, 0, none, 0, GRIB1_PACKING, 0, 0);
}

int main(void)
{
    static const uint32_t blocks[] = {255, 256, 257, 263, 264, 271, 272, 513};

    for (uint32_t bits = 0; bits <= 24; bits++)
        for (uint32_t every = 0; every <= 3; every += every == 0 ? 2 : 1) {
            for (uint32_t points = 1; points <= 41; points++)
                field(bits, points, every);
            for (size_t k = 0; k < sizeof blocks / sizeof *blocks; k++)
                field(bits, blocks[k], every);
        }
    too_wide(25);
    too_wide(32);
    return differ;
}
