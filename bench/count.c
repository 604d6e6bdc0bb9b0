/* One call of the codec, of plain C or of a bare loop on 4,096 points, chosen by its number: count N WHAT, and 100 more where another tree's is meant (BESIDE).
 * What was needed for it is done whatever WHAT is, so that the instructions of WHAT are those of this program less those of WHAT 0. WHAT 16 makes every call and
 * compares every answer. */
#include "made.h"
#include "plain.h"
#include "sides.h"

enum { SQUARE = 64, POINTS = SQUARE * SQUARE, MESSAGE = 65536, START = 8 + 28 + 32 + 11 };

static uint32_t values[POINTS], gaps[POINTS], back[POINTS], held[POINTS];
static uint8_t marks[POINTS], half[POINTS], marks_back[POINTS];
static int32_t numbers[POINTS];
static uint8_t message[MESSAGE], sparse[MESSAGE], other[MESSAGE], data[MESSAGE];

/* the answer is right; then what a call may have filled is spoilt, so that the next to be compared must fill it itself */
static void compared(int good, const char *what)
{
    must(good, what);
    memset(back, 1, sizeof back);
    memset(marks_back, 2, sizeof marks_back);
    memset(data, 1, sizeof data);
}

static int same(const uint8_t *out, const uint8_t *those, size_t bits)
{
    return memcmp(out, those, (bits + 7) / 8) == 0;
}

int main(int argc, char **argv)
{
    if (argc != 3)
        return 2;
    unsigned n = (unsigned)atoi(argv[1]), what = (unsigned)atoi(argv[2]) % 100, which = (unsigned)atoi(argv[2]) / 100;
    if (n < 1 || n > 24 || which >= SIDES)
        return 2;
    const Side *side = &sides[which];
    uint8_t bits = (uint8_t)n;
    uint32_t mask = (1u << n) - 1, most = mask < 16777214 ? mask : 16777214;
    int32_t least = n == 24 ? -8388607 : -1000;
    Grib1Form form = form_of(GRIB1_WITHOUT, n, SQUARE, SQUARE), carried = form_of(GRIB1_CARRIED, n, SQUARE, SQUARE);
    make_pds();
    pds[PARTS] = WITH_GDS;
    for (size_t i = 0; i < POINTS; i++) {
        values[i] = some() & mask;
        marks[i] = 1;
        half[i] = (uint8_t)(some() >> 7 & 1);
        gaps[i] = half[i] ? values[i] : 0;
        numbers[i] = (int32_t)(values[i] < most ? values[i] : most) + least;
    }
    numbers[0] = least;
    Grib1Written whole = grib1_write(pds, sizeof pds, form, 0, 0, 0, pds, 0, values, POINTS, marks, POINTS, message, MESSAGE);
    Grib1Written packed = grib1_pack(pds, sizeof pds, form, 0, pds, 0, numbers, POINTS, marks, POINTS, 0, other, MESSAGE);
    pds[PARTS] = WITH_GDS + WITH_BMS;
    Grib1Written parted = grib1_write(pds, sizeof pds, carried, 0, 0, 0, pds, 0, gaps, POINTS, half, POINTS, sparse, MESSAGE);
    if (whole.reply || packed.reply || parted.reply)
        return 3;
    Grib1Header h = grib1_header(sparse, parted.len, 0, pds, 0);
    const uint8_t *gathered = sparse + h.bds.start + 11;
    if (what == 16) {
        plain_fetch(message + START, n, back, POINTS);
        compared(memcmp(back, values, sizeof values) == 0, "plain C's reading");
        plain_accumulate(values, n, data, POINTS);
        compared(same(data, message + START, POINTS * n), "plain C's writing");
        compared(plain_check(other + START, n, numbers, POINTS, least, 0), "plain C's check");
        plain_pack(numbers, n, data, POINTS);
        compared(same(data, other + START, POINTS * n), "plain C's packing");
        plain_two_stage(gathered, n, sparse + h.bms.start + 6, held, back, marks_back, POINTS);
        compared(memcmp(back, gaps, sizeof gaps) == 0 && memcmp(marks_back, half, sizeof half) == 0, "plain C's reading in two stages");
        plain_gather(gaps, half, n, data, POINTS);
        compared(same(data, gathered, h.present * n), "plain C's writing of what is present");
        for (side = sides; side < sides + SIDES; side++) {
            Grib1Header r = side->header(message, whole.len, 0, pds, 0);
            compared(r.reply == 0 && r.points == POINTS && r.present == POINTS && r.bds.start + 11 == START && r.bits == n, "a header");
            r = side->read(message, whole.len, 0, pds, 0, back, POINTS, marks_back, POINTS);
            compared(r.reply == 0 && memcmp(back, values, sizeof values) == 0 && memcmp(marks_back, marks, sizeof marks) == 0, "a message read");
            r = side->read(sparse, parted.len, 0, pds, 0, back, POINTS, marks_back, POINTS);
            compared(r.reply == 0 && memcmp(back, gaps, sizeof gaps) == 0 && memcmp(marks_back, half, sizeof half) == 0, "a message with a bitmap read");
            compared(side->bare_unpack(message, whole.len, START * 8, bits, back, POINTS, POINTS) && memcmp(back, values, sizeof values) == 0, "a bare loop's reading");
            compared(side->bare_pack(values, POINTS, bits, data, MESSAGE) && same(data, message + START, POINTS * n), "a bare loop's writing");
            compared(side->check(other, packed.len, 0, pds, 0, numbers, POINTS, marks, POINTS, 0).reply == 0, "a check");
            Grib1Written w = side->write(pds, sizeof pds, carried, 0, 0, 0, pds, 0, gaps, POINTS, half, POINTS, data, MESSAGE);
            compared(w.reply == 0 && w.len == parted.len && same(data, sparse, w.len * 8), "a message with a bitmap written");
            pds[PARTS] = WITH_GDS;
            w = side->write(pds, sizeof pds, form, 0, 0, 0, pds, 0, values, POINTS, marks, POINTS, data, MESSAGE);
            compared(w.reply == 0 && w.len == whole.len && same(data, message, w.len * 8), "a message written");
            w = side->pack(pds, sizeof pds, form, 0, pds, 0, numbers, POINTS, marks, POINTS, 0, data, MESSAGE);
            compared(w.reply == 0 && w.len == packed.len && same(data, other, w.len * 8), "a message packed");
            pds[PARTS] = WITH_GDS + WITH_BMS;
        }
        return 0;
    }
    switch (what) {
    case 0: return 0;
    case 1: return side->read(message, whole.len, 0, pds, 0, back, POINTS, marks_back, POINTS).reply != 0;
    case 2: plain_fetch(message + START, n, back, POINTS); return 0;
    case 3: return !side->bare_unpack(message, whole.len, START * 8, bits, back, POINTS, POINTS);
    case 4: pds[PARTS] = WITH_GDS; return side->write(pds, sizeof pds, form, 0, 0, 0, pds, 0, values, POINTS, marks, POINTS, data, MESSAGE).reply != 0;
    case 5: plain_accumulate(values, n, data, POINTS); return 0;
    case 6: return !side->bare_pack(values, POINTS, bits, data, MESSAGE);
    case 7: return side->check(other, packed.len, 0, pds, 0, numbers, POINTS, marks, POINTS, 0).reply != 0;
    case 8: return !plain_check(other + START, n, numbers, POINTS, least, 0);
    case 9: pds[PARTS] = WITH_GDS; return side->pack(pds, sizeof pds, form, 0, pds, 0, numbers, POINTS, marks, POINTS, 0, data, MESSAGE).reply != 0;
    case 10: plain_pack(numbers, n, data, POINTS); return 0;
    case 11: return side->read(sparse, parted.len, 0, pds, 0, back, POINTS, marks_back, POINTS).reply != 0;
    case 12: plain_two_stage(gathered, n, sparse + h.bms.start + 6, held, back, marks_back, POINTS); return 0;
    case 13: return side->write(pds, sizeof pds, carried, 0, 0, 0, pds, 0, gaps, POINTS, half, POINTS, data, MESSAGE).reply != 0;
    case 14: plain_gather(gaps, half, n, data, POINTS); return 0;
    case 15: return side->header(message, whole.len, 0, pds, 0).reply != 0;
    default: return 2;
    }
}
