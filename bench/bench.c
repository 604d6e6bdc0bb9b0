/* Times the codec through its C face, its two bare loops, and plain C, and where BESIDE is defined another tree's codec and loops too: bench [ROUNDS [N..]].
 * Every answer is compared before it is timed. */
#include "timing.h"

#include "made.h"
#include "plain.h"
#include "sides.h"

enum { MOST = 65536, MESSAGE = 262144, WIDEST = 24 };

static uint32_t values[MOST], back[MOST], held[MOST];
static uint8_t marks[MOST], marks_back[MOST], bitmap[MOST / 8];
static int32_t numbers[MOST];
static uint8_t message[MESSAGE], other[MESSAGE], data[MESSAGE];
static int rounds = 60;

/* the best times of a row, a point: 0 where nothing was timed */
static double codec[SIDES], bare[SIDES], plain, slow;

static int fresh(void)
{
    for (int s = 0; s < SIDES; s++)
        codec[s] = bare[s] = 0;
    plain = slow = 0;
    return 0;
}

/* As many calls as have 65,536 points together, and the time of a point. */
#define TIME(best, statement) TIMED(best, MOST / points, MOST, statement)

/* A round takes all of a row in turn, so that a slow phase of the machine hits all alike. */
#define ROUNDS for (int round = fresh(); round < rounds; round++)

static void ratio(double a, double b)
{
    if (a > 0 && b > 0)
        printf(" %6.2f | %5.2f |", b, a / b);
    else
        printf("        |       |");
}

static void line(const char *what, unsigned n, size_t points, double c)
{
    printf("| %-22s | %2u | %6zu | %6.2f |", what, n, points, codec[0]);
    ratio(codec[0], c);
    ratio(codec[0], bare[0]);
    if (SIDES > 1) {
        ratio(codec[0], codec[SIDES - 1]);
        ratio(bare[0], bare[SIDES - 1]);
    }
    printf("\n");
}

/* what a side reads of `message`, and that it writes the same */
static void reads(const Side *side, uint32_t len, uint32_t start, size_t points, size_t present)
{
    memset(back, 1, points * 4);
    memset(marks_back, 2, points);
    Grib1Header h = side->read(message, len, 0, pds, 0, back, points, marks_back, points);
    must(h.reply == 0 && h.points == points && h.present == present && h.bds.start == start, "a header");
    must(memcmp(back, values, points * 4) == 0 && memcmp(marks_back, marks, points) == 0, "a message read");
}

static void writes(const Side *side, Grib1Form form, uint32_t len, size_t points)
{
    memset(other, 1, len);
    Grib1Written w = side->write(pds, sizeof pds, form, 0, 0, 0, pds, 0, values, points, marks, points, other, MESSAGE);
    must(w.reply == 0 && w.len == len && memcmp(other, message, len) == 0, "a message written again");
}

/* What stands in `back` or in `data` is right; then it is spoilt, so that the next to be compared must fill it itself. */
static void fetched(const uint32_t *those, const char *what, size_t points)
{
    must(memcmp(back, those, points * 4) == 0, what);
    memset(back, 1, points * 4);
}

static void put(const uint8_t *those, size_t bits, const char *what)
{
    must(memcmp(data, those, (bits + 7) / 8) == 0, what);
    memset(data, 1, sizeof data);
}

/* every: the rows of encode, pack and C bit by bit too */
static void one(unsigned n, uint16_t ni, uint16_t nj, int every)
{
    size_t points = (size_t)ni * nj, m = 0;
    uint32_t mask = (1u << n) - 1, most = mask < 16777214 ? mask : 16777214, start;
    int32_t least = n == 24 ? -8388607 : -1000; /* source numbers lie within 8,388,607 */
    Grib1Form without = form_of(GRIB1_WITHOUT, n, ni, nj), carried = form_of(GRIB1_CARRIED, n, ni, nj);
    Grib1Written w, v;
    const uint8_t *x; /* the values' octets */

    /* every point present */
    pds[PARTS] = WITH_GDS;
    for (size_t i = 0; i < points; i++) {
        values[i] = some() & mask;
        marks[i] = 1;
        numbers[i] = (int32_t)(values[i] < most ? values[i] : most) + least;
    }
    /* so that R is the least and E is 0 */
    values[0] = 0;
    numbers[0] = least;
    w = grib1_write(pds, sizeof pds, without, 0, 0, 0, pds, 0, values, points, marks, points, message, MESSAGE);
    must(w.reply == 0, "the message written");
    start = grib1_header(message, w.len, 0, pds, 0).bds.start;
    x = message + start + 11;
    for (int s = 0; s < SIDES; s++) {
        reads(&sides[s], w.len, start, points, points);
        memset(back, 1, points * 4);
        must(sides[s].bare_unpack(message, w.len, (start + 11) * 8, (uint8_t)n, back, points, (uint32_t)points), "a bare loop's answer");
        fetched(values, "a bare loop's reading", points);
    }
    plain_fetch(x, n, back, points);
    fetched(values, "plain C's reading", points);
    plain_bit_by_bit(x, n, back, points);
    fetched(values, "plain C's reading bit by bit", points);
    ROUNDS {
        if (every)
            TIME(slow, plain_bit_by_bit(x, n, back, points));
        TIME(plain, plain_fetch(x, n, back, points));
        EACH_SIDE {
            TIME(bare[s], sides[s].bare_unpack(message, w.len, (start + 11) * 8, (uint8_t)n, back, points, (uint32_t)points));
            TIME(codec[s], sides[s].read(message, w.len, 0, pds, 0, back, points, marks_back, points));
        }
    }
    line("decode", n, points, plain);
    if (every) {
        for (int s = 0; s < SIDES; s++)
            bare[s] = 0;
        line("decode, bit by bit C", n, points, slow);

        /* encode: the message again, into another place */
        for (int s = 0; s < SIDES; s++) {
            writes(&sides[s], without, w.len, points);
            must(sides[s].bare_pack(values, points, (uint8_t)n, data, MESSAGE), "a bare loop's answer");
            put(x, points * n, "a bare loop's writing");
        }
        plain_accumulate(values, n, data, points);
        put(x, points * n, "plain C's writing");
        ROUNDS {
            TIME(plain, plain_accumulate(values, n, data, points));
            EACH_SIDE {
                TIME(bare[s], sides[s].bare_pack(values, points, (uint8_t)n, data, MESSAGE));
                TIME(codec[s], sides[s].write(pds, sizeof pds, without, 0, 0, 0, pds, 0, values, points, marks, points, other, MESSAGE));
            }
        }
        line("encode", n, points, plain);
    }

    /* pack and check the source */
    v = grib1_pack(pds, sizeof pds, without, 0, pds, 0, numbers, points, marks, points, 0, message, MESSAGE);
    must(v.reply == 0, "the message packed");
    for (int s = 0; s < SIDES; s++) {
        memset(other, 1, v.len);
        must(sides[s].pack(pds, sizeof pds, without, 0, pds, 0, numbers, points, marks, points, 0, other, MESSAGE).len == v.len && memcmp(other, message, v.len) == 0, "a message packed again");
        must(sides[s].check(message, v.len, 0, pds, 0, numbers, points, marks, points, 0).reply == 0, "a check");
    }
    must(plain_check(x, n, numbers, points, least, 0), "plain C's check");
    ROUNDS {
        TIME(plain, plain_check(x, n, numbers, points, least, 0));
        EACH_SIDE
            TIME(codec[s], sides[s].check(message, v.len, 0, pds, 0, numbers, points, marks, points, 0));
    }
    line("check", n, points, plain);
    if (every) {
        plain_pack(numbers, n, data, points);
        put(x, points * n, "plain C's packing");
        ROUNDS {
            TIME(plain, plain_pack(numbers, n, data, points));
            EACH_SIDE
                TIME(codec[s], sides[s].pack(pds, sizeof pds, without, 0, pds, 0, numbers, points, marks, points, 0, other, MESSAGE));
        }
        line("pack", n, points, plain);
    }

    /* half the points absent */
    pds[PARTS] = WITH_GDS + WITH_BMS;
    memset(bitmap, 0, sizeof bitmap);
    for (size_t i = 0; i < points; i++) {
        marks[i] = some() >> 9 & 1;
        values[i] *= marks[i];
        bitmap[i / 8] |= (uint8_t)(marks[i] << (7 - i % 8));
        m += marks[i];
    }
    w = grib1_write(pds, sizeof pds, carried, 0, 0, 0, pds, 0, values, points, marks, points, message, MESSAGE);
    must(w.reply == 0, "the message with a bitmap written");
    start = grib1_header(message, w.len, 0, pds, 0).bds.start;
    x = message + start + 11;
    for (int s = 0; s < SIDES; s++)
        reads(&sides[s], w.len, start, points, m);
    memset(back, 1, points * 4);
    memset(marks_back, 2, points);
    plain_two_stage(x, n, bitmap, held, back, marks_back, points);
    fetched(values, "plain C's reading in two stages", points);
    must(memcmp(marks_back, marks, points) == 0, "plain C's marks");
    ROUNDS {
        TIME(plain, plain_two_stage(x, n, bitmap, held, back, marks_back, points));
        EACH_SIDE
            TIME(codec[s], sides[s].read(message, w.len, 0, pds, 0, back, points, marks_back, points));
    }
    line("decode, half absent", n, points, plain);
    if (every) {
        for (int s = 0; s < SIDES; s++)
            writes(&sides[s], carried, w.len, points);
        plain_gather(values, marks, n, data, points);
        put(x, m * n, "plain C's writing of what is present");
        ROUNDS {
            TIME(plain, plain_gather(values, marks, n, data, points));
            EACH_SIDE
                TIME(codec[s], sides[s].write(pds, sizeof pds, carried, 0, 0, 0, pds, 0, values, points, marks, points, other, MESSAGE));
        }
        line("encode, half absent", n, points, plain);
    }
}

static void both(unsigned n, int every)
{
    one(n, 32, 32, every);
    one(n, 256, 256, every);
}

int main(int count, char **words)
{
    if (count > 1)
        rounds = atoi(words[1]);
    make_pds();
    printf("| what                   |  N | points | codec  | C      | ratio | bare   | ratio |%s\n", SIDES > 1 ? " before | ratio | bare before | ratio |" : "");
    printf("|---|---|---|---|---|---|---|---|%s\n", SIDES > 1 ? "---|---|---|---|" : "");
    for (unsigned n = 1; count <= 2 && n <= WIDEST; n++)
        both(n, n == 1 || n % 4 == 0);
    for (int k = 2; k < count; k++)
        both((unsigned)atoi(words[k]), 1);
    return 0;
}
