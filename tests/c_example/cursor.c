/* The index and the cursor. An index beside a full read's marks, and each place of the chart beside that read: of every
 * setting of the scanning flags, of each kind of grid and of thinned octants, of one group to the most, with all, some
 * and no points present, by each kind of bitmap, with ones after the last point's bit. Each of a message's own replies
 * before 14, 24 and 25, with the index as it was; the edges of 14, 24 and 25, and indexes that are taken though they
 * are not the message's. Every field of both answers is compared. Prints the lines of what differs, and ends with 1
 * where any does. */
#define TEST "cursor.c"
#include "by_index.h"
#include "specimen.h"

enum { PDS = 28, NUMBER = 7 };

/* which points are present */
enum { ALL, FOUR_IN_FIVE, THIRD, ODD_GROUPS, LAST, NO_POINT, PATTERNS };

/* the message at hand, and the stored bitmap that is lent to it */
static uint8_t message[GRIB1_WRITTEN_MOST], store[GRIB1_POINTS_MOST / 8 + 1];
static size_t length, store_len;
static uint16_t number;
static uint32_t values[GRIB1_POINTS_MOST], points;
static uint8_t marks[GRIB1_POINTS_MOST];

static uint8_t mark(int pattern, uint32_t k)
{
    switch (pattern) {
    case ALL:
        return 1;
    case FOUR_IN_FIVE:
        return k % 5 != 3;
    case THIRD:
        return k % 3 == 0;
    case ODD_GROUPS:
        return k / GRIB1_GROUP % 2;
    case LAST:
        return k == points - 1;
    default:
        return 0;
    }
}

static Grib1Grid rectangle(uint16_t ni, uint16_t nj, uint8_t scan)
{
    Grib1Grid g = {.la1 = scan & GRIB1_SCAN_NORTH ? -1000 : 1000, .ni = ni, .nj = nj, .scan = scan};

    g.la2 = -g.la1;
    return g;
}

/* all bits of a bitmap after the nth, up to an octet, are ones: no point's */
static void ones_after(uint8_t *bits, size_t octets)
{
    size_t k;

    for (k = points; k < 8 * octets; k++)
        bits[k / 8] |= (uint8_t)(128 >> k % 8);
}

/* The message of a grid, or of the catalogue's grid of a number, with a bitmap of a kind: values of 20 bits that all
 * differ. */
static void field(Grib1Grid grid, uint8_t catalogued, uint32_t bitmap, int pattern)
{
    Grib1Form f = {.given = catalogued == 0, .bitmap = bitmap, .grid = grid, .bits = 20};
    uint8_t pds[PDS] = {0, 0, PDS, 1, 7, 1, 255, 0, 11, 100, 0, 0, 98, 3, 10, 6, 0, 1, 0, 0, 0, 0, 0, 0, 20};
    Grib1Written w;
    Grib1Part bms;
    uint32_t k;

    points = grid.rows == GRIB1_ROWS_EVEN ? (uint32_t)grid.ni * grid.nj : 3447;
    pds[6] = catalogued ? catalogued : 255;
    pds[7] = (uint8_t)((f.given ? 128 : 0) + (bitmap ? 64 : 0));
    number = f.bitmap_number = bitmap == GRIB1_STORED ? NUMBER : 0;
    store_len = bitmap == GRIB1_STORED ? (points + 7) / 8 : 0;
    memset(store, 0, sizeof store);
    for (k = 0; k < points; k++) {
        marks[k] = bitmap == GRIB1_WITHOUT ? 1 : mark(pattern, k);
        values[k] = marks[k] ? 3 * k + 1 : 0;
        store[k / 8] |= (uint8_t)(marks[k] << (7 - k % 8));
    }
    ones_after(store, (points + 7) / 8);
    w = grib1_write(pds, PDS, f, 0, 0, number, store, store_len, values, points, marks, points, message,
        sizeof message);
    same(w.reply, GRIB1_ACCEPTED);
    length = w.len;
    bms = grib1_section(message, length, number, store, store_len, GRIB1_SECTION_BMS);
    if (bitmap == GRIB1_CARRIED)
        ones_after(message + bms.start + 6, bms.len - 6);
}

static void each_place(int line, uint32_t every)
{
    as_read(line, message, length, number, store, store_len, every);
    same_at(line, memcmp(full_values, values, points * sizeof *values), 0);
    same_at(line, memcmp(full_marks, marks, points), 0);
}

static Grib1Cursor under(const uint32_t *index, size_t index_len, uint32_t row, uint32_t column)
{
    return grib1_cursor(message, length, number, store, store_len, index, index_len, row, column);
}

/* where row 5 and column 1 of 23 rows of 25 points lies, by scanning bits 1, 2 and 3 from none set to all */
static void each_setting(void)
{
    static const uint32_t point[8] = {5 * 25 + 1, 23 + 5, 17 * 25 + 1, 23 + 17, 5 * 25 + 23, 23 * 23 + 5,
        17 * 25 + 23, 23 * 23 + 17};
    uint32_t setting, bitmap, pattern, k;

    for (setting = 0; setting < 8; setting++)
        for (bitmap = GRIB1_WITHOUT; bitmap <= GRIB1_STORED; bitmap++)
            for (pattern = 0; pattern < (bitmap ? PATTERNS : 1); pattern++) {
                field(rectangle(25, 23, (uint8_t)(32 * setting)), 0, bitmap, (int)pattern);
                each_place(__LINE__, 1);
                k = point[setting];
                same_under(__LINE__, under(entries, 3, 5, 1), GRIB1_ACCEPTED, 0, 0,
                    marks[k] ? GRIB1_PRESENT : GRIB1_ABSENT, values[k]);
            }
}

static void each_kind(void)
{
    static const uint8_t kinds[5] = {GRIB1_LATLON, GRIB1_MERCATOR, GRIB1_LAMBERT, GRIB1_GAUSSIAN, GRIB1_POLAR};
    uint32_t k, bitmap;

    for (k = 0; k < 5; k++)
        for (bitmap = GRIB1_WITHOUT; bitmap <= GRIB1_STORED; bitmap++) {
            Grib1Grid g = rectangle(20, 15, GRIB1_SCAN_NORTH | GRIB1_SCAN_BY_COLUMN);
            g.kind = kinds[k];
            field(g, 0, bitmap, FOUR_IN_FIVE);
            each_place(__LINE__, 1);
        }
}

/* grids 37 and 41, of 14 groups, with a GDS and without: rows of 2 to 73 points */
static void each_octant(void)
{
    uint32_t bitmap, given;
    uint8_t catalogued;

    for (catalogued = 37; catalogued <= 41; catalogued += 4)
        for (given = 0; given < 2; given++)
            for (bitmap = GRIB1_WITHOUT; bitmap <= GRIB1_STORED; bitmap++) {
                Grib1Grid g = {
                    .la1 = catalogued < 41 ? 0 : -90000, .lo1 = 330000, .la2 = catalogued < 41 ? 90000 : 0,
                    .lo2 = 60000, .ni = GRIB1_MISSING, .nj = 73, .di = GRIB1_MISSING, .dj = 1250, .resolution = 128,
                    .scan = GRIB1_SCAN_NORTH,
                    .rows = catalogued < 41 ? GRIB1_ROWS_FROM_EQUATOR : GRIB1_ROWS_FROM_POLE,
                };
                field(g, given ? 0 : catalogued, bitmap, FOUR_IN_FIVE);
                each_place(__LINE__, 1);
                same(entries[13], bitmap ? 2663 : 13 * GRIB1_GROUP);
                /* the row at the pole and the one at the equator, and just beside them */
                same(under(entries, 14, catalogued < 41 ? 0 : 72, 1).reply, GRIB1_ACCEPTED);
                same(under(entries, 14, catalogued < 41 ? 0 : 72, 2).reply, GRIB1_OFF_CHART);
                same(under(entries, 14, catalogued < 41 ? 72 : 0, 72).reply, GRIB1_ACCEPTED);
                same(under(entries, 14, catalogued < 41 ? 72 : 0, 73).reply, GRIB1_OFF_CHART);
                same(under(entries, 14, 73, 0).reply, GRIB1_OFF_CHART);
            }
}

/* about the ends of groups */
static void each_size(void)
{
    static const uint16_t sizes[] = {1, 2, 7, 8, 9, 255, 256, 257, 263, 264, 511, 512, 513, 767, 768, 769, 1000};
    uint32_t bitmap, pattern;
    size_t k;

    for (k = 0; k < sizeof sizes / sizeof *sizes; k++)
        for (bitmap = GRIB1_WITHOUT; bitmap <= GRIB1_STORED; bitmap++)
            for (pattern = 0; pattern < (bitmap ? PATTERNS : 1); pattern++) {
                field(rectangle(sizes[k], 1, 0), 0, bitmap, (int)pattern);
                each_place(__LINE__, 1);
            }
}

static void greatest(void)
{
    uint32_t bitmap, pattern;

    for (bitmap = GRIB1_WITHOUT; bitmap <= GRIB1_STORED; bitmap++)
        for (pattern = 0; pattern < (bitmap ? PATTERNS : 1); pattern++) {
            field(rectangle(256, 256, GRIB1_SCAN_NORTH), 0, bitmap, (int)pattern);
            each_place(__LINE__, 97);
            same(under(entries, GRIB1_INDEX_MOST, 0, 255).reply, GRIB1_ACCEPTED);
            same(under(entries, GRIB1_INDEX_MOST - 1, 0, 255).reply, GRIB1_INDEX);
            same(under(entries, GRIB1_INDEX_MOST - 1, 255, 0).reply, GRIB1_INDEX);
        }
    /* the most columns, and the most rows */
    field(rectangle(GRIB1_SIDE_MOST, 1, 0), 0, GRIB1_CARRIED, FOUR_IN_FIVE);
    each_place(__LINE__, 997);
    field(rectangle(1, GRIB1_SIDE_MOST, 0), 0, GRIB1_CARRIED, FOUR_IN_FIVE);
    same(grib1_index(message, length, 0, none, 0, entries, GRIB1_INDEX_MOST).entries, GRIB1_INDEX_MOST);
    same(under(entries, GRIB1_INDEX_MOST, GRIB1_SIDE_MOST - 2, 0).value, 3 * (GRIB1_SIDE_MOST - 2) + 1);
    same(under(entries, GRIB1_INDEX_MOST, GRIB1_SIDE_MOST - 1, 0).kind, GRIB1_ABSENT);
    same(under(entries, GRIB1_INDEX_MOST, GRIB1_SIDE_MOST, 0).reply, GRIB1_OFF_CHART);
    same(under(entries, GRIB1_INDEX_MOST, 0, 1).reply, GRIB1_OFF_CHART);
}

/* the specimen with one octet changed, its place being counted from 0, and how many of its octets are lent */
typedef struct {
    uint32_t at, octet, len, reply, section, place;
} Changed;

static void own_replies(void)
{
    static const Changed changed[] = {
        {0, 'G', 7, GRIB1_SIZE, 0, 0},
        {3, 'A', 94, GRIB1_NOT_GRIB, 0, 0},
        {7, 2, 94, GRIB1_EDITION, 0, 0},
        {6, 95, 94, GRIB1_TOTAL, 0, 0},
        {93, '8', 94, GRIB1_TOTAL, 0, 0},
        {21, 13, 94, GRIB1_TIME, 0, 0},
        {41, 10, 94, GRIB1_GDS, 0, 0},
        {43, 0, 94, GRIB1_GRID, 0, 0},
        {63, 0, 94, GRIB1_GRID, 0, 0},
        {71, 11, 94, GRIB1_BITMAP, 0, 0},
        {73, 5, 94, GRIB1_BITMAP, 0, 0},
        {79, 0x4F, 94, GRIB1_PACKING, 0, 0},
        {86, 25, 94, GRIB1_PACKING, 0, 0},
        {79, 0x0E, 94, GRIB1_DATA_LENGTH, 0, 0},
        {86, 4, 94, GRIB1_DATA_LENGTH, 0, 0},
        {10, 29, 94, GRIB1_LENGTH_ODD, GRIB1_SECTION_PDS, 9},
        {70, 7, 94, GRIB1_LENGTH_ODD, GRIB1_SECTION_BMS, 69},
        {38, 30, 94, GRIB1_LENGTH_BOUNDS, GRIB1_SECTION_GDS, 37},
        {78, 10, 94, GRIB1_LENGTH_BOUNDS, GRIB1_SECTION_BDS, 77},
        {78, 16, 94, GRIB1_LENGTH_PASSES, GRIB1_SECTION_BDS, 77},
        {70, 22, 94, GRIB1_LENGTH_PASSES, GRIB1_SECTION_BDS, 91},
        {78, 12, 94, GRIB1_LEFT_OVER, GRIB1_SECTION_END, 89},
    };
    /* without a GDS, by grid number 255 */
    static const uint8_t no_grid[52] = {
        'G', 'R', 'I', 'B', 0, 0, 52, 1,
        0, 0, PDS, 0, 0, 0, 255, 0, 0, 0, 0, 0, 1, 1, 1, 0, 0, 0, 0, 0, 0, 0, 0, 0, 20, 0, 0, 0,
        0, 0, 12, 8, 0, 0, 0, 0, 0, 0, 0, 0,
        '7', '7', '7', '7',
    };
    size_t k;

    for (k = 0; k < sizeof changed / sizeof *changed; k++) {
        const Changed *c = &changed[k];
        memcpy(message, specimen, 94);
        message[c->at] = (uint8_t)c->octet;
        unanswered(__LINE__, message, c->len, 0, none, 0, c->reply, c->section, c->place);
    }
    unanswered(__LINE__, no_grid, 52, 0, none, 0, GRIB1_NO_GRID, 0, 0);
    unanswered(__LINE__, none, 0, 0, none, 0, GRIB1_SIZE, 0, 0);

    /* a stored bitmap that is not lent, or too short */
    field(rectangle(25, 23, 0), 0, GRIB1_STORED, FOUR_IN_FIVE);
    unanswered(__LINE__, message, length, 0, none, 0, GRIB1_BITMAP, 0, 0);
    unanswered(__LINE__, message, length, NUMBER + 1, store, store_len, GRIB1_BITMAP, 0, 0);
    unanswered(__LINE__, message, length, NUMBER, store, store_len - 1, GRIB1_BITMAP, 0, 0);
    as_read(__LINE__, message, length, NUMBER, store, store_len + 1, 1);
}

/* A place outside the chart, by any index: 24 comes before 25. */
static void off_chart(void)
{
    static const uint32_t outside[][2] = {{23, 0}, {0, 25}, {22, 25}, {23, 25}, {24, 0}, {0, 575}, {575, 0},
        {0xFFFFFFFF, 0}, {0, 0xFFFFFFFF}, {0xFFFFFFFF, 0xFFFFFFFF}, {65536, 0}, {0, 65536}, {256, 256}};
    static const uint32_t bad[3] = {1, 1, 1};
    size_t k;

    field(rectangle(25, 23, GRIB1_SCAN_NORTH), 0, GRIB1_CARRIED, FOUR_IN_FIVE);
    each_place(__LINE__, 1);
    for (k = 0; k < sizeof outside / sizeof *outside; k++) {
        uint32_t row = outside[k][0], column = outside[k][1];
        same_under(__LINE__, under(entries, 3, row, column), GRIB1_OFF_CHART, 0, 0, GRIB1_OUTSIDE, 0);
        same_under(__LINE__, under(bad, 3, row, column), GRIB1_OFF_CHART, 0, 0, GRIB1_OUTSIDE, 0);
        same_under(__LINE__, under(bad, 0, row, column), GRIB1_OFF_CHART, 0, 0, GRIB1_OUTSIDE, 0);
    }
    same(under(entries, 3, 22, 24).reply, GRIB1_ACCEPTED);
    same(under(bad, 3, 22, 24).reply, GRIB1_INDEX);
}

/* Every third of 600 points is present, 200 in all, in groups of 86, 85 and 29: points 0, 258 and 513 are the first of
 * theirs, and the one after each is absent. Of each the data number that an index leads to, or BAD. */
#define M 4294967295u
enum { BAD = -1 };
static const struct {
    uint32_t index[4];
    size_t len;
    int32_t data_number[3];
} indexes[] = {
    /* its own, and one with more entries */
    {{0, 86, 171, 0}, 3, {0, 86, 171}},
    {{0, 86, 171, 0}, 4, {0, 86, 171}},
    {{0, 86, 171, M}, 4, {0, 86, 171}},
    /* too few entries, whichever group is asked for */
    {{0, 86, 171, 0}, 2, {BAD, BAD, BAD}},
    {{0, 86, 171, 0}, 1, {BAD, BAD, BAD}},
    {{0, 86, 171, 0}, 0, {BAD, BAD, BAD}},
    /* too high or too low by one: the group's, and as the next one */
    {{1, 86, 171, 0}, 3, {BAD, 86, 171}},
    {{0, 85, 171, 0}, 3, {BAD, BAD, 171}},
    {{0, 87, 171, 0}, 3, {BAD, BAD, 171}},
    {{0, 86, 170, 0}, 3, {0, BAD, BAD}},
    {{0, 86, 172, 0}, 3, {0, BAD, BAD}},
    /* two that agree up to m, and above it: not its own, and taken */
    {{1, 87, 0, 0}, 3, {1, BAD, BAD}},
    {{114, 200, 0, 0}, 3, {114, BAD, BAD}},
    {{115, 201, 0, 0}, 3, {BAD, BAD, BAD}},
    {{0, 115, 200, 0}, 3, {BAD, 115, BAD}},
    {{0, 116, 201, 0}, 3, {BAD, BAD, BAD}},
    /* other groups may hold anything */
    {{0, 86, M, 0}, 3, {0, BAD, BAD}},
    {{M, 86, 171, 0}, 3, {BAD, 86, 171}},
    {{M, M, 171, 0}, 3, {BAD, BAD, 171}},
    /* a sum is exact: these come out right in 32 bits */
    {{M, 85, 171, 0}, 3, {BAD, BAD, 171}},
    {{M - 85, 0, 171, 0}, 3, {BAD, BAD, 171}},
    {{0, M - 84, 0, 0}, 3, {BAD, BAD, BAD}},
    {{0, M, 84, 0}, 3, {BAD, BAD, BAD}},
    {{0, 86, M - 28, 0}, 3, {0, BAD, BAD}},
    {{M, M, M, M}, 4, {BAD, BAD, BAD}},
};

static void unfit(void)
{
    static const uint32_t first[3] = {0, 258, 513};
    uint32_t bitmap, lent[4];
    size_t k, g;

    for (bitmap = GRIB1_CARRIED; bitmap <= GRIB1_STORED; bitmap++) {
        field(rectangle(600, 1, 0), 0, bitmap, THIRD);
        each_place(__LINE__, 1);
        for (k = 0; k < sizeof indexes / sizeof *indexes; k++)
            for (g = 0; g < 3; g++) {
                int32_t d = indexes[k].data_number[g];
                uint32_t reply = d == BAD ? GRIB1_INDEX : GRIB1_ACCEPTED;
                memcpy(lent, indexes[k].index, sizeof lent);
                /* the present point of data number d is point 3 d, whose value is 9 d + 1 */
                same_under(__LINE__, under(lent, indexes[k].len, 0, first[g]), reply, 0, 0,
                    reply ? GRIB1_OUTSIDE : GRIB1_PRESENT, reply ? 0 : 9 * (uint32_t)d + 1);
                same_under(__LINE__, under(lent, indexes[k].len, 0, first[g] + 3), reply, 0, 0,
                    reply ? GRIB1_OUTSIDE : GRIB1_PRESENT, reply ? 0 : 9 * (uint32_t)d + 10);
                same_under(__LINE__, under(lent, indexes[k].len, 0, first[g] + 1), reply, 0, 0,
                    reply ? GRIB1_OUTSIDE : GRIB1_ABSENT, 0);
                same(memcmp(lent, indexes[k].index, sizeof lent), 0);
            }
    }

    /* with no bitmap every point counts as a one */
    field(rectangle(600, 1, 0), 0, GRIB1_WITHOUT, ALL);
    each_place(__LINE__, 1);
    memcpy(lent, indexes[0].index, sizeof lent);
    same(under(lent, 3, 0, 0).reply, GRIB1_INDEX);
    lent[0] = 344; /* and the next entry is m, of a group that is not the last */
    lent[1] = 600;
    same_under(__LINE__, under(lent, 3, 0, 255), GRIB1_ACCEPTED, 0, 0, GRIB1_PRESENT, 3 * 599 + 1);
    lent[0] = 345;
    lent[1] = 601;
    same(under(lent, 3, 0, 255).reply, GRIB1_INDEX);
}

/* An index is kept as long as message and stored bitmap are the same. A mark moves from the first group to the second:
 * m is the same, and the entry between them is another. */
static void kept(void)
{
    uint32_t k;

    field(rectangle(600, 1, 0), 0, GRIB1_STORED, FOUR_IN_FIVE);
    each_place(__LINE__, 1);
    for (k = 0; k < 2; k++)
        same_under(__LINE__, under(entries, 3, 0, 599), GRIB1_ACCEPTED, 0, 0, GRIB1_PRESENT, 3 * 599 + 1);
    store[255 / 8] ^= (uint8_t)(128 >> 255 % 8);
    store[258 / 8] ^= (uint8_t)(128 >> 258 % 8);
    same(under(entries, 3, 0, 0).reply, GRIB1_INDEX);
    same(under(entries, 3, 0, 255).reply, GRIB1_INDEX);
    same(under(entries, 3, 0, 256).reply, GRIB1_INDEX);
    same(under(entries, 3, 0, 511).reply, GRIB1_INDEX);
    same(under(entries, 3, 0, 512).reply, GRIB1_ACCEPTED);
    as_read(__LINE__, message, length, number, store, store_len, 1);
    same(entries[1], 204);

    /* marks that trade places within a group change no entry: the index still serves */
    store[0] ^= 128 >> 2 | 128 >> 3;
    same_under(__LINE__, under(entries, 3, 0, 3), GRIB1_ACCEPTED, 0, 0, GRIB1_PRESENT, 3 * 2 + 1);
    same_under(__LINE__, under(entries, 3, 0, 2), GRIB1_ACCEPTED, 0, 0, GRIB1_ABSENT, 0);
}

int main(void)
{
    each_setting();
    each_kind();
    each_octant();
    each_size();
    greatest();
    own_replies();
    off_chart();
    unfit();
    kept();
    return differ;
}
