/* Every function of include/grib1.h on each kind of grid: a message of each, its octets by hand, read, written back,
 * packed and checked; the octets that are reserved and carried; the types and lengths that 8 refuses; grids of no kind;
 * and where the points lie on the chart by each setting of the scanning flags. Prints the lines of what differs, and
 * ends with 1 where any does. */
#define TEST "grids.c"
#include "kinds.h"

/* each kind's message: read, written back from its own header, packed and checked */
static void read_and_written(const Kind *k)
{
    static const int32_t far[POINTS] = {2505, 77, 2500, 2507, 77, 2503};
    uint32_t len = of_kind(k), read_values[POINTS + 1], i;
    uint8_t read_marks[POINTS + 1];
    Grib1Header h = grib1_header(message, len, 0, none, 0);
    Grib1Display d = grib1_display(message, len, 0, none, 0);

    read_as(__LINE__, h, k, k->grid);
    memset(read_values, 0xAA, sizeof read_values);
    memset(read_marks, 0xAA, sizeof read_marks);
    same_refusal(__LINE__, grib1_read(message, len, 0, none, 0, read_values, POINTS - 1, read_marks, POINTS),
        GRIB1_ROOM);
    same(read_values[0], 0xAAAAAAAA);
    h = grib1_read(message, len, 0, none, 0, read_values, POINTS + 1, read_marks, POINTS + 1);
    read_as(__LINE__, h, k, k->grid);
    same(memcmp(read_values, field_values, sizeof field_values), 0);
    same(memcmp(read_marks, field_marks, sizeof field_marks), 0);
    same(read_values[POINTS], 0xAAAAAAAA);
    same(read_marks[POINTS], 0xAA);
    for (i = 0; i < 6; i++) {
        const uint32_t start[7] = {0, 8, GDS, GDS + k->len, GDS + k->len + BMS, len - 4, len};
        same_part(__LINE__, grib1_section(message, len, 0, none, 0, i), 0, start[i], start[i + 1] - start[i]);
    }
    same_part(__LINE__, grib1_bitmap(message, len, 0, none, 0), 0, GDS + k->len + 6, 1);
    same_reply(__LINE__, d, GRIB1_ACCEPTED, 0, 0);
    same(d.reference, 2500);
    same(grib1_data_number(message, len, 0, none, 0, 1).kind, GRIB1_ABSENT);
    same(grib1_data_number(message, len, 0, none, 0, 5).data_number, 3);
    same(grib1_data_number(message, len, 0, none, 0, 6).kind, GRIB1_OUTSIDE);
    as_read(__LINE__, message, len, 0, none, 0, 1);
    same(grib1_check(message, len, 0, none, 0, field_numbers, POINTS, field_marks, POINTS, 1).reply, GRIB1_ACCEPTED);
    same(grib1_check(message, len, 0, none, 0, far, POINTS, field_marks, POINTS, 1).reply, GRIB1_OUT);
    writes(__LINE__, h.grid, k->gds, k->len);
}

/* "reserved, ignored on reading, written zero", and octets that are carried whole */
static void reserved_and_carried(const Kind *k)
{
    uint8_t gds[42];
    uint32_t len, i, x;
    Grib1Grid g;

    len = of_kind(k);
    for (i = 0; k->reserved[i]; i++)
        message[GDS + k->reserved[i] - 1] = (uint8_t)(255 - i);
    g = grib1_header(message, len, 0, none, 0).grid;
    read_as(__LINE__, grib1_header(message, len, 0, none, 0), k, k->grid);
    writes(__LINE__, g, k->gds, k->len);

    for (x = 0; x < 256; x++) {
        memcpy(gds, k->gds, sizeof gds);
        g = k->grid;
        g.resolution = gds[16] = (uint8_t)x;
        g.scan = gds[27] = (uint8_t)((gds[27] & 64) | (x & 191)); /* bit 2 is tested beside the latitudes */
        if (k->centre)
            g.centre = gds[26] = (uint8_t)(255 - x);
        len = of_octets(gds, k->len);
        read_as(__LINE__, grib1_header(message, len, 0, none, 0), k, g);
        writes(__LINE__, g, gds, k->len);
    }
}

/* what a kind lacks is not looked at, whatever a form has there */
static void not_looked_at(const Kind *k)
{
    Grib1Grid g = k->grid, own = k->grid;
    int i;

    for (i = LA1; i <= POLE_LO; i++)
        *angle_of(&g, i) = LEAST;
    for (i = 0; k->angles[i].octet; i++)
        *angle_of(&g, k->angles[i].which) = *angle_of(&own, k->angles[i].which);
    g.dx = k->dx ? g.dx : 0xFFFFFFFF;
    g.dy = k->dy ? g.dy : 0xFFFFFFFF;
    g.di = k->di ? g.di : GRIB1_MISSING;
    g.dj = k->dj ? g.dj : GRIB1_MISSING;
    g.circles = k->circles ? g.circles : GRIB1_MISSING;
    g.centre = k->centre ? g.centre : 255;
    writes(__LINE__, g, k->gds, k->len);
}

/* 8: a type goes with its own length, octet 4 with 0 and octet 5 with 255, and a thinned octant is of type 0 */
static void types_and_lengths(void)
{
    static const uint32_t lens[9] = {32, 34, 40, 42, 44, 52, 176, 178, 180};
    uint32_t own, type, i, k;
    uint8_t gds[42];

    memcpy(gds, kinds[2].gds, sizeof gds);
    for (type = 0; type < 256; type++) {
        gds[5] = (uint8_t)type;
        own = type == 0 || type == 4 || type == 5 ? 32 : type == 1 || type == 3 ? 42 : 0;
        for (i = 0; i < 9; i++)
            if (lens[i] != own)
                refused(__LINE__, message, of_octets(gds, lens[i]), GRIB1_GDS, 0, 0);
        gds[4] = 33;
        for (i = 0; i < 9; i++)
            if (type != 0 || lens[i] != 178)
                refused(__LINE__, message, of_octets(gds, lens[i]), GRIB1_GDS, 0, 0);
        gds[4] = 255;
    }
    for (k = 0; k < KINDS; k++)
        for (i = 1; i < 256; i++) {
            memcpy(gds, kinds[k].gds, sizeof gds);
            gds[3] = (uint8_t)i;
            refused(__LINE__, message, of_octets(gds, kinds[k].len), GRIB1_GDS, 0, 0);
            gds[3] = 0;
            gds[4] = (uint8_t)(i - 1);
            refused(__LINE__, message, of_octets(gds, kinds[k].len), GRIB1_GDS, 0, 0);
        }
}

/* a Mercator message, 104 octets, whose GDS says another length */
static void said(int line, uint32_t length, uint32_t reply, uint32_t section, uint32_t place)
{
    uint32_t len = of_kind(&kinds[1]);

    put(message + GDS, length, 3);
    refused(line, message, len, reply, section, place);
}

static void section_lengths(void)
{
    said(__LINE__, 41, GRIB1_LENGTH_ODD, GRIB1_SECTION_GDS, 37);
    said(__LINE__, 43, GRIB1_LENGTH_ODD, GRIB1_SECTION_GDS, 37);
    said(__LINE__, 30, GRIB1_LENGTH_BOUNDS, GRIB1_SECTION_GDS, 37);
    said(__LINE__, 44, GRIB1_LENGTH_PASSES, GRIB1_SECTION_BMS, 81);
    said(__LINE__, 64, GRIB1_LENGTH_PASSES, GRIB1_SECTION_BMS, 101);
    said(__LINE__, 66, GRIB1_LENGTH_PASSES, GRIB1_SECTION_GDS, 37);
}

/* a grid of no kind: not to be written, and without points, rows and places */
static void nowhere(Grib1Grid g, uint32_t kind, uint8_t rows)
{
    g.kind = (uint8_t)kind;
    g.rows = rows;
    unwritten_as(__LINE__, specimen + 8, PDS, form_of(g), GRIB1_GRID);
    same(grib1_row(g, 0), 0);
    same(grib1_row(g, 1), 0);
    same(grib1_place(g, 0).on, 0);
    same(grib1_place(g, 0).row, 0);
    same(grib1_place(g, 0).column, 0);
    same(grib1_place(g, 5).on, 0);
    same(grib1_point(g, 0, 0).on, 0);
    same(grib1_point(g, 0, 0).point, 0);
    same(grib1_point(g, 1, 2).on, 0);
}

static void of_no_kind(const Kind *k)
{
    /* octant 37's, but for its kind */
    Grib1Grid octant = {.la2 = 90000, .lo1 = 330000, .lo2 = 60000, .ni = GRIB1_MISSING, .nj = 73, .di = GRIB1_MISSING,
        .dj = 1250, .resolution = 128, .scan = GRIB1_SCAN_NORTH};
    uint32_t kind;

    for (kind = 0; kind < 256; kind++)
        if (kind != 0 && kind != 1 && kind != 3 && kind != 4 && kind != 5) {
            nowhere(k->grid, kind, GRIB1_ROWS_EVEN);
            nowhere(octant, kind, GRIB1_ROWS_FROM_EQUATOR);
        }
    if (k->grid.kind != GRIB1_LATLON) {
        nowhere(k->grid, k->grid.kind, GRIB1_ROWS_FROM_EQUATOR);
        nowhere(k->grid, k->grid.kind, GRIB1_ROWS_FROM_POLE);
        nowhere(octant, k->grid.kind, GRIB1_ROWS_FROM_EQUATOR);
    }
    nowhere(k->grid, k->grid.kind, 3);
    nowhere(k->grid, k->grid.kind, 255);
}

/* Which point lies at each place of the chart, row 0 first: the north, or the greatest y, and from the west, or the
 * least x. By scanning bits 1, 2 and 3, from none set to all. */
static const struct { uint8_t scan; uint32_t point[2][3]; } charts[8] = {
    {0, {{0, 1, 2}, {3, 4, 5}}},
    {GRIB1_SCAN_BY_COLUMN, {{0, 2, 4}, {1, 3, 5}}},
    {GRIB1_SCAN_NORTH, {{3, 4, 5}, {0, 1, 2}}},
    {GRIB1_SCAN_NORTH | GRIB1_SCAN_BY_COLUMN, {{1, 3, 5}, {0, 2, 4}}},
    {GRIB1_SCAN_WEST, {{2, 1, 0}, {5, 4, 3}}},
    {GRIB1_SCAN_WEST | GRIB1_SCAN_BY_COLUMN, {{4, 2, 0}, {5, 3, 1}}},
    {GRIB1_SCAN_WEST | GRIB1_SCAN_NORTH, {{5, 4, 3}, {2, 1, 0}}},
    {GRIB1_SCAN_WEST | GRIB1_SCAN_NORTH | GRIB1_SCAN_BY_COLUMN, {{5, 3, 1}, {4, 2, 0}}},
};

/* the chart of every kind, and of Lambert and polar grids by the grid of a message that is read */
static void drawn(const Kind *k)
{
    uint32_t i, row, column;

    for (i = 0; i < 8; i++) {
        Grib1Grid g = k->grid;

        if (!k->tested) {
            uint32_t len = of_kind(k);
            message[GDS + 27] = charts[i].scan;
            g = grib1_header(message, len, 0, none, 0).grid;
            same(g.scan, charts[i].scan);
        }
        g.scan = charts[i].scan;
        for (row = 0; row < 2; row++) {
            for (column = 0; column < 3; column++) {
                uint32_t point = charts[i].point[row][column];
                Grib1Place p = grib1_place(g, point);
                Grib1Point q = grib1_point(g, row, column);
                same(p.on, 1);
                same(p.row, row);
                same(p.column, column);
                same(q.on, 1);
                same(q.point, point);
            }
            same(grib1_row(g, row), 3);
            same(grib1_point(g, row, 3).on, 0);
        }
        same(grib1_row(g, 2), 0);
        same(grib1_point(g, 2, 0).on, 0);
        same(grib1_place(g, POINTS).on, 0);
    }
}

int main(void)
{
    const Kind *k;

    for (k = kinds; k < kinds + KINDS; k++) {
        read_and_written(k);
        reserved_and_carried(k);
        not_looked_at(k);
        of_no_kind(k);
        drawn(k);
    }
    types_and_lengths();
    section_lengths();
    return differ;
}
