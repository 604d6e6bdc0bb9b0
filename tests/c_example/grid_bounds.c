/* The figures of each kind of grid at their bounds and beyond, in a message and in a form: every angle, the steps, a
 * Gaussian N, the sides and their points, and the scan test. What is beyond is refused by 9. Prints the lines of what
 * differs, and ends with 1 where any does. */
#define TEST "grid_bounds.c"
#include "kinds.h"

/* the grid in one row, where the scan test is not made, with one angle: its GDS, and as a form */
static void angle(int line, const Kind *k, int i, int32_t x, uint32_t carried, int taken)
{
    uint8_t gds[42];
    Grib1Grid g = k->grid;
    uint32_t len;

    memcpy(gds, k->gds, sizeof gds);
    gds[7] = POINTS;
    gds[9] = 1;
    put(gds + k->angles[i].octet - 1, carried, 3);
    g.ni = POINTS;
    g.nj = 1;
    *angle_of(&g, k->angles[i].which) = x;
    len = of_octets(gds, k->len);
    if (taken) {
        read_as(line, grib1_header(message, len, 0, none, 0), k, g);
        if (carried == 0x800000)
            put(gds + k->angles[i].octet - 1, 0, 3); /* minus zero is written as plus zero */
        writes(line, g, gds, k->len);
    } else {
        refused(line, message, len, GRIB1_GRID, 0, 0);
        unwritten_as(line, specimen + 8, PDS, form_of(g), GRIB1_GRID);
    }
}

static void angles(const Kind *k)
{
    Grib1Grid g = k->grid;
    int i;

    for (i = 0; k->angles[i].octet; i++) {
        int32_t most = k->angles[i].most;
        angle(__LINE__, k, i, most, (uint32_t)most, 1);
        angle(__LINE__, k, i, -most, 0x800000 + (uint32_t)most, 1);
        angle(__LINE__, k, i, 0, 0, 1);
        angle(__LINE__, k, i, 0, 0x800000, 1);
        angle(__LINE__, k, i, most + 1, (uint32_t)most + 1, 0);
        angle(__LINE__, k, i, -most - 1, 0x800000 + (uint32_t)most + 1, 0);
        angle(__LINE__, k, i, 0x7FFFFF, 0x7FFFFF, 0);
        angle(__LINE__, k, i, -0x7FFFFF, 0xFFFFFF, 0);
        *angle_of(&g, k->angles[i].which) = LEAST;
        unwritten_as(__LINE__, specimen + 8, PDS, form_of(g), GRIB1_GRID);
        g = k->grid;
    }
}

/* a number of a GDS that has no sign: as carried, and as it stands in a form */
static void carried(int line, const Kind *k, uint32_t octet, int octets, uint32_t x, Grib1Grid g, int taken)
{
    uint8_t gds[42];
    uint32_t len;

    if (octet == 0)
        return;
    memcpy(gds, k->gds, sizeof gds);
    put(gds + octet - 1, x, octets);
    len = of_octets(gds, k->len);
    if (taken) {
        read_as(line, grib1_header(message, len, 0, none, 0), k, g);
        writes(line, g, gds, k->len);
    } else {
        refused(line, message, len, GRIB1_GRID, 0, 0);
        unwritten_as(line, specimen + 8, PDS, form_of(g), GRIB1_GRID);
    }
}

#define number(field, octets, x, taken) \
    (g = k->grid, g.field = (x), carried(__LINE__, k, k->field, octets, (x), g, taken))
#define too_far(has, field, x) \
    (g = k->grid, g.field = (x), has ? unwritten_as(__LINE__, specimen + 8, PDS, form_of(g), GRIB1_GRID) : (void)0)

/* steps may be any, all ones too, but a form's must fit in three octets; a Gaussian N may not be missing */
static void steps(const Kind *k)
{
    static const uint32_t over[4] = {GRIB1_DISTANCE_MOST + 1, 0x1000001, 0x80000000, 0xFFFFFFFF};
    Grib1Grid g;
    int i;

    number(dx, 3, 0, 1);
    number(dx, 3, 0x800000, 1);
    number(dx, 3, GRIB1_DISTANCE_MOST, 1);
    number(dy, 3, 0, 1);
    number(dy, 3, 0x800000, 1);
    number(dy, 3, GRIB1_DISTANCE_MOST, 1);
    number(di, 2, 0, 1);
    number(di, 2, GRIB1_MISSING, 1);
    number(dj, 2, 0, 1);
    number(dj, 2, GRIB1_MISSING, 1);
    number(circles, 2, 0, 1);
    number(circles, 2, GRIB1_MISSING - 1, 1);
    number(circles, 2, GRIB1_MISSING, 0);
    for (i = 0; i < 4; i++) {
        too_far(k->dx, dx, over[i]);
        too_far(k->dy, dy, over[i]);
    }
}

/* a message and a form with other sides, both refused by 9 */
static void sides(int line, const Kind *k, uint16_t ni, uint16_t nj)
{
    Grib1Grid g = k->grid;
    uint8_t gds[42];

    memcpy(gds, k->gds, sizeof gds);
    put(gds + 6, ni, 2);
    put(gds + 8, nj, 2);
    refused(line, message, of_octets(gds, k->len), GRIB1_GRID, 0, 0);
    g.ni = ni;
    g.nj = nj;
    unwritten_as(line, specimen + 8, PDS, form_of(g), GRIB1_GRID);
}

static void bounds(const Kind *k)
{
    static uint8_t pds[GRIB1_PDS_MOST], many[GRIB1_POINTS_MOST];
    Grib1Form form = form_of(k->grid);
    Grib1Grid g;

    sides(__LINE__, k, 0, 2);
    sides(__LINE__, k, 3, 0);
    sides(__LINE__, k, GRIB1_MISSING, 1);
    sides(__LINE__, k, 1, GRIB1_MISSING);
    sides(__LINE__, k, 257, 256);
    sides(__LINE__, k, GRIB1_SIDE_MOST, 2);

    /* the most points, with every section at its most */
    memcpy(pds, specimen + 8, PDS);
    put(pds, GRIB1_PDS_MOST, 3);
    memset(many, 1, sizeof many);
    form.grid.ni = form.grid.nj = 256;
    form.bits = GRIB1_BITS_MOST;
    same(grib1_length(pds, GRIB1_PDS_MOST, form, 0, none, 0, many, GRIB1_POINTS_MOST).len,
        GRIB1_WRITTEN_MOST - 42 + k->len);

    /* the scan test: latitudes the other way, and equal ones */
    carried(__LINE__, k, 28, 1, k->grid.scan ^ 64u, (g = k->grid, g.scan ^= 64, g), !k->tested);
    g = k->grid;
    g.la2 = g.la1;
    form = form_of(g);
    same(grib1_length(specimen + 8, PDS, form, 0, none, 0, field_marks, POINTS).reply,
        k->tested ? GRIB1_GRID : GRIB1_ACCEPTED);
}

int main(void)
{
    const Kind *k;

    for (k = kinds; k < kinds + KINDS; k++) {
        angles(k);
        steps(k);
        bounds(k);
    }
    return differ;
}
