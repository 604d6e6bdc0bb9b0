/* A message of each kind of grid, its octets by hand, and what reading and writing it give. TEST is the name of the
 * test's file. */
#ifndef KINDS_H
#define KINDS_H

#include "refused.h"

enum { KINDS = 5, POINTS = 6, PDS = 28, GDS = 8 + PDS, BMS = 8, BDS = 14, ROOM = 512, LEAST = -2147483647 - 1 };

/* the angles of a grid, in the order of its record */
enum { LA1, LO1, LA2, LO2, LOV, LATIN1, LATIN2, POLE_LA, POLE_LO };

static int32_t *angle_of(Grib1Grid *g, int which)
{
    int32_t *const all[] = {&g->la1, &g->lo1, &g->la2, &g->lo2, &g->lov, &g->latin1, &g->latin2, &g->pole_la,
        &g->pole_lo};

    return all[which];
}

/* A kind of grid: a GDS of 3 by 2 points by document 003's layout, what it says, and where its fields stand, by octets
 * from 1: 0 ends a list, and is a field that the kind lacks. */
typedef struct {
    uint32_t len;
    uint8_t gds[42];
    Grib1Grid grid;
    struct { int which; uint32_t octet; int32_t most; } angles[9];
    uint32_t reserved[10], dx, dy, di, dj, circles, centre;
    int tested;                /* whether the scan test holds for it */
} Kind;

static const Kind kinds[KINDS] = {
    {
        .len = 32,
        .gds = {0, 0, 32, 0, 255, 0, 0, 3, 0, 2, 0x00, 0xC3, 0x50, 0x80, 0x13, 0x88, 0xA5, 0x00, 0xBB, 0x80, 0x80, 0x07,
            0xD0, 0x05, 0xDC, 0xFF, 0xFF, 0x15},
        .grid = {.la1 = 50000, .lo1 = -5000, .la2 = 48000, .lo2 = -2000, .ni = 3, .nj = 2, .di = 1500,
            .dj = GRIB1_MISSING, .resolution = 0xA5, .scan = 0x15, .kind = GRIB1_LATLON},
        .angles = {{LA1, 11, 90000}, {LO1, 14, 360000}, {LA2, 18, 90000}, {LO2, 21, 360000}},
        .reserved = {29, 30, 31, 32},
        .di = 24, .dj = 26, .tested = 1,
    },
    {
        .len = 42,
        .gds = {0, 0, 42, 0, 255, 1, 0, 3, 0, 2, 0x80, 0xBB, 0xDA, 0x05, 0x7E, 0x40, 0x80, 0x00, 0xBB, 0xDA, 0x85, 0x7E,
            0x40, 0x80, 0x57, 0xE4, 0, 0x40, 0x07, 0xD6, 0x85, 0x80, 0x00, 0x01},
        .grid = {.la1 = -48090, .lo1 = 360000, .la2 = 48090, .lo2 = -360000, .latin1 = -22500, .dx = 513669,
            .dy = 8388609, .ni = 3, .nj = 2, .resolution = 128, .scan = 64, .kind = GRIB1_MERCATOR},
        .angles = {{LA1, 11, 90000}, {LO1, 14, 360000}, {LA2, 18, 90000}, {LO2, 21, 360000}, {LATIN1, 24, 90000}},
        .reserved = {27, 35, 36, 37, 38, 39, 40, 41, 42},
        .dx = 29, .dy = 32, .tested = 1,
    },
    {
        .len = 42,
        .gds = {0, 0, 42, 0, 255, 3, 0, 3, 0, 2, 0x00, 0x57, 0x11, 0x81, 0xCC, 0xE7, 0x08, 0x81, 0x73, 0x18, 0x01, 0x3D,
            0x77, 0xFF, 0xFF, 0xFF, 0xC1, 0x40, 0x00, 0x61, 0xA8, 0x80, 0xEA, 0x60, 0x81, 0x5F, 0x90, 0x05, 0x7E, 0x3F},
        .grid = {.la1 = 22289, .lo1 = -117991, .lov = -95000, .latin1 = 25000, .latin2 = -60000, .pole_la = -90000,
            .pole_lo = 359999, .dx = 81271, .dy = 16777215, .ni = 3, .nj = 2, .resolution = 8, .scan = 64,
            .kind = GRIB1_LAMBERT, .centre = 0xC1},
        .angles = {{LA1, 11, 90000}, {LO1, 14, 360000}, {LOV, 18, 360000}, {LATIN1, 29, 90000}, {LATIN2, 32, 90000},
            {POLE_LA, 35, 90000}, {POLE_LO, 38, 360000}},
        .reserved = {41, 42},
        .dx = 21, .dy = 24, .centre = 27,
    },
    {
        .len = 32,
        .gds = {0, 0, 32, 0, 255, 4, 0, 3, 0, 2, 0x01, 0x59, 0xDE, 0x00, 0x00, 0x00, 0x80, 0x81, 0x59, 0xDE, 0x05, 0x76,
            0xED, 0xFF, 0xFF, 0x00, 0x2F, 0x00},
        .grid = {.la1 = 88542, .lo1 = 0, .la2 = -88542, .lo2 = 358125, .ni = 3, .nj = 2, .di = GRIB1_MISSING,
            .circles = 47, .resolution = 128, .scan = 0, .kind = GRIB1_GAUSSIAN},
        .angles = {{LA1, 11, 90000}, {LO1, 14, 360000}, {LA2, 18, 90000}, {LO2, 21, 360000}},
        .reserved = {29, 30, 31, 32},
        .di = 24, .circles = 26, .tested = 1,
    },
    {
        .len = 32,
        .gds = {0, 0, 32, 0, 255, 5, 0, 3, 0, 2, 0x00, 0x02, 0x68, 0x81, 0x4B, 0xA8, 0x08, 0x80, 0xEA, 0x60, 0x02, 0xE8,
            0x24, 0x02, 0xE8, 0x25, 0x80, 0x40},
        .grid = {.la1 = 616, .lo1 = -84904, .lov = -60000, .dx = 190500, .dy = 190501, .ni = 3, .nj = 2,
            .resolution = 8, .scan = 64, .kind = GRIB1_POLAR, .centre = 0x80},
        .angles = {{LA1, 11, 90000}, {LO1, 14, 360000}, {LOV, 18, 360000}},
        .reserved = {29, 30, 31, 32},
        .dx = 21, .dy = 24, .centre = 27,
    },
};

/* the field of every message here, with a bitmap that is carried, and the sections that hold it */
static const uint32_t field_values[POINTS] = {5, 0, 0, 7, 0, 2};
static const uint8_t field_marks[POINTS] = {1, 0, 1, 1, 0, 1};
static const int32_t field_numbers[POINTS] = {2505, 77, 2500, 2507, 77, 2502};
static const uint8_t field_sections[BMS + BDS + 4] = {
    0, 0, BMS, 10, 0, 0, 0xB4, 0,
    0, 0, BDS, 12, 0, 0, 0x43, 0x9C, 0x40, 0x00, 3, 0xA3, 0xA0, 0x00,
    '7', '7', '7', '7',
};

static uint8_t message[ROOM], out[ROOM];

static void put(uint8_t *at, uint32_t x, int octets)
{
    while (octets-- > 0) {
        at[octets] = (uint8_t)x;
        x /= 256;
    }
}

/* the message of a GDS of so many octets, the specimen's PDS and the field: how many octets it has */
static uint32_t of_octets(const uint8_t *gds, uint32_t len)
{
    uint32_t whole = GDS + len + sizeof field_sections;

    memset(message, 0, sizeof message);
    memcpy(message, specimen, GDS);
    put(message + 4, whole, 3);
    memcpy(message + GDS, gds, len < 42 ? len : 42);
    put(message + GDS, len, 3);
    memcpy(message + GDS + len, field_sections, sizeof field_sections);
    return whole;
}

#define of_kind(k) of_octets((k)->gds, (k)->len)

/* a grid to be written, with all else of the specimen's form */
static Grib1Form form_of(Grib1Grid grid)
{
    Grib1Form form = specimen_form();

    form.grid = grid;
    return form;
}

static void read_as(int line, Grib1Header h, const Kind *k, Grib1Grid grid)
{
    same_reply(line, h, GRIB1_ACCEPTED, 0, 0);
    same_at(line, h.points, POINTS);
    same_at(line, h.present, 4);
    same_at(line, h.d, 1);
    same_at(line, h.e, 0);
    same_at(line, h.r, 0x439C4000);
    same_at(line, h.bitmap, GRIB1_CARRIED);
    same_grid(line, h.grid, grid);
    same_part(line, h.pds, 0, 8, PDS);
    same_part(line, h.gds, 0, GDS, k->len);
    same_part(line, h.bms, 0, GDS + k->len, BMS);
    same_part(line, h.bds, 0, GDS + k->len + BMS, BDS);
    same_at(line, h.bitmap_number, 0);
    same_at(line, h.year, 1998);
    same_at(line, h.month, 3);
    same_at(line, h.day, 10);
    same_at(line, h.hour, 6);
    same_at(line, h.minute, 0);
    same_at(line, h.packing_flags, 0);
    same_at(line, h.bits, 3);
}

/* that message, of so many octets, is what was written to out */
static void made(int line, Grib1Written w, uint32_t whole)
{
    same_at(line, w.reply, GRIB1_ACCEPTED);
    same_at(line, w.len, whole);
    same_at(line, memcmp(out, message, whole), 0);
    same_at(line, out[whole], 0xAA);
    memset(out, 0xAA, sizeof out);
}

/* the grid as a form: the message of a GDS is what is written, and packed */
static void writes(int line, Grib1Grid grid, const uint8_t *gds, uint32_t len)
{
    const uint8_t *pds = specimen + 8, *m = field_marks;
    Grib1Form form = form_of(grid);
    uint32_t whole = of_octets(gds, len);
    Grib1Written w = grib1_length(pds, PDS, form, 0, none, 0, m, POINTS);

    same_at(line, w.reply, GRIB1_ACCEPTED);
    same_at(line, w.len, whole);
    memset(out, 0xAA, sizeof out);
    w = grib1_write(pds, PDS, form, 0, 0x439C4000, 0, none, 0, field_values, POINTS, m, POINTS, out, sizeof out);
    made(line, w, whole);
    w = grib1_pack(pds, PDS, form, 0, none, 0, field_numbers, POINTS, m, POINTS, 1, out, sizeof out);
    made(line, w, whole);
}

#endif
