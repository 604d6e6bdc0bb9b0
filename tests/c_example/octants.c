/* Every function of include/grib1.h on thinned octants, grids 37 to 44: the rows and places of all their points;
 * messages of them written, packed, read and checked, with and without a GDS; and the grids beside them, and section
 * lengths about a GDS of 178 octets, that are refused. And each message that is named is written back to its own
 * octets.
 *
 *   octants FILE..
 *
 * Prints the lines of what differs, and ends with 1 where any does. */
#include <string.h>

#define TEST "octants.c"
#include "by_index.h"

enum { POINTS = 3447, ROWS = 73, PDS = 28, GDS = 178, ROOM = 16384 };

/* document 003's table, from the equator */
static const uint8_t counts[ROWS] = {
    73, 73, 73, 73, 73, 73, 73, 73, 72, 72, 72, 71, 71, 71, 70, 70, 69, 69, 68, 67, 67, 66, 65, 65, 64, 63, 62, 61, 60,
    60, 59, 58, 57, 56, 55, 54, 52, 51, 50, 49, 48, 47, 45, 44, 43, 42, 40, 39, 38, 36, 35, 33, 32, 30, 29, 28, 26, 25,
    23, 22, 20, 19, 17, 16, 14, 12, 11, 9, 8, 6, 5, 3, 2,
};

/* of the octants from 37 and from 41 on, and the first one again */
static const int32_t meridians[5] = {330000, 60000, 150000, 240000, 330000};

static const uint8_t none[1];
static uint8_t pds[PDS], gds[GDS], store[POINTS / 8 + 1], out[ROOM], again[ROOM];
static uint32_t values[POINTS], read_values[POINTS + 1];
static uint8_t marks[POINTS], read_marks[POINTS + 1];
static int32_t numbers[POINTS];

static Grib1Grid octant(int number)
{
    int north = number < 41, k = (number - 37) % 4;
    Grib1Grid g = {
        .la1 = north ? 0 : -90000, .lo1 = meridians[k], .la2 = north ? 90000 : 0, .lo2 = meridians[k + 1],
        .ni = GRIB1_MISSING, .nj = ROWS, .di = GRIB1_MISSING, .dj = 1250, .resolution = 128, .scan = GRIB1_SCAN_NORTH,
        .rows = north ? GRIB1_ROWS_FROM_EQUATOR : GRIB1_ROWS_FROM_POLE,
    };
    return g;
}

/* points of a row in message order */
static uint32_t count(int number, uint32_t j)
{
    return counts[number < 41 ? j : ROWS - 1 - j];
}

/* rows run north: message row j is the chart's row ROWS - 1 - j */
static void places(int number)
{
    Grib1Grid g = octant(number);
    uint32_t j, i, k = 0;

    for (j = 0; j < ROWS; j++) {
        uint32_t row = ROWS - 1 - j;
        same(grib1_row(g, row), count(number, j));
        for (i = 0; i < count(number, j); i++, k++) {
            Grib1Place p = grib1_place(g, k);
            Grib1Point q = grib1_point(g, row, i);
            same(p.on, 1);
            same(p.row, row);
            same(p.column, i);
            same(q.on, 1);
            same(q.point, k);
        }
        same(grib1_point(g, row, i).on, 0);
        same(grib1_point(g, row, i).point, 0);
        same(grib1_point(g, row, 0xFFFFFFFF).on, 0);
    }
    same(k, POINTS);
    same(grib1_place(g, POINTS).on, 0);
    same(grib1_place(g, POINTS).row, 0);
    same(grib1_place(g, POINTS).column, 0);
    same(grib1_place(g, 0xFFFFFFFF).on, 0);
    same(grib1_point(g, ROWS, 0).on, 0);
    same(grib1_point(g, 0xFFFFFFFF, 0).on, 0);
    same(grib1_row(g, ROWS), 0);
    same(grib1_row(g, 0xFFFFFFFF), 0);
}

/* a number of rows that has no name: no points, whatever the other fields are */
static void nowhere(Grib1Grid g, uint8_t rows)
{
    g.rows = rows;
    same(grib1_row(g, 0), 0);
    same(grib1_row(g, 1), 0);
    same(grib1_place(g, 0).on, 0);
    same(grib1_place(g, 0).row, 0);
    same(grib1_place(g, 0).column, 0);
    same(grib1_point(g, 0, 0).on, 0);
    same(grib1_point(g, 0, 0).point, 0);
}

static void put(uint8_t *at, uint32_t x, int octets)
{
    while (octets-- > 0) {
        at[octets] = (uint8_t)x;
        x /= 256;
    }
}

static void put_signed(uint8_t *at, int32_t x)
{
    put(at, x < 0 ? 0x800000u + (uint32_t)-x : (uint32_t)x, 3);
}

/* the GDS that document 003 prints for an octant */
static void describe(int number)
{
    Grib1Grid g = octant(number);
    uint32_t j;

    memset(gds, 0, GDS);
    put(gds, GDS, 3);
    gds[4] = 33;
    put(gds + 6, 0xFFFF, 2);
    put(gds + 8, ROWS, 2);
    put_signed(gds + 10, g.la1);
    put_signed(gds + 13, g.lo1);
    gds[16] = 128;
    put_signed(gds + 17, g.la2);
    put_signed(gds + 20, g.lo2);
    put(gds + 23, 0xFFFF, 2);
    put(gds + 25, 1250, 2);
    gds[27] = 64;
    for (j = 0; j < ROWS; j++)
        put(gds + 32 + 2 * j, count(number, j), 2);
}

/* a PDS for an octant, and a field of N bits: without a bitmap every point, else all but one in five */
static Grib1Form field(int number, uint32_t given, uint32_t bitmap, uint8_t bits)
{
    static const uint8_t head[PDS] = {
        0, 0, PDS, 2, 7, 128, 0, 0, 11, 100, 1, 244, 98, 3, 10, 6, 0, 1, 0, 0, 0, 0, 0, 0, 20, 0, 0x80, 1,
    };
    Grib1Form f;
    uint32_t k;

    memset(&f, 0, sizeof f);
    f.given = given;
    f.bitmap = bitmap;
    if (given)
        f.grid = octant(number);
    f.bitmap_number = bitmap == GRIB1_STORED ? 7 : 0;
    f.bits = bits;
    memcpy(pds, head, PDS);
    pds[6] = (uint8_t)number;
    pds[7] = (uint8_t)((given ? 128 : 0) + (bitmap ? 64 : 0));
    memset(store, 0, sizeof store);
    for (k = 0; k < POINTS; k++) {
        marks[k] = bitmap == GRIB1_WITHOUT || k % 5 != 3;
        values[k] = marks[k] ? k * 2654435761u % (1u << bits) & GRIB1_SOURCE_MOST : 0;
        numbers[k] = (int32_t)values[k] - 100;
        store[k / 8] |= (uint8_t)(marks[k] << (7 - k % 8));
    }
    return f;
}

/* the message of that field, len octets in out, that has present points and whose sections are so long */
static void reads(int number, const Grib1Form *f, uint32_t r, size_t len, uint32_t present, uint32_t bms, uint32_t bds)
{
    uint16_t lent = f->bitmap_number;
    size_t lent_len = lent ? sizeof store : 0;
    uint32_t gds_len = f->given ? GDS : 0, start = 8 + PDS, k;
    Grib1Header h = grib1_header(out, len, lent, store, lent_len);
    Grib1Header full;
    Grib1Display d;

    memset(read_values, 0xAA, sizeof read_values);
    memset(read_marks, 0xAA, sizeof read_marks);
    same_refusal(__LINE__, grib1_read(out, len, lent, store, lent_len, read_values, POINTS - 1, read_marks, POINTS),
        GRIB1_ROOM);
    same_refusal(__LINE__, grib1_read(out, len, lent, store, lent_len, read_values, POINTS, read_marks, POINTS - 1),
        GRIB1_ROOM);
    same(read_values[0], 0xAAAAAAAA);
    same(read_marks[0], 0xAA);
    full = grib1_read(out, len, lent, store, lent_len, read_values, POINTS + 1, read_marks, POINTS + 1);
    for (k = 0; k < 2; k++, h = full) {
        same_reply(__LINE__, h, GRIB1_ACCEPTED, 0, 0);
        same(h.points, POINTS);
        same(h.present, present);
        same(h.d, -1);
        same(h.e, 0);
        same(h.r, r);
        same(h.bitmap, f->bitmap);
        same_grid(__LINE__, h.grid, octant(number));
        same_part(__LINE__, h.pds, 0, 8, PDS);
        same_part(__LINE__, h.gds, 0, start, gds_len);
        same_part(__LINE__, h.bms, 0, start + gds_len, bms);
        same_part(__LINE__, h.bds, 0, start + gds_len + bms, bds);
        same(h.bitmap_number, lent);
        same(h.year, 1998);
        same(h.month, 3);
        same(h.day, 10);
        same(h.hour, 6);
        same(h.minute, 0);
        same(h.packing_flags, 0);
        same(h.bits, f->bits);
    }
    same(memcmp(read_values, values, sizeof values), 0);
    same(memcmp(read_marks, marks, sizeof marks), 0);
    same(read_values[POINTS], 0xAAAAAAAA);
    same(read_marks[POINTS], 0xAA);

    same_part(__LINE__, grib1_section(out, len, lent, store, lent_len, 2), 0, gds_len ? start : 0, gds_len);
    same_part(__LINE__, grib1_section(out, len, lent, store, lent_len, 4), 0, start + gds_len + bms, bds);
    same_part(__LINE__, grib1_section(out, len, lent, store, lent_len, 5), 0, (uint32_t)len - 4, 4);
    same_part(__LINE__, grib1_bitmap(out, len, lent, store, lent_len), f->bitmap == GRIB1_STORED,
        f->bitmap == GRIB1_CARRIED ? start + gds_len + 6 : 0, f->bitmap == GRIB1_WITHOUT ? 0 : (POINTS + 7) / 8);
    same(grib1_data_number(out, len, lent, store, lent_len, POINTS - 1).kind, GRIB1_PRESENT);
    same(grib1_data_number(out, len, lent, store, lent_len, POINTS - 1).data_number, present - 1);
    same(grib1_data_number(out, len, lent, store, lent_len, 3).kind, marks[3] ? GRIB1_PRESENT : GRIB1_ABSENT);
    same(grib1_data_number(out, len, lent, store, lent_len, POINTS).kind, GRIB1_OUTSIDE);
    as_read(__LINE__, out, len, lent, store, lent_len, 11);
    d = grib1_display(out, len, lent, store, lent_len);
    same_reply(__LINE__, d, GRIB1_ACCEPTED, 0, 0);
    same(d.reference, r == 0 ? 0 : -100);
    same(d.step, 1);
}

/* A field of an octant, written and packed: len octets, with a BMS and a BDS of so many. */
static void message(int number, uint32_t given, uint32_t bitmap, uint8_t bits, uint32_t len, uint32_t bms, uint32_t bds)
{
    Grib1Form f = field(number, given, bitmap, bits);
    uint16_t lent = f.bitmap_number;
    size_t lent_len = lent ? sizeof store : 0;
    uint32_t present = 0, k;
    Grib1Written w = grib1_length(pds, PDS, f, lent, store, lent_len, marks, POINTS);

    for (k = 0; k < POINTS; k++)
        present += marks[k];
    same(w.reply, GRIB1_ACCEPTED);
    same(w.len, len);
    same(grib1_length(pds, PDS, f, lent, store, lent_len, marks, POINTS - 1).reply, GRIB1_LISTS);

    memset(out, 0xAA, sizeof out);
    w = grib1_write(pds, PDS, f, 0, 0, lent, store, lent_len, values, POINTS - 1, marks, POINTS, out, sizeof out);
    same(w.reply, GRIB1_LISTS);
    w = grib1_write(pds, PDS, f, 0, 0, lent, store, lent_len, values, POINTS, marks, POINTS, out, len - 1);
    same(w.reply, GRIB1_ROOM);
    same(w.len, 0);
    same(out[0], 0xAA);
    w = grib1_write(pds, PDS, f, 0, 0, lent, store, lent_len, values, POINTS, marks, POINTS, out, sizeof out);
    same(w.reply, GRIB1_ACCEPTED);
    same(w.len, len);
    same(out[len], 0xAA);
    describe(number);
    same(memcmp(out + 8, pds, PDS), 0);
    if (given)
        same(memcmp(out + 8 + PDS, gds, GDS), 0);
    reads(number, &f, 0, len, present, bms, bds);

    w = grib1_pack(pds, PDS, f, lent, store, lent_len, numbers, POINTS, marks, POINTS, -1, out, len);
    same(w.reply, GRIB1_ACCEPTED);
    same(w.len, len);
    if (given)
        same(memcmp(out + 8 + PDS, gds, GDS), 0);
    reads(number, &f, 0xC2640000, len, present, bms, bds);
    same(grib1_check(out, len, lent, store, lent_len, numbers, POINTS, marks, POINTS, -1).reply, GRIB1_ACCEPTED);
    same(grib1_check(out, len, lent, store, lent_len, numbers, POINTS, marks, POINTS, 0).reply, GRIB1_DIFFERS);
    same(grib1_check(out, len, lent, store, lent_len, numbers, POINTS - 1, marks, POINTS - 1, -1).reply, GRIB1_DIFFERS);
    numbers[POINTS - 1]++;
    same(grib1_check(out, len, lent, store, lent_len, numbers, POINTS, marks, POINTS, -1).reply, GRIB1_OUT);
    same(grib1_pack(pds, PDS, f, lent, store, lent_len, numbers, POINTS, marks, POINTS, 1, out, len).reply,
        GRIB1_DIFFERS);
}

/* a grid that the writer, the packer and the telling of a length refuse by 9, however its points would be counted */
static void unwritten(int line, Grib1Grid g)
{
    Grib1Form f = field(37, 1, GRIB1_WITHOUT, 8);

    f.grid = g;
    same_at(line, grib1_length(pds, PDS, f, 0, none, 0, marks, POINTS).reply, GRIB1_GRID);
    memset(out, 0xAA, 8);
    same_at(line, grib1_write(pds, PDS, f, 0, 0, 0, none, 0, values, POINTS, marks, POINTS, out, ROOM).reply,
        GRIB1_GRID);
    same_at(line, grib1_pack(pds, PDS, f, 0, none, 0, numbers, POINTS, marks, POINTS, -1, out, ROOM).reply, GRIB1_GRID);
    same_at(line, out[0], 0xAA);
}

#define other(number, field, x) (g = octant(number), g.field = (x), unwritten(__LINE__, g))

static void refused_forms(void)
{
    Grib1Form f = field(37, 1, GRIB1_WITHOUT, 8);
    Grib1Grid g;

    other(37, rows, 3);
    other(37, rows, 255);
    other(37, rows, GRIB1_ROWS_EVEN);
    other(37, rows, GRIB1_ROWS_FROM_POLE);
    other(41, rows, GRIB1_ROWS_FROM_EQUATOR);
    other(37, la1, 1);
    other(37, la2, 89999);
    other(41, la1, -89999);
    other(41, la2, 1);
    other(37, lo1, -30000);
    other(37, lo1, 60000);
    other(38, lo2, 240000);
    other(44, lo2, -30000);
    other(37, ni, 73);
    other(37, nj, 72);
    other(37, nj, GRIB1_MISSING);
    other(37, di, 1250);
    other(37, dj, GRIB1_MISSING);
    other(37, resolution, 0);
    other(37, scan, 0);
    other(37, scan, GRIB1_SCAN_NORTH + 1);
    other(37, scan, GRIB1_SCAN_NORTH + GRIB1_SCAN_WEST);

    /* a rectangle of as many points is one, and is not thinned */
    f.grid.ni = 9;
    f.grid.nj = 383;
    unwritten(__LINE__, f.grid);
    f.grid.rows = GRIB1_ROWS_EVEN;
    same(grib1_length(pds, PDS, f, 0, none, 0, marks, POINTS).reply, GRIB1_ACCEPTED);
}

/* the reply to octant 37's message with one octet of its GDS changed */
static uint32_t changed(uint32_t octet, uint8_t x)
{
    Grib1Form f = field(37, 1, GRIB1_WITHOUT, 8);
    uint32_t len = grib1_write(pds, PDS, f, 0, 0, 0, none, 0, values, POINTS, marks, POINTS, out, ROOM).len;

    out[8 + PDS + octet - 1] = x;
    return grib1_header(out, len, 0, none, 0).reply;
}

static void refused_messages(void)
{
    static const uint8_t numbers_beside[4] = {36, 46, 0, 255};
    Grib1Form f;
    uint32_t k;

    same(changed(4, 1), GRIB1_GDS);
    same(changed(4, 255), GRIB1_GDS);
    same(changed(5, 255), GRIB1_GDS);
    same(changed(5, 32), GRIB1_GDS);
    same(changed(6, 10), GRIB1_GDS);
    same(changed(7, 0), GRIB1_GRID);
    same(changed(10, 72), GRIB1_GRID);
    same(changed(13, 1), GRIB1_GRID);
    same(changed(11, 0x80), GRIB1_ACCEPTED); /* minus zero is 0 */
    same(changed(14, 0x85), GRIB1_GRID);
    same(changed(17, 0), GRIB1_GRID);
    same(changed(20, 0x91), GRIB1_GRID);
    same(changed(23, 0x61), GRIB1_GRID);
    same(changed(25, 0xFE), GRIB1_GRID);
    same(changed(27, 0xE1), GRIB1_GRID);
    same(changed(28, 0), GRIB1_GRID);
    same(changed(28, 65), GRIB1_GRID);
    for (k = 29; k <= 32; k++)
        same(changed(k, 255), GRIB1_ACCEPTED); /* "reserved, ignored on reading" */
    for (k = 33; k <= GDS; k++)
        same(changed(k, 1), GRIB1_GRID);

    /* octet 5 of a rectangle's GDS says that counts follow */
    f = field(37, 1, GRIB1_WITHOUT, 8);
    f.grid.ni = 9;
    f.grid.nj = 383;
    f.grid.rows = GRIB1_ROWS_EVEN;
    k = grib1_write(pds, PDS, f, 0, 0, 0, none, 0, values, POINTS, marks, POINTS, out, ROOM).len;
    same(grib1_header(out, k, 0, none, 0).reply, GRIB1_ACCEPTED);
    out[8 + PDS + 5 - 1] = 33;
    same(grib1_header(out, k, 0, none, 0).reply, GRIB1_GDS);

    for (k = 0; k < 4; k++) {
        f = field(numbers_beside[k], 0, GRIB1_WITHOUT, 8);
        same(grib1_length(pds, PDS, f, 0, none, 0, marks, POINTS).reply, GRIB1_NO_GRID);
    }
    /* PDS octet 7 is not compared with a GDS */
    f = field(37, 1, GRIB1_WITHOUT, 8);
    pds[6] = 255;
    k = grib1_write(pds, PDS, f, 0, 0, 0, none, 0, values, POINTS, marks, POINTS, out, ROOM).len;
    same_grid(__LINE__, grib1_header(out, k, 0, none, 0).grid, octant(37));
}

/* octant 37's message with a bitmap, 4,804 octets, where the section that starts at a place says another length */
static void said(int line, uint32_t start, uint32_t length, uint32_t reply, uint32_t section, uint32_t place)
{
    Grib1Form f = field(37, 1, GRIB1_CARRIED, 12);
    uint32_t len = grib1_write(pds, PDS, f, 0, 0, 0, none, 0, values, POINTS, marks, POINTS, out, ROOM).len;
    Grib1Display d;
    Grib1Checked c;

    put(out + start - 1, length, 3);
    same_stop(line, grib1_header(out, len, 0, none, 0), reply, section, place);
    same_stop(line, grib1_read(out, len, 0, none, 0, read_values, POINTS, read_marks, POINTS), reply, section, place);
    d = grib1_display(out, len, 0, none, 0);
    same_reply(line, d, reply, section, place);
    c = grib1_check(out, len, 0, none, 0, numbers, POINTS, marks, POINTS, -1);
    same_reply(line, c, reply, section, place);
    unanswered(line, out, len, 0, none, 0, reply, section, place);
}

/* section lengths that went wrong about a GDS of 178 octets: it starts at 37, the BMS at 215, the BDS at 653, the end
 * section at 4801 */
static void lengths(void)
{
    said(__LINE__, 37, 177, GRIB1_LENGTH_ODD, GRIB1_SECTION_GDS, 37);
    said(__LINE__, 37, 179, GRIB1_LENGTH_ODD, GRIB1_SECTION_GDS, 37);
    said(__LINE__, 37, 30, GRIB1_LENGTH_BOUNDS, GRIB1_SECTION_GDS, 37);
    said(__LINE__, 37, 32, GRIB1_LENGTH_PASSES, GRIB1_SECTION_BMS, 69); /* the counts are taken for a BMS */
    said(__LINE__, 37, 4764, GRIB1_LENGTH_PASSES, GRIB1_SECTION_BMS, 4801);
    said(__LINE__, 37, 4766, GRIB1_LENGTH_PASSES, GRIB1_SECTION_GDS, 37);
    said(__LINE__, 215, 437, GRIB1_LENGTH_ODD, GRIB1_SECTION_BMS, 215);
    said(__LINE__, 215, 4, GRIB1_LENGTH_BOUNDS, GRIB1_SECTION_BMS, 215);
    said(__LINE__, 215, 4586, GRIB1_LENGTH_PASSES, GRIB1_SECTION_BDS, 4801);
    said(__LINE__, 215, 4588, GRIB1_LENGTH_PASSES, GRIB1_SECTION_BMS, 215);
    said(__LINE__, 653, 4149, GRIB1_LENGTH_ODD, GRIB1_SECTION_BDS, 653);
    said(__LINE__, 653, 10, GRIB1_LENGTH_BOUNDS, GRIB1_SECTION_BDS, 653);
    said(__LINE__, 653, 4150, GRIB1_LENGTH_PASSES, GRIB1_SECTION_BDS, 653);
    said(__LINE__, 653, 4146, GRIB1_LEFT_OVER, GRIB1_SECTION_END, 4799);
    said(__LINE__, 653, 12, GRIB1_LEFT_OVER, GRIB1_SECTION_END, 665);
}

static void written_back(const char *name)
{
    FILE *file = fopen(name, "rb");
    size_t len = file ? fread(out, 1, sizeof out, file) : 0;
    Grib1Header h = grib1_read(out, len, 0, none, 0, read_values, POINTS, read_marks, POINTS);
    Grib1Form f = {
        .given = h.gds.len > 0, .bitmap = h.bitmap, .grid = h.grid, .bitmap_number = h.bitmap_number,
        .packing_flags = h.packing_flags, .bits = h.bits,
    };
    Grib1Written w = grib1_write(out + h.pds.start, h.pds.len, f, h.e, h.r, 0, none, 0, read_values, h.points,
        read_marks, h.points, again, sizeof again);

    same(h.reply, GRIB1_ACCEPTED);
    same(h.points, POINTS);
    same(w.reply, GRIB1_ACCEPTED);
    same(w.len, len);
    same(memcmp(out, again, len), 0);
    if (file)
        fclose(file);
}

int main(int words, char **word)
{
    int number, k;

    for (number = 37; number <= 44; number++) {
        places(number);
        nowhere(octant(number), 3);
        nowhere(octant(number), 255);
        /* 8 + 28 octets, 178 of a GDS, a BMS and a BDS, 4 */
        message(number, 1, GRIB1_WITHOUT, 12, 5400, 0, 5182);
        message(number, 0, GRIB1_WITHOUT, 12, 5222, 0, 5182);
        message(number, 1, GRIB1_CARRIED, 12, 4804, 438, 4148);
        message(number, 0, GRIB1_CARRIED, 12, 4626, 438, 4148);
        message(number, 0, GRIB1_STORED, 0, 58, 6, 12);
        message(number, 1, GRIB1_STORED, 24, 8510, 6, 8286);
    }
    nowhere(grib1_header(none, 0, 0, none, 0).grid, GRIB1_ROWS_EVEN);
    refused_forms();
    refused_messages();
    lengths();
    for (k = 1; k < words; k++)
        written_back(word[k]);
    return differ;
}
