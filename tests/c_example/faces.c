/* Every function of include/grib1.h on document 01's specimen, each field of each record compared: what the header
 * declares is what the archive has. Prints the lines of what differs, and ends with 1 where any does. */
#include <string.h>

#define TEST "faces.c"
#include "by_index.h"
#include "specimen.h"

static const Grib1Grid specimen_grid = {
    .la1 = 50000, .lo1 = -2000, .la2 = 51000, .lo2 = -1000, .ni = 2, .nj = 2, .di = 1000, .dj = 1000,
    .resolution = 128, .scan = GRIB1_SCAN_NORTH, .rows = GRIB1_ROWS_EVEN, .kind = GRIB1_LATLON,
};

static void is_specimen(int line, Grib1Header h)
{
    same_reply(line, h, GRIB1_ACCEPTED, 0, 0);
    same_at(line, h.points, 4);
    same_at(line, h.present, 3);
    same_at(line, h.d, 1);
    same_at(line, h.e, 0);
    same_at(line, h.r, 0x439C4000);
    same_at(line, h.bitmap, GRIB1_CARRIED);
    same_grid(line, h.grid, specimen_grid);
    same_part(line, h.pds, 0, 8, 28);
    same_part(line, h.gds, 0, 36, 32);
    same_part(line, h.bms, 0, 68, 8);
    same_part(line, h.bds, 0, 76, 14);
    same_at(line, h.bitmap_number, 0);
    same_at(line, h.year, 1998);
    same_at(line, h.month, 3);
    same_at(line, h.day, 10);
    same_at(line, h.hour, 6);
    same_at(line, h.minute, 0);
    same_at(line, h.packing_flags, 0);
    same_at(line, h.bits, 3);
}

static void reading(void)
{
    uint32_t values[5] = {9, 9, 9, 9, 9};
    uint8_t marks[5] = {9, 9, 9, 9, 9};
    static const uint32_t x[5] = {0, 2, 0, 7, 9};
    static const uint8_t m[5] = {1, 1, 0, 1, 9};
    static const uint8_t nines[5] = {9, 9, 9, 9, 9};
    int i;

    is_specimen(__LINE__, grib1_header(specimen, 94, 0, none, 0));
    same_refusal(__LINE__, grib1_header(specimen, 93, 0, none, 0), GRIB1_TOTAL);
    same_refusal(__LINE__, grib1_header(specimen, 0, 0, none, 0), GRIB1_SIZE);
    same_refusal(__LINE__, grib1_read(specimen, 94, 0, none, 0, values, 3, marks, 5), GRIB1_ROOM);
    same_refusal(__LINE__, grib1_read(specimen, 94, 0, none, 0, values, 5, marks, 3), GRIB1_ROOM);
    for (i = 0; i < 5; i++)
        same(values[i], 9);
    same(memcmp(marks, nines, 5), 0);
    is_specimen(__LINE__, grib1_read(specimen, 94, 0, none, 0, values, 5, marks, 5));
    for (i = 0; i < 5; i++)
        same(values[i], x[i]);
    same(memcmp(marks, m, 5), 0);
}

static void parts(void)
{
    static const uint32_t start[8] = {0, 8, 36, 68, 76, 90, 0, 0};
    static const uint32_t len[8] = {8, 28, 32, 8, 14, 4, 0, 0};
    Grib1Display d = grib1_display(specimen, 94, 0, none, 0);
    uint32_t k;

    for (k = 0; k < 8; k++)
        same_part(__LINE__, grib1_section(specimen, 94, 0, none, 0, k), 0, start[k], len[k]);
    same_part(__LINE__, grib1_section(specimen, 94, 0, none, 0, 0xFFFFFFFF), 0, 0, 0);
    same_part(__LINE__, grib1_section(specimen, 93, 0, none, 0, 1), 0, 0, 0);
    same_part(__LINE__, grib1_bitmap(specimen, 94, 0, none, 0), 0, 74, 1);
    same_part(__LINE__, grib1_bitmap(specimen, 93, 0, none, 0), 0, 0, 0);
    same_reply(__LINE__, d, GRIB1_ACCEPTED, 0, 0);
    same(d.reference, 2500);
    same(d.step, 1);
    d = grib1_display(specimen, 93, 0, none, 0);
    same_reply(__LINE__, d, GRIB1_TOTAL, 0, 0);
    same(d.reference, 0);
    same(d.step, 0);
}

static void points(void)
{
    static const uint32_t row[5] = {1, 1, 0, 0, 0};
    static const uint32_t column[5] = {0, 1, 0, 1, 0};
    static const uint32_t kind[5] = {GRIB1_PRESENT, GRIB1_PRESENT, GRIB1_ABSENT, GRIB1_PRESENT, GRIB1_OUTSIDE};
    static const uint32_t number[5] = {0, 1, 0, 2, 0};
    Grib1Grid grid = grib1_header(specimen, 94, 0, none, 0).grid;
    uint32_t k;

    for (k = 0; k < 5; k++) {
        Grib1Place p = grib1_place(grid, k);
        Grib1Data d = grib1_data_number(specimen, 94, 0, none, 0, k);
        same(p.on, k < 4);
        same(p.row, row[k]);
        same(p.column, column[k]);
        same(d.kind, kind[k]);
        same(d.data_number, number[k]);
        if (k < 4) {
            Grib1Point back = grib1_point(grid, p.row, p.column);
            same(back.on, 1);
            same(back.point, k);
        }
    }
    same(grib1_point(grid, 2, 0).on, 0);
    same(grib1_point(grid, 0, 2).point, 0);
    same(grib1_data_number(specimen, 93, 0, none, 0, 0).kind, GRIB1_OUTSIDE);
    same(grib1_row(grid, 0), 2);
    same(grib1_row(grid, 1), 2);
    same(grib1_row(grid, 2), 0);
    same(grib1_row(grid, 0xFFFFFFFF), 0);

    /* rows of a number that has no name: no points */
    grid.rows = 3;
    same(grib1_row(grid, 0), 0);
    same(grib1_place(grid, 0).on, 0);
    same(grib1_point(grid, 0, 0).on, 0);
    grid.rows = GRIB1_ROWS_EVEN;

    /* columns and rows are not taken for each other, and any numbers will do */
    grid.ni = GRIB1_MISSING;
    same(grib1_row(grid, 1), GRIB1_MISSING);
    same(grib1_row(grid, 2), 0);
    grid.nj = GRIB1_MISSING;
    grid.ni = 0;
    same(grib1_row(grid, GRIB1_MISSING - 1), 0);
    grid.ni = 1;
    same(grib1_row(grid, GRIB1_MISSING - 1), 1);
    same(grib1_row(grid, GRIB1_MISSING), 0);
}

static void under_cursor(void)
{
    static const uint32_t kind[4] = {GRIB1_ABSENT, GRIB1_PRESENT, GRIB1_PRESENT, GRIB1_PRESENT};
    static const uint32_t value[4] = {0, 7, 0, 2};
    uint32_t index[3] = {9, 9, 9}, k;
    Grib1Cursor u;

    same_indexed(__LINE__, grib1_index(specimen, 94, 0, none, 0, index, 0), GRIB1_ROOM, 0, 0, 0);
    unanswered(__LINE__, specimen, 93, 0, none, 0, GRIB1_TOTAL, 0, 0);
    unanswered(__LINE__, specimen, 0, 0, none, 0, GRIB1_SIZE, 0, 0);
    same(index[0], 9);
    same_indexed(__LINE__, grib1_index(specimen, 94, 0, none, 0, index, 3), GRIB1_ACCEPTED, 0, 0, 1);
    same(index[0], 0);
    same(index[1], 9);
    same(index[2], 9);
    for (k = 0; k < 4; k++) {
        u = grib1_cursor(specimen, 94, 0, none, 0, index, 1, k / 2, k % 2);
        same_under(__LINE__, u, GRIB1_ACCEPTED, 0, 0, kind[k], value[k]);
        u = grib1_cursor(specimen, 94, 0, none, 0, index, 0, k / 2, k % 2);
        same_under(__LINE__, u, GRIB1_INDEX, 0, 0, GRIB1_OUTSIDE, 0);
    }
    u = grib1_cursor(specimen, 94, 0, none, 0, index, 1, 2, 0);
    same_under(__LINE__, u, GRIB1_OFF_CHART, 0, 0, GRIB1_OUTSIDE, 0);
    u = grib1_cursor(specimen, 94, 0, none, 0, index, 1, 0, 2);
    same_under(__LINE__, u, GRIB1_OFF_CHART, 0, 0, GRIB1_OUTSIDE, 0);
    as_read(__LINE__, specimen, 94, 0, none, 0, 1);
}

static void writing(void)
{
    static const uint32_t values[4] = {0, 2, 0, 7};
    static const uint8_t marks[4] = {1, 1, 0, 1};
    static const int32_t numbers[4] = {2500, 2502, 77, 2507};
    static const int32_t far[4] = {2500, 2502, 77, 2508};
    static const uint8_t store[1] = {0xDF};
    const uint8_t *pds = specimen + 8;
    Grib1Header h = grib1_header(specimen, 94, 0, none, 0);
    Grib1Form form;
    Grib1Written w;
    Grib1Checked c;
    uint8_t out[96];

    form.given = 1;
    form.bitmap = h.bitmap;
    form.grid = h.grid;
    form.bitmap_number = h.bitmap_number;
    form.packing_flags = h.packing_flags;
    form.bits = h.bits;

    w = grib1_length(pds, 28, form, 0, none, 0, marks, 4);
    same(w.reply, GRIB1_ACCEPTED);
    same(w.len, 94);
    w = grib1_length(pds, 28, form, 0, none, 0, marks, 3);
    same(w.reply, GRIB1_LISTS);
    same(w.len, 0);
    same(grib1_length(pds, 27, form, 0, none, 0, marks, 4).reply, GRIB1_LENGTHS);

    memset(out, 0xAA, sizeof out);
    w = grib1_write(pds, 28, form, h.e, h.r, 0, none, 0, values, 4, marks, 4, out, 93);
    same(w.reply, GRIB1_ROOM);
    same(w.len, 0);
    same(out[0], 0xAA);
    w = grib1_write(pds, 28, form, h.e, h.r, 0, none, 0, values, 4, marks, 4, out, 96);
    same(w.reply, GRIB1_ACCEPTED);
    same(w.len, 94);
    same(memcmp(out, specimen, 94), 0);
    same(out[94], 0xAA);

    memset(out, 0xAA, sizeof out);
    w = grib1_pack(pds, 28, form, 0, none, 0, numbers, 4, marks, 4, 1, out, 96);
    same(w.reply, GRIB1_ACCEPTED);
    same(w.len, 94);
    same(memcmp(out, specimen, 94), 0);
    same(grib1_pack(pds, 28, form, 0, none, 0, numbers, 4, marks, 4, 2, out, 96).reply, GRIB1_DIFFERS);

    c = grib1_check(specimen, 94, 0, none, 0, numbers, 4, marks, 4, 1);
    same_reply(__LINE__, c, GRIB1_ACCEPTED, 0, 0);
    c = grib1_check(specimen, 94, 0, none, 0, far, 4, marks, 4, 1);
    same_reply(__LINE__, c, GRIB1_OUT, 0, 0);
    c = grib1_check(specimen, 94, 0, none, 0, numbers, 4, marks, 4, -1);
    same_reply(__LINE__, c, GRIB1_DIFFERS, 0, 0);
    c = grib1_check(specimen, 94, 0, none, 0, numbers, 3, marks, 4, 1);
    same_reply(__LINE__, c, GRIB1_SOURCE, 0, 0);
    c = grib1_check(specimen, 93, 0, none, 0, numbers, 4, marks, 4, 1);
    same_reply(__LINE__, c, GRIB1_TOTAL, 0, 0);

    /* kinds that have no name */
    form.grid.rows = 3;
    same(grib1_write(pds, 28, form, 0, h.r, 0, none, 0, values, 4, marks, 4, out, 96).reply, GRIB1_GRID);
    same(grib1_pack(pds, 28, form, 0, none, 0, numbers, 4, marks, 4, 1, out, 96).reply, GRIB1_GRID);
    same(grib1_length(pds, 28, form, 0, none, 0, marks, 4).reply, GRIB1_GRID);
    form.grid.rows = 255;
    same(grib1_write(pds, 28, form, 0, h.r, 0, none, 0, values, 4, marks, 4, out, 96).reply, GRIB1_GRID);
    form.grid.rows = GRIB1_ROWS_EVEN;
    form.given = 2;
    form.bitmap = 3;
    same(grib1_write(pds, 28, form, 0, h.r, 0, none, 0, values, 4, marks, 4, out, 96).reply, GRIB1_GRID);
    form.given = 1;
    same(grib1_write(pds, 28, form, 0, h.r, 0, none, 0, values, 4, marks, 4, out, 96).reply, GRIB1_BITMAP);
    same(grib1_pack(pds, 28, form, 0, none, 0, numbers, 4, marks, 4, 1, out, 96).reply, GRIB1_BITMAP);
    same(grib1_length(pds, 28, form, 0, none, 0, marks, 4).reply, GRIB1_BITMAP);
    form.bitmap = 0xFFFFFFFF;
    same(grib1_write(pds, 28, form, 0, h.r, 0, none, 0, values, 4, marks, 4, out, 96).reply, GRIB1_BITMAP);

    /* a stored bitmap of number 5, and the same message without it */
    form.bitmap = GRIB1_STORED;
    form.bitmap_number = 5;
    w = grib1_write(pds, 28, form, h.e, h.r, 5, store, 1, values, 4, marks, 4, out, 96);
    same(w.reply, GRIB1_ACCEPTED);
    same(w.len, 92);
    same(grib1_length(pds, 28, form, 5, store, 1, marks, 4).len, 92);
    same(grib1_length(pds, 28, form, 6, store, 1, marks, 4).reply, GRIB1_BITMAP);
    same_part(__LINE__, grib1_bitmap(out, 92, 5, store, 1), 1, 0, 1);
    h = grib1_header(out, 92, 5, store, 1);
    same(h.bitmap, GRIB1_STORED);
    same(h.bitmap_number, 5);
    same(h.present, 3);
    same_refusal(__LINE__, grib1_header(out, 92, 0, none, 0), GRIB1_BITMAP);
    same_refusal(__LINE__, grib1_header(out, 92, 6, store, 1), GRIB1_BITMAP);
    same(grib1_data_number(out, 92, 5, store, 1, 3).data_number, 2);
    as_read(__LINE__, out, 92, 5, store, 1, 1);
    unanswered(__LINE__, out, 92, 6, store, 1, GRIB1_BITMAP, 0, 0);
}

int main(void)
{
    same(sizeof(Grib1Grid), 60);
    reading();
    parts();
    points();
    under_cursor();
    writing();
    return differ;
}
