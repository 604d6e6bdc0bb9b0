/* What the tests of the C face share: each comparison that fails prints a line, and differ is 1 from then on. TEST is
 * the name of the test's file. */
#ifndef SAME_H
#define SAME_H

#include <stdio.h>

#include "grib1.h"

static int differ;

static void same_at(int line, double is, double wanted)
{
    if (is != wanted) {
        printf(TEST ":%d: %.17g, not %.17g\n", line, is, wanted);
        differ = 1;
    }
}
#define same(is, wanted) same_at(__LINE__, (double)(is), (double)(wanted))

static void same_part(int line, Grib1Part p, uint32_t stored, uint32_t start, uint32_t len)
{
    same_at(line, p.stored, stored);
    same_at(line, p.start, start);
    same_at(line, p.len, len);
}

static void same_grid(int line, Grib1Grid is, Grib1Grid wanted)
{
    same_at(line, is.la1, wanted.la1);
    same_at(line, is.lo1, wanted.lo1);
    same_at(line, is.la2, wanted.la2);
    same_at(line, is.lo2, wanted.lo2);
    same_at(line, is.lov, wanted.lov);
    same_at(line, is.latin1, wanted.latin1);
    same_at(line, is.latin2, wanted.latin2);
    same_at(line, is.pole_la, wanted.pole_la);
    same_at(line, is.pole_lo, wanted.pole_lo);
    same_at(line, is.dx, wanted.dx);
    same_at(line, is.dy, wanted.dy);
    same_at(line, is.ni, wanted.ni);
    same_at(line, is.nj, wanted.nj);
    same_at(line, is.di, wanted.di);
    same_at(line, is.dj, wanted.dj);
    same_at(line, is.circles, wanted.circles);
    same_at(line, is.resolution, wanted.resolution);
    same_at(line, is.scan, wanted.scan);
    same_at(line, is.rows, wanted.rows);
    same_at(line, is.kind, wanted.kind);
    same_at(line, is.centre, wanted.centre);
}

/* a header's, a display's or a check's reply, and what it tells */
#define same_reply(line, is, number, told_section, told_place) \
    (same_at(line, (is).reply, number), same_at(line, (is).section, told_section), \
        same_at(line, (is).place, told_place))

/* every field 0 but the reply and what it tells */
static void same_stop(int line, Grib1Header h, uint32_t reply, uint32_t section, uint32_t place)
{
    static const Grib1Grid zeros;

    same_reply(line, h, reply, section, place);
    same_at(line, h.points + h.present + h.r + h.bitmap, 0);
    same_at(line, h.d, 0);
    same_at(line, h.e, 0);
    same_grid(line, h.grid, zeros);
    same_part(line, h.pds, 0, 0, 0);
    same_part(line, h.gds, 0, 0, 0);
    same_part(line, h.bms, 0, 0, 0);
    same_part(line, h.bds, 0, 0, 0);
    same_at(line, h.bitmap_number + h.year + h.month + h.day + h.hour + h.minute + h.packing_flags + h.bits, 0);
}

/* every field 0 but the reply */
#define same_refusal(line, h, reply) same_stop(line, h, reply, 0, 0)

#endif
