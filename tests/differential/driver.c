/* Calls of the codec for a program that cannot link the archive, one after another.
 *
 * Standard input: calls, each a count of octets and so many octets: the number of the function, then its arguments in the order of include/grib1.h, a
 * number as four octets, a form or a grid field by field, a buffer as its count of elements and their octets. Numbers are little endian.
 * Standard output: answers, each a count of octets and so many octets: the record field by field, four octets each and eight for a double; each buffer
 * that may be written, whole; and last 1 where nothing else has changed: the buffers that are only read, and what stands behind every buffer, else 0. */
#include <stdio.h>
#include <string.h>

#include "grib1.h"

enum { ROOM = 8 * 1048576, GUARD = 64, BUFFERS = 8 };

static uint8_t asked[ROOM];
static uint8_t before[ROOM];
static uint64_t room[ROOM / 8];
static uint8_t answer[ROOM];
static size_t at, taken, answered;

/* the buffers of this call: where each stands, its octets with those behind it, and whether it may be written */
static struct {
    uint8_t *start;
    size_t octets;
    int written;
} buffers[BUFFERS];
static int count;

static uint32_t word(void)
{
    uint32_t x;
    memcpy(&x, asked + at, 4);
    at += 4;
    return x;
}

/* a buffer, copied to where any element may stand, with octets behind it that no call may touch */
static void *list(size_t width, int written, size_t *len)
{
    uint8_t *p = (uint8_t *)(room + taken);
    *len = word();
    memcpy(p, asked + at, *len * width);
    memset(p + *len * width, 0xA5, GUARD);
    at += *len * width;
    buffers[count].start = p;
    buffers[count].octets = *len * width;
    buffers[count].written = written;
    memcpy(before + taken * 8, p, *len * width + GUARD);
    taken += (*len * width + GUARD) / 8 + 1;
    count++;
    return p;
}

static void say(const void *from, size_t octets)
{
    memcpy(answer + answered, from, octets);
    answered += octets;
}

static void tell(uint32_t x)
{
    say(&x, 4);
}

static void tell_grid(Grib1Grid g)
{
    tell((uint32_t)g.la1);
    tell((uint32_t)g.lo1);
    tell((uint32_t)g.la2);
    tell((uint32_t)g.lo2);
    tell((uint32_t)g.lov);
    tell((uint32_t)g.latin1);
    tell((uint32_t)g.latin2);
    tell((uint32_t)g.pole_la);
    tell((uint32_t)g.pole_lo);
    tell(g.dx);
    tell(g.dy);
    tell(g.ni);
    tell(g.nj);
    tell(g.di);
    tell(g.dj);
    tell(g.circles);
    tell(g.resolution);
    tell(g.scan);
    tell(g.rows);
    tell(g.kind);
    tell(g.centre);
}

static void tell_part(Grib1Part p)
{
    tell(p.stored);
    tell(p.start);
    tell(p.len);
}

/* a reply, and the section and the place where a length went wrong, or zeros */
static void tell_reply(uint32_t reply, uint32_t section, uint32_t place)
{
    tell(reply);
    tell(section);
    tell(place);
}

static void tell_header(Grib1Header h)
{
    tell_reply(h.reply, h.section, h.place);
    tell(h.points);
    tell(h.present);
    tell((uint32_t)h.d);
    tell((uint32_t)h.e);
    tell(h.r);
    tell(h.bitmap);
    tell_grid(h.grid);
    tell_part(h.pds);
    tell_part(h.gds);
    tell_part(h.bms);
    tell_part(h.bds);
    tell(h.bitmap_number);
    tell(h.year);
    tell(h.month);
    tell(h.day);
    tell(h.hour);
    tell(h.minute);
    tell(h.packing_flags);
    tell(h.bits);
}

static void tell_written(Grib1Written w)
{
    tell(w.reply);
    tell(w.len);
}

static Grib1Grid grid(void)
{
    Grib1Grid g;
    g.la1 = (int32_t)word();
    g.lo1 = (int32_t)word();
    g.la2 = (int32_t)word();
    g.lo2 = (int32_t)word();
    g.lov = (int32_t)word();
    g.latin1 = (int32_t)word();
    g.latin2 = (int32_t)word();
    g.pole_la = (int32_t)word();
    g.pole_lo = (int32_t)word();
    g.dx = word();
    g.dy = word();
    g.ni = (uint16_t)word();
    g.nj = (uint16_t)word();
    g.di = (uint16_t)word();
    g.dj = (uint16_t)word();
    g.circles = (uint16_t)word();
    g.resolution = (uint8_t)word();
    g.scan = (uint8_t)word();
    g.rows = (uint8_t)word();
    g.kind = (uint8_t)word();
    g.centre = (uint8_t)word();
    return g;
}

static Grib1Form form(void)
{
    Grib1Form f;
    f.given = word();
    f.bitmap = word();
    f.grid = grid();
    f.bitmap_number = (uint16_t)word();
    f.packing_flags = (uint8_t)word();
    f.bits = (uint8_t)word();
    return f;
}

static void about_message(uint32_t function)
{
    size_t m_len, s_len, a_len, b_len;
    uint8_t *m = list(1, 0, &m_len);
    uint16_t number = (uint16_t)word();
    uint8_t *s = list(1, 0, &s_len);
    Grib1Display display;
    Grib1Data data;
    Grib1Checked checked;
    uint32_t *values;
    int32_t *numbers;
    uint8_t *marks;

    switch (function) {
    case 0:
        tell_header(grib1_header(m, m_len, number, s, s_len));
        break;
    case 1:
        values = list(4, 1, &a_len);
        marks = list(1, 1, &b_len);
        tell_header(grib1_read(m, m_len, number, s, s_len, values, a_len, marks, b_len));
        break;
    case 2:
        tell_part(grib1_section(m, m_len, number, s, s_len, word()));
        break;
    case 3:
        tell_part(grib1_bitmap(m, m_len, number, s, s_len));
        break;
    case 4:
        display = grib1_display(m, m_len, number, s, s_len);
        tell_reply(display.reply, display.section, display.place);
        say(&display.reference, 8);
        say(&display.step, 8);
        break;
    case 5:
        data = grib1_data_number(m, m_len, number, s, s_len, word());
        tell(data.kind);
        tell(data.data_number);
        break;
    default:
        numbers = list(4, 0, &a_len);
        marks = list(1, 0, &b_len);
        checked = grib1_check(m, m_len, number, s, s_len, numbers, a_len, marks, b_len, (int32_t)word());
        tell_reply(checked.reply, checked.section, checked.place);
        break;
    }
}

static void about_cursor(uint32_t function)
{
    size_t m_len, s_len, i_len;
    uint8_t *m = list(1, 0, &m_len);
    uint16_t number = (uint16_t)word();
    uint8_t *s = list(1, 0, &s_len);
    uint32_t *index = list(4, function == 13, &i_len);

    if (function == 13) {
        Grib1Indexed indexed = grib1_index(m, m_len, number, s, s_len, index, i_len);
        tell_reply(indexed.reply, indexed.section, indexed.place);
        tell(indexed.entries);
    } else {
        uint32_t row = word();
        uint32_t column = word();
        Grib1Cursor cursor = grib1_cursor(m, m_len, number, s, s_len, index, i_len, row, column);
        tell_reply(cursor.reply, cursor.section, cursor.place);
        tell(cursor.kind);
        tell(cursor.value);
    }
}

static void about_chart(uint32_t function)
{
    Grib1Grid g = grid();
    uint32_t a = word();

    if (function == 7) {
        Grib1Place place = grib1_place(g, a);
        tell(place.on);
        tell(place.row);
        tell(place.column);
    } else if (function == 8) {
        Grib1Point point = grib1_point(g, a, word());
        tell(point.on);
        tell(point.point);
    } else {
        tell(grib1_row(g, a));
    }
}

static void writing(uint32_t function)
{
    size_t pds_len, s_len, a_len, b_len, out_len;
    uint8_t *pds = list(1, 0, &pds_len);
    Grib1Form f = form();
    int32_t e = function == 9 ? (int32_t)word() : 0;
    uint32_t r = function == 9 ? word() : 0;
    uint16_t number = (uint16_t)word();
    uint8_t *s = list(1, 0, &s_len);
    void *a = list(4, 0, &a_len);
    uint8_t *marks = list(1, 0, &b_len);
    int32_t d = function == 9 ? 0 : (int32_t)word();
    uint8_t *out = list(1, 1, &out_len);

    if (function == 9)
        tell_written(grib1_write(pds, pds_len, f, e, r, number, s, s_len, a, a_len, marks, b_len, out, out_len));
    else
        tell_written(grib1_pack(pds, pds_len, f, number, s, s_len, a, a_len, marks, b_len, d, out, out_len));
}

static void before_writing(void)
{
    size_t pds_len, s_len, marks_len;
    uint8_t *pds = list(1, 0, &pds_len);
    Grib1Form f = form();
    uint16_t number = (uint16_t)word();
    uint8_t *s = list(1, 0, &s_len);
    uint8_t *marks = list(1, 0, &marks_len);

    tell_written(grib1_length(pds, pds_len, f, number, s, s_len, marks, marks_len));
}

/* what stands in the buffers now */
static void tell_buffers(void)
{
    uint32_t kept = 1;
    for (int i = 0; i < count; i++) {
        size_t place = (size_t)(buffers[i].start - (uint8_t *)room);
        size_t from = buffers[i].written ? buffers[i].octets : 0;
        if (buffers[i].written)
            say(buffers[i].start, buffers[i].octets);
        if (memcmp(buffers[i].start + from, before + place + from, buffers[i].octets + GUARD - from) != 0)
            kept = 0;
    }
    tell(kept);
}

int main(void)
{
    uint32_t octets;
    while (fread(&octets, 1, 4, stdin) == 4) {
        uint32_t function, len;
        if (octets > ROOM || fread(asked, 1, octets, stdin) != octets)
            return 1;
        at = taken = answered = 0;
        count = 0;
        function = word();
        if (function <= 6)
            about_message(function);
        else if (function <= 8 || function == 12)
            about_chart(function);
        else if (function <= 10)
            writing(function);
        else if (function == 11)
            before_writing();
        else
            about_cursor(function);
        tell_buffers();
        len = (uint32_t)answered;
        fwrite(&len, 1, 4, stdout);
        fwrite(answer, 1, answered, stdout);
        fflush(stdout);
    }
    return 0;
}
