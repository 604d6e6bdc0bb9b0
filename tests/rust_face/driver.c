/* One call of the codec for a program that cannot link the archive: rust/src/driver.rs, on another processor than
 * x86-64.
 *
 * Standard input: the number of the function, then its arguments in the order of include/grib1.h, a number as four
 * octets, a form or a grid as its octets, a buffer as its count of elements and their octets. Standard output: the
 * octets of the record or number that is answered, then those of each buffer that is written. */
#include <stdio.h>
#include <string.h>

#include "grib1.h"

enum { ROOM = 4194304 };

static uint8_t asked[ROOM];
static size_t at;

static uint64_t room[ROOM / 8];
static size_t taken;

static uint32_t word(void)
{
    uint32_t x;
    memcpy(&x, asked + at, 4);
    at += 4;
    return x;
}

/* a buffer, copied to where any element may stand */
static void *list(size_t width, size_t *len)
{
    uint64_t *p = room + taken;
    *len = word();
    memcpy(p, asked + at, *len * width);
    at += *len * width;
    taken += *len * width / 8 + 1;
    return p;
}

static Grib1Form form(void)
{
    Grib1Form f;
    memcpy(&f, asked + at, sizeof f);
    at += sizeof f;
    return f;
}

static Grib1Grid grid(void)
{
    Grib1Grid g;
    memcpy(&g, asked + at, sizeof g);
    at += sizeof g;
    return g;
}

static void answer(const void *from, size_t octets)
{
    fwrite(from, 1, octets, stdout);
}

static void about_message(uint32_t function)
{
    size_t m_len, s_len, values_len, marks_len;
    uint8_t *m = list(1, &m_len);
    uint16_t number = (uint16_t)word();
    uint8_t *s = list(1, &s_len);
    Grib1Header header;
    Grib1Part part;
    Grib1Display display;
    Grib1Data data;
    Grib1Checked checked;
    Grib1Indexed indexed;
    Grib1Cursor cursor;
    uint32_t *values, row;
    int32_t *numbers;
    uint8_t *marks;

    switch (function) {
    case 0:
        header = grib1_header(m, m_len, number, s, s_len);
        answer(&header, sizeof header);
        break;
    case 1:
        values = list(4, &values_len);
        marks = list(1, &marks_len);
        header = grib1_read(m, m_len, number, s, s_len, values, values_len, marks, marks_len);
        answer(&header, sizeof header);
        answer(values, values_len * 4);
        answer(marks, marks_len);
        break;
    case 2:
        part = grib1_section(m, m_len, number, s, s_len, word());
        answer(&part, sizeof part);
        break;
    case 3:
        part = grib1_bitmap(m, m_len, number, s, s_len);
        answer(&part, sizeof part);
        break;
    case 4:
        display = grib1_display(m, m_len, number, s, s_len);
        answer(&display, sizeof display);
        break;
    case 5:
        data = grib1_data_number(m, m_len, number, s, s_len, word());
        answer(&data, sizeof data);
        break;
    case 6:
        numbers = list(4, &values_len);
        marks = list(1, &marks_len);
        checked = grib1_check(m, m_len, number, s, s_len, numbers, values_len, marks, marks_len, (int32_t)word());
        answer(&checked, sizeof checked);
        break;
    case 13:
        values = list(4, &values_len);
        indexed = grib1_index(m, m_len, number, s, s_len, values, values_len);
        answer(&indexed, sizeof indexed);
        answer(values, values_len * 4);
        break;
    case 14:
        values = list(4, &values_len);
        row = word();
        cursor = grib1_cursor(m, m_len, number, s, s_len, values, values_len, row, word());
        answer(&cursor, sizeof cursor);
        break;
    }
}

static void on_chart(uint32_t function)
{
    Grib1Grid g = grid();
    uint32_t first = word();
    Grib1Place place;
    Grib1Point point;
    uint32_t columns;

    if (function == 7) {
        place = grib1_place(g, first);
        answer(&place, sizeof place);
    } else if (function == 8) {
        point = grib1_point(g, first, word());
        answer(&point, sizeof point);
    } else {
        columns = grib1_row(g, first);
        answer(&columns, sizeof columns);
    }
}

static void to_message(uint32_t function)
{
    size_t pds_len, s_len, list_len, marks_len, out_len;
    uint8_t *pds = list(1, &pds_len);
    Grib1Form f = form();
    int32_t e = 0, d;
    uint32_t r = 0;
    uint16_t number;
    uint8_t *s, *marks, *out;
    void *numbers;
    Grib1Written w;

    if (function == 10) {
        e = (int32_t)word();
        r = word();
    }
    number = (uint16_t)word();
    s = list(1, &s_len);
    numbers = list(4, &list_len);
    marks = list(1, &marks_len);
    if (function == 10) {
        out = list(1, &out_len);
        w = grib1_write(pds, pds_len, f, e, r, number, s, s_len, numbers, list_len, marks, marks_len, out, out_len);
    } else {
        d = (int32_t)word();
        out = list(1, &out_len);
        w = grib1_pack(pds, pds_len, f, number, s, s_len, numbers, list_len, marks, marks_len, d, out, out_len);
    }
    answer(&w, sizeof w);
    answer(out, out_len);
}

static void before_message(void)
{
    size_t pds_len, s_len, marks_len;
    uint8_t *pds = list(1, &pds_len);
    Grib1Form f = form();
    uint16_t number = (uint16_t)word();
    uint8_t *s = list(1, &s_len);
    uint8_t *marks = list(1, &marks_len);
    Grib1Written w = grib1_length(pds, pds_len, f, number, s, s_len, marks, marks_len);

    answer(&w, sizeof w);
}

int main(void)
{
    uint32_t function;

    if (fread(asked, 1, sizeof asked, stdin) == sizeof asked)
        return 2;
    function = word();
    if (function < 7 || function > 12)
        about_message(function);
    else if (function < 10)
        on_chart(function);
    else if (function < 12)
        to_message(function);
    else
        before_message();
    return 0;
}
