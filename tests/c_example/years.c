/* The year of century, 1 to 100, on document 01's specimen at other dates: taken and told, or refused by 6, by each
 * function that judges a time. Prints the lines of what differs, and ends with 1 where any does. */
#define TEST "years.c"
#include "refused.h"

static uint8_t message[94];

/* century and year of century, month and day of the specimen's PDS */
static void date(uint32_t century, uint32_t year, uint32_t month, uint32_t day)
{
    uint8_t *pds = message + 8;

    memcpy(message, specimen, 94);
    pds[24] = (uint8_t)century;
    pds[12] = (uint8_t)year;
    pds[13] = (uint8_t)month;
    pds[14] = (uint8_t)day;
}

static void told(int line, Grib1Header h, uint32_t year, uint32_t month, uint32_t day)
{
    same_reply(line, h, GRIB1_ACCEPTED, 0, 0);
    same_at(line, h.year, year);
    same_at(line, h.month, month);
    same_at(line, h.day, day);
    same_at(line, h.hour, 6);
    same_at(line, h.minute, 0);
    same_at(line, h.points, 4);
    same_at(line, h.present, 3);
}

/* a day of a year, in the spelling that include/grib1.h gives it: read, checked, written and packed */
static void taken(int line, uint32_t year, uint32_t month, uint32_t day)
{
    Grib1Form form = specimen_form();
    uint32_t read_values[4] = {9, 9, 9, 9}, k;
    uint8_t read_marks[4] = {9, 9, 9, 9}, out[94];
    Grib1Checked c;
    Grib1Written w;

    date((year - 1) / 100 + 1, (year - 1) % 100 + 1, month, day);
    told(line, grib1_header(message, 94, 0, none, 0), year, month, day);
    told(line, grib1_read(message, 94, 0, none, 0, read_values, 4, read_marks, 4), year, month, day);
    for (k = 0; k < 4; k++) {
        same_at(line, read_values[k], values[k]);
        same_at(line, read_marks[k], marks[k]);
    }
    same_at(line, grib1_display(message, 94, 0, none, 0).reference, 2500);
    same_part(line, grib1_section(message, 94, 0, none, 0, GRIB1_SECTION_PDS), 0, 8, 28);
    same_part(line, grib1_bitmap(message, 94, 0, none, 0), 0, 74, 1);
    same_at(line, grib1_data_number(message, 94, 0, none, 0, 3).data_number, 2);
    c = grib1_check(message, 94, 0, none, 0, numbers, 4, marks, 4, 1);
    same_reply(line, c, GRIB1_ACCEPTED, 0, 0);
    same_at(line, grib1_length(message + 8, 28, form, 0, none, 0, marks, 4).len, 94);
    memset(out, 0xAA, sizeof out);
    w = grib1_write(message + 8, 28, form, 0, 0x439C4000, 0, none, 0, values, 4, marks, 4, out, sizeof out);
    same_at(line, w.reply, GRIB1_ACCEPTED);
    same_at(line, memcmp(out, message, 94), 0);
    memset(out, 0xAA, sizeof out);
    w = grib1_pack(message + 8, 28, form, 0, none, 0, numbers, 4, marks, 4, 1, out, sizeof out);
    same_at(line, w.reply, GRIB1_ACCEPTED);
    same_at(line, memcmp(out, message, 94), 0);
}

/* by these octets */
static void not_taken(int line, uint32_t century, uint32_t year, uint32_t month, uint32_t day)
{
    date(century, year, month, day);
    refused(line, message, 94, GRIB1_TIME, 0, 0);
    unwritten(line, message + 8, 28, GRIB1_TIME);
}

int main(void)
{
    static const uint32_t century[6] = {18, 19, 20, 21, 98, 99};
    uint32_t k, year;

    /* the century's last year is 100 of it, and the next century begins a year later */
    taken(__LINE__, 1900, 12, 31);
    taken(__LINE__, 1901, 1, 1);
    taken(__LINE__, 2000, 1, 1);
    taken(__LINE__, 2000, 12, 31);
    taken(__LINE__, 2001, 1, 1);
    taken(__LINE__, 1701, 1, 1);
    taken(__LINE__, 9900, 12, 31);
    date(20, 100, 3, 10);
    told(__LINE__, grib1_header(message, 94, 0, none, 0), 2000, 3, 10);
    date(21, 1, 3, 10);
    told(__LINE__, grib1_header(message, 94, 0, none, 0), 2001, 3, 10);

    /* 29 February goes by the year */
    taken(__LINE__, 2000, 2, 29);
    taken(__LINE__, 2400, 2, 29);
    taken(__LINE__, 1996, 2, 29);
    taken(__LINE__, 1900, 2, 28);
    not_taken(__LINE__, 20, 100, 2, 30);
    not_taken(__LINE__, 19, 100, 2, 29);
    not_taken(__LINE__, 18, 100, 2, 29);
    not_taken(__LINE__, 21, 100, 2, 29);
    not_taken(__LINE__, 99, 100, 2, 29);

    /* 0 and 101 in any century, and 100 in one that is out of its own range */
    for (k = 0; k < 6; k++) {
        not_taken(__LINE__, century[k], 0, 3, 10);
        not_taken(__LINE__, century[k], 101, 3, 10);
        not_taken(__LINE__, century[k], 255, 3, 10);
    }
    not_taken(__LINE__, 21, 0, 2, 29);
    not_taken(__LINE__, 17, 100, 3, 10);
    not_taken(__LINE__, 100, 100, 3, 10);
    not_taken(__LINE__, 0, 100, 3, 10);

    /* and no year between the first and the last is refused */
    for (year = 1701; year <= 9900; year++)
        taken(__LINE__, year, 3, 10);
    return differ;
}
