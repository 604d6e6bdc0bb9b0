/* What every function says of a message, or of a PDS or a form, that is refused: the reply, and no buffer changed. The
 * source and the parts are the specimen's. TEST is the name of the test's file. */
#ifndef REFUSED_H
#define REFUSED_H

#include <string.h>

#include "by_index.h"
#include "specimen.h"

static const int32_t numbers[4] = {2500, 2502, 77, 2507};
static const uint32_t values[4] = {0, 2, 0, 7};
static const uint8_t marks[4] = {1, 1, 0, 1};

static void refused(int line, const uint8_t *message, size_t len, uint32_t reply, uint32_t section, uint32_t place)
{
    uint32_t read_values[4] = {9, 9, 9, 9}, k;
    uint8_t read_marks[4] = {9, 9, 9, 9};
    Grib1Display d = grib1_display(message, len, 0, none, 0);
    Grib1Checked c = grib1_check(message, len, 0, none, 0, numbers, 4, marks, 4, 1);

    same_stop(line, grib1_header(message, len, 0, none, 0), reply, section, place);
    same_stop(line, grib1_read(message, len, 0, none, 0, read_values, 4, read_marks, 4), reply, section, place);
    same_stop(line, grib1_read(message, len, 0, none, 0, read_values, 0, read_marks, 0), reply, section, place);
    for (k = 0; k < 4; k++) {
        same_at(line, read_values[k], 9);
        same_at(line, read_marks[k], 9);
    }
    same_reply(line, d, reply, section, place);
    same_at(line, d.reference, 0);
    same_at(line, d.step, 0);
    same_reply(line, c, reply, section, place);
    c = grib1_check(message, len, 0, none, 0, numbers, 0, marks, 1, 2); /* its own replies come after */
    same_reply(line, c, reply, section, place);
    for (k = 0; k < 6; k++)
        same_part(line, grib1_section(message, len, 0, none, 0, k), 0, 0, 0);
    same_part(line, grib1_bitmap(message, len, 0, none, 0), 0, 0, 0);
    same_at(line, grib1_data_number(message, len, 0, none, 0, 0).kind, GRIB1_OUTSIDE);
    unanswered(line, message, len, 0, none, 0, reply, section, place);
}

/* the form by which the specimen is written */
static Grib1Form specimen_form(void)
{
    Grib1Header h = grib1_header(specimen, 94, 0, none, 0);
    Grib1Form form = {.given = 1, .bitmap = h.bitmap, .grid = h.grid, .bits = h.bits};

    return form;
}

static void unwritten_as(int line, const uint8_t *pds, size_t pds_len, Grib1Form form, uint32_t reply)
{
    uint8_t out[128];
    Grib1Written w[3];
    size_t k;

    memset(out, 0xAA, sizeof out);
    w[0] = grib1_length(pds, pds_len, form, 0, none, 0, marks, 4);
    w[1] = grib1_write(pds, pds_len, form, 0, 0x439C4000, 0, none, 0, values, 4, marks, 4, out, sizeof out);
    w[2] = grib1_pack(pds, pds_len, form, 0, none, 0, numbers, 4, marks, 4, 1, out, sizeof out);
    for (k = 0; k < 3; k++) {
        same_at(line, w[k].reply, reply);
        same_at(line, w[k].len, 0);
    }
    for (k = 0; k < sizeof out; k++)
        same_at(line, out[k], 0xAA);
}

#define unwritten(line, pds, pds_len, reply) unwritten_as(line, pds, pds_len, specimen_form(), reply)

#endif
