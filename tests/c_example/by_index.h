/* One place under the cursor: beside a full read of a message that is taken, and of one that is refused. TEST is the
 * name of the test's file. */
#ifndef BY_INDEX_H
#define BY_INDEX_H

#include <string.h>

#include "same.h"

/* what stands in an index before it is filled, and after its last entry */
#define UNFILLED 0xA5A5A5A5u

static uint32_t entries[GRIB1_INDEX_MOST + 1], full_values[GRIB1_POINTS_MOST];
static uint8_t full_marks[GRIB1_POINTS_MOST];

/* every field of what filling an index answers, and of what a place has */
static inline void same_indexed(int line, Grib1Indexed is, uint32_t reply, uint32_t section, uint32_t place,
    uint32_t filled)
{
    same_reply(line, is, reply, section, place);
    same_at(line, is.entries, filled);
}

static inline void same_under(int line, Grib1Cursor is, uint32_t reply, uint32_t section, uint32_t place, uint32_t kind,
    uint32_t value)
{
    same_reply(line, is, reply, section, place);
    same_at(line, is.kind, kind);
    same_at(line, is.value, value);
}

static inline void unfilled(int line, uint32_t from)
{
    for (; from <= GRIB1_INDEX_MOST; from++)
        same_at(line, entries[from], UNFILLED);
}

/* a message that is refused, as its header is, whatever index is lent and whichever place is asked for; no entry is
 * changed */
static inline void unanswered(int line, const uint8_t *message, size_t len, uint16_t number, const uint8_t *store,
    size_t store_len, uint32_t reply, uint32_t section, uint32_t place)
{
    static const uint32_t zero[1];
    Grib1Cursor on = grib1_cursor(message, len, number, store, store_len, zero, 1, 0, 0);
    Grib1Cursor off = grib1_cursor(message, len, number, store, store_len, zero, 0, 0xFFFFFFFF, 0xFFFFFFFF);
    Grib1Indexed filling, short_of_room;

    memset(entries, 0xA5, sizeof entries);
    filling = grib1_index(message, len, number, store, store_len, entries, GRIB1_INDEX_MOST);
    short_of_room = grib1_index(message, len, number, store, store_len, entries, 0);
    unfilled(line, 0);
    same_stop(line, grib1_header(message, len, number, store, store_len), reply, section, place);
    same_indexed(line, filling, reply, section, place, 0);
    same_indexed(line, short_of_room, reply, section, place, 0);
    same_under(line, on, reply, section, place, GRIB1_OUTSIDE, 0);
    same_under(line, off, reply, section, place, GRIB1_OUTSIDE, 0);
}

/* A message that is taken: its index, by the marks of a full read, and at one in every so many places of the chart what
 * that read gives there. */
static inline void as_read(int line, const uint8_t *message, size_t len, uint16_t number, const uint8_t *store,
    size_t store_len, uint32_t every)
{
    Grib1Header h = grib1_read(message, len, number, store, store_len, full_values, GRIB1_POINTS_MOST, full_marks,
        GRIB1_POINTS_MOST);
    uint32_t groups = (h.points + GRIB1_GROUP - 1) / GRIB1_GROUP, before = 0, places = 0, k, row, column, columns;
    Grib1Cursor u;

    same_at(line, h.reply, GRIB1_ACCEPTED);
    if (groups == 0)
        return;
    memset(entries, 0xA5, sizeof entries);
    same_indexed(line, grib1_index(message, len, number, store, store_len, entries, groups - 1), GRIB1_ROOM, 0, 0, 0);
    unfilled(line, 0);
    same_indexed(line, grib1_index(message, len, number, store, store_len, entries, groups), GRIB1_ACCEPTED, 0, 0,
        groups);
    unfilled(line, groups);
    memset(entries, 0xA5, groups * sizeof *entries);
    same_indexed(line, grib1_index(message, len, number, store, store_len, entries, GRIB1_INDEX_MOST + 1),
        GRIB1_ACCEPTED, 0, 0, groups);
    unfilled(line, groups);
    for (k = 0; k < h.points; k++) {
        if (k % GRIB1_GROUP == 0)
            same_at(line, entries[k / GRIB1_GROUP], before);
        before += full_marks[k];
    }
    same_at(line, before, h.present);

    for (row = 0; row < h.grid.nj; row++) {
        columns = grib1_row(h.grid, row);
        for (column = 0; column < columns; column++, places++) {
            if (places % every != 0)
                continue;
            k = grib1_point(h.grid, row, column).point;
            u = grib1_cursor(message, len, number, store, store_len, entries, groups, row, column);
            same_under(line, u, GRIB1_ACCEPTED, 0, 0, full_marks[k] ? GRIB1_PRESENT : GRIB1_ABSENT, full_values[k]);
        }
        u = grib1_cursor(message, len, number, store, store_len, entries, groups, row, columns);
        same_under(line, u, GRIB1_OFF_CHART, 0, 0, GRIB1_OUTSIDE, 0);
    }
    same_at(line, places, h.points);
    u = grib1_cursor(message, len, number, store, store_len, entries, groups, h.grid.nj, 0);
    same_under(line, u, GRIB1_OFF_CHART, 0, 0, GRIB1_OUTSIDE, 0);
}

#endif
