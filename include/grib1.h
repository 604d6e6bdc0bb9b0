/* grib1: a proved GRIB Edition 1 codec. Link libgrib1.a, which tools/archive builds (x86-64 Linux); it needs no library
 * but C's.
 *
 * Every function takes any octets and numbers, answers by value, and returns. What each answer is stands in
 * crates/grib1/src/lib.rt, as an equation that is proved. The caller owes only this:
 *   - a pointer and its length, in elements, are memory that the caller lends for the call; no pointer is NULL, also
 *     where its length is 0;
 *   - a buffer that is written (values and marks of grib1_read, index of grib1_index, out) overlaps no other buffer of
 *     the call.
 * A buffer that is not written is only read, as index of grib1_cursor is. A reply other than 0 changes no buffer and
 * comes with every other field 0, but for section and place, which 20 to 23 alone tell. Padding between fields has no
 * set content.
 *
 * Thread-safe: no globals, no heap, nothing is kept between calls; an index is the caller's to keep. How much stack a
 * call takes is told below, by function.
 *
 * message        one GRIB message, whole: 'GRIB' to '7777'
 * store_number   the number of the stored bitmap that is lent with the message, 0 where none is
 * store          its octets; where none is lent, any pointer with length 0
 *
 * Octets of a part, sections and grid points are counted from 0 here. The place that a refusal tells is alone counted
 * from 1, as the rules count octets, so that it can be read out as it is: it is that of message[place - 1]. */
#ifndef GRIB1_H
#define GRIB1_H

#include <stddef.h>
#include <stdint.h>

#ifdef __cplusplus
extern "C" {
#endif

/* The version of what is declared here. While its first number is 0, a new second number may change a name, a field or
 * a function, and a new third one changes none. */
#define GRIB1_VERSION_MAJOR 0
#define GRIB1_VERSION_MINOR 6
#define GRIB1_VERSION_PATCH 0
#define GRIB1_VERSION "0.6.0"

/* The rules' bounds, and what to lend. */
#define GRIB1_MESSAGE_LEAST 8          /* octets of a message */
#define GRIB1_MESSAGE_MOST 262144
#define GRIB1_WRITTEN_MOST 205896      /* octets of a message that is written here: out of so many holds any */
#define GRIB1_PDS_LEAST 28             /* octets of a PDS, an even number */
#define GRIB1_PDS_MOST 1024
#define GRIB1_SIDE_MOST 65534          /* ni and nj of a rectangle */
#define GRIB1_POINTS_MOST 65536        /* points of a grid: values and marks of so many hold any field */
#define GRIB1_GROUP 256                /* points of a group of an index; the last group has those that are left */
#define GRIB1_INDEX_MOST 256           /* groups of a grid: an index of so many entries holds any message's */
#define GRIB1_LATITUDE_MOST 90000      /* thousandths of a degree, in magnitude */
#define GRIB1_LONGITUDE_MOST 360000
#define GRIB1_DISTANCE_MOST 16777215   /* dx and dy, metres */
#define GRIB1_BITS_MOST 24             /* N, bits of a value */
#define GRIB1_EXPONENT_MOST 32767      /* E of a message, in magnitude */
#define GRIB1_SHOWN_LEAST (-1022)      /* E of grib1_display */
#define GRIB1_SHOWN_MOST 1023
#define GRIB1_STEP_MOST 24             /* E of grib1_check and grib1_pack, from 0 */
#define GRIB1_SOURCE_MOST 8388607      /* a source number, in magnitude */

/* The scanning flags of a grid: bits 1, 2 and 3 of GDS octet 28. The others are carried and mean nothing here. On
 * Lambert and polar grids west is towards the least x, and north towards the greatest y. */
#define GRIB1_SCAN_WEST 128            /* columns run west, else east */
#define GRIB1_SCAN_NORTH 64            /* rows run north, else south */
#define GRIB1_SCAN_BY_COLUMN 32        /* points of one column are consecutive, else of one row */

/* A di or dj that is missing, and the ni and di of a thinned octant: all ones. */
#define GRIB1_MISSING 65535

/* The most octets of stack that a call takes, its arguments and its return address among them: measured over many calls
 * (tests/stack) and rounded up. Those that write, pack or check hold 256 values at a time. A loader that binds late may
 * take more at a program's first call. */
#define GRIB1_STACK_HEADER 2304
#define GRIB1_STACK_READ 2304
#define GRIB1_STACK_SECTION 2048
#define GRIB1_STACK_BITMAP 2048
#define GRIB1_STACK_DISPLAY 2048
#define GRIB1_STACK_PLACE 256
#define GRIB1_STACK_POINT 512
#define GRIB1_STACK_ROW 256
#define GRIB1_STACK_DATA_NUMBER 2048
#define GRIB1_STACK_INDEX 2304
#define GRIB1_STACK_CURSOR 2304
#define GRIB1_STACK_LENGTH 1792
#define GRIB1_STACK_WRITE 3840
#define GRIB1_STACK_CHECK 4352
#define GRIB1_STACK_PACK 5120

/* What a reply says. The first that applies is given, in number order but for 20 to 23, which reading gives after 4 and
 * before 6. They go section by section from the front: PDS, GDS and BMS where PDS octet 8 announces them, BDS. In a
 * section 22 comes first where the three octets of its length pass the end section's start, then 20, 21, and 22 where
 * the section does; 23 comes after the BDS. grib1_check gives those of grib1_header, then 18, 15, 16, 17, and
 * grib1_pack gives 5, 18, 15, 11, 19, then the rest of grib1_write's. grib1_index gives those of grib1_header, then 14,
 * and grib1_cursor those of grib1_header, then 24, then 25. */
enum grib1_reply {
    GRIB1_ACCEPTED = 0,
    GRIB1_SIZE = 1,            /* slice below 8 or above 262,144 octets */
    GRIB1_NOT_GRIB = 2,        /* first four octets not 'GRIB' */
    GRIB1_EDITION = 3,         /* edition not 1 */
    GRIB1_TOTAL = 4,           /* total length is not the slice's, or last four octets not '7777' */
    GRIB1_LENGTHS = 5,         /* writing and packing alone, reading never gives it: the length of the PDS given is odd,
                                  below 28 or above 1,024 octets, or not what its octets 1-3 say */
    GRIB1_TIME = 6,            /* time out of its ranges: century 18 to 99 (PDS octet 25), year of century 1 to 100
                                  (13), month 1 to 12 (14), a day of that month (15), hour 0 to 23 (16), minute 0 to 59
                                  (17) */
    GRIB1_NO_GRID = 7,         /* no GDS, octet 7 not in the catalogue */
    GRIB1_GDS = 8,             /* GDS of no accepted type and length. Types 0, 4 and 5 (octet 6) are 32 octets long, 1
                                  and 3 are 42, with octets 4 and 5 0 and 255; a thinned octant is of type 0 and 178
                                  octets long, with 0 and 33 */
    GRIB1_GRID = 9,            /* Ni, Nj, n, a latitude, a longitude or, of types 0, 1 and 4, the scan test outside the
                                  rules, a Gaussian N that is missing, a thinned grid that is none of the eight octants,
                                  or (writing) a dx or dy over 16,777,215 or a grid of no kind */
    GRIB1_BITMAP = 10,         /* bitmap rule broken, or no such stored bitmap, or (writing, lists n long) one of its
                                  first n bits isn't the same number as the mark */
    GRIB1_PACKING = 11,        /* BDS flag bit 1, 2 or 4 set, N over 24, or (writing) E outside -32,767 to 32,767 */
    GRIB1_DATA_LENGTH = 12,    /* data length rule broken */
    GRIB1_LISTS = 13,          /* writing: lists not n long, a mark not 0 or 1, an absent point without a bitmap or
                                  with value not 0, a value of 2^N or more, PDS octet 8 not matching the parts given */
    GRIB1_ROOM = 14,           /* lent output too short */
    GRIB1_DIFFERS = 15,        /* point count, marks or D of message and source differ */
    GRIB1_SCALE = 16,          /* checker: E outside 0 to 24, or R not whole or over 8,388,607 in magnitude; display:
                                  E outside -1,022 to 1,023 */
    GRIB1_OUT = 17,            /* a present point is out by more than half a step */
    GRIB1_SOURCE = 18,         /* source lists unequal, 0 or over 65,536 long, a mark not 0 or 1, a present number
                                  outside its bound */
    GRIB1_NO_STEP = 19,        /* packer: no E from 0 to 24 fits */
    GRIB1_LENGTH_ODD = 20,     /* reading: a section length is odd */
    GRIB1_LENGTH_BOUNDS = 21,  /* reading: a section length is under its least (PDS 28, GDS 32, BMS 6, BDS 12), or PDS
                                  over 1,024 */
    GRIB1_LENGTH_PASSES = 22,  /* reading: a section, or the three octets of its length, pass the end section's start */
    GRIB1_LEFT_OVER = 23,      /* reading: octets between the BDS's end and the end section */
    GRIB1_OFF_CHART = 24,      /* cursor: a place outside the chart */
    GRIB1_INDEX = 25           /* cursor: the index has fewer entries than groups, or the group's entry plus the ones in
                                  that group isn't the next entry (in the last group, m) or is above m */
};

/* The sections of a message, as grib1_section takes them and as 20 to 23 tell them. */
enum grib1_section_number {
    GRIB1_SECTION_INDICATOR = 0,
    GRIB1_SECTION_PDS = 1,
    GRIB1_SECTION_GDS = 2,
    GRIB1_SECTION_BMS = 3,
    GRIB1_SECTION_BDS = 4,
    GRIB1_SECTION_END = 5
};

/* Which points are present. */
enum grib1_bitmap_kind {
    GRIB1_WITHOUT = 0,         /* all are */
    GRIB1_CARRIED = 1,         /* by bits in the message */
    GRIB1_STORED = 2           /* by the stored bitmap of a number */
};

/* The kinds of grids: GDS octet 6. */
enum grib1_grid_kind {
    GRIB1_LATLON = 0,          /* latitude/longitude: a rectangle or a thinned octant */
    GRIB1_MERCATOR = 1,
    GRIB1_LAMBERT = 3,         /* Lambert conformal */
    GRIB1_GAUSSIAN = 4,        /* latitude/longitude, its rows at Gaussian latitudes */
    GRIB1_POLAR = 5            /* polar stereographic */
};

/* How many points each row of a grid has, in message order. */
enum grib1_rows {
    GRIB1_ROWS_EVEN = 0,           /* ni in every row: a rectangle, of any kind */
    GRIB1_ROWS_FROM_EQUATOR = 1,   /* those of a thinned octant from the equator on, 73 to 2: grids 37 to 40 */
    GRIB1_ROWS_FROM_POLE = 2       /* the same from the pole on, 2 to 73: grids 41 to 44 */
};

/* What is said of a grid point, and of a place under the cursor. */
enum grib1_data_kind {
    GRIB1_OUTSIDE = 0,         /* the grid has no such point, or the message, the place or the index is refused */
    GRIB1_PRESENT = 1,
    GRIB1_ABSENT = 2
};

/* A part of a lent buffer. */
typedef struct {
    uint32_t stored;           /* 0: a part of the message; 1: of store */
    uint32_t start;            /* place of its first octet */
    uint32_t len;              /* how many octets it has; 0 where there is none: start is then 0, but in a header where
                                  the section would stand */
} Grib1Part;

/* A grid of one of five kinds: latitude/longitude, Mercator, Lambert conformal, Gaussian, polar stereographic. There is
 * a field for every number that some kind has; beside each stand the kinds that have it, and then its octets of the
 * GDS. Latitudes and longitudes are in thousandths of a degree, north and east positive.
 *
 * In a header a field that the kind lacks is 0. In a form, and to grib1_place, grib1_point and grib1_row, it is not
 * looked at, but for rows, which every kind but GRIB1_LATLON has as GRIB1_ROWS_EVEN. A kind that has no name, and
 * another kind than GRIB1_LATLON with other rows, are a grid of no kind: a form of one is refused by 9, and it has no
 * points, no rows and no places. No header has one.
 *
 * A thinned octant is one of grids 37 to 44: 73 rows and 3,447 points, from 73 in the row at the equator to 2 at the
 * pole. Its kind is GRIB1_LATLON, ni and di are GRIB1_MISSING, nj is 73, dj 1250, resolution 128, scan
 * GRIB1_SCAN_NORTH; la1 and la2 are 0 and 90000 of 37 to 40, in the north, and -90000 and 0 of 41 to 44; lo1 and lo2
 * are 330000 and 60000 of 37 and 41, 60000 and 150000 of 38 and 42, 150000 and 240000 of 39 and 43, 240000 and 330000
 * of 40 and 44. A thinned grid that differs from all eight is refused by 9. Every other grid is a rectangle.
 *
 * Any grid is drawn by rows 0 to nj - 1 of the chart and in each by positions 0 to grib1_row - 1, which on a rectangle
 * are its columns. The chart of a rectangle is one function of ni, nj and scan, whatever its kind is. Row 0 is north
 * and column 0 is west on latitude/longitude, Mercator and Gaussian grids; on Lambert and polar ones row 0 has the
 * greatest y and column 0 the least x. */
typedef struct {
    int32_t la1;               /* latitude of the first grid point: every kind, 11-13 */
    int32_t lo1;               /* longitude of the first grid point: every kind, 14-16 */
    int32_t la2;               /* latitude of the last grid point: latitude/longitude, Mercator, Gaussian, 18-20 */
    int32_t lo2;               /* longitude of the last grid point: latitude/longitude, Mercator, Gaussian, 21-23 */
    int32_t lov;               /* longitude of the meridian that runs along the columns: Lambert, polar, 18-20 */
    int32_t latin1;            /* latitude where the cylinder cuts the earth: Mercator, 24-26; the first one from the
                                  pole where the cone does: Lambert, 29-31 */
    int32_t latin2;            /* the second latitude from the pole where the cone cuts the earth: Lambert, 32-34 */
    int32_t pole_la;           /* latitude of the southern pole: Lambert, 35-37 */
    int32_t pole_lo;           /* longitude of the southern pole: Lambert, 38-40 */
    uint32_t dx;               /* distance of points along a row, in metres: Lambert and polar (Dx), 21-23; Mercator
                                  (Di), 29-31. In a form at most GRIB1_DISTANCE_MOST, else 9 */
    uint32_t dy;               /* distance of points along a column, in metres: Lambert and polar (Dy), 24-26; Mercator
                                  (Dj), 32-34. In a form at most GRIB1_DISTANCE_MOST, else 9 */
    uint16_t ni;               /* points along a row, the chart's columns: every kind (Nx of Lambert and polar), 7-8;
                                  GRIB1_MISSING on a thinned octant */
    uint16_t nj;               /* points along a column, the chart's rows: every kind (Ny of Lambert and polar), 9-10 */
    uint16_t di;               /* distance of points along a row, in thousandths of a degree, or GRIB1_MISSING, as on
                                  every thinned octant: latitude/longitude, Gaussian, 24-25 */
    uint16_t dj;               /* distance of points along a column, in thousandths of a degree, or GRIB1_MISSING:
                                  latitude/longitude, 26-27 */
    uint16_t circles;          /* N, latitude circles between a pole and the equator: Gaussian, 26-27. GRIB1_MISSING is
                                  refused by 9 */
    uint8_t resolution;        /* resolution flags as carried: every kind, 17 */
    uint8_t scan;              /* scanning flags as carried, GRIB1_SCAN_WEST and so on: every kind, 28 */
    uint8_t rows;              /* enum grib1_rows; GRIB1_ROWS_EVEN of every kind but latitude/longitude. Any other
                                  number is refused by 9 in a form, and is a grid without points to grib1_place,
                                  grib1_point and grib1_row; no header has one */
    uint8_t kind;              /* enum grib1_grid_kind: every kind, 6. Any other number is as other rows are */
    uint8_t centre;            /* projection centre flag as carried: Lambert, polar, 27 */
} Grib1Grid;

/* What a message says, but for its lists. A value X at a point stands for Y with Y x 10^D = R + X x 2^E. */
typedef struct {
    uint32_t reply;            /* enum grib1_reply: 0, 1 to 4, 6 to 12, 20 to 23, and 14 of grib1_read */
    uint32_t section;          /* of 20 to 22 the section whose length it is, GRIB1_SECTION_PDS to GRIB1_SECTION_BDS; of
                                  23 GRIB1_SECTION_END; else 0 */
    uint32_t place;            /* of 20 to 22 where in the message that section starts, of 23 where the octets left over
                                  do, the message's first octet being 1; else 0. The end section's start where an
                                  announced section has no octet left */
    uint32_t points;           /* n, the grid's points: ni x nj of a rectangle, 3,447 of a thinned octant; at most
                                  GRIB1_POINTS_MOST */
    uint32_t present;          /* how many of them are present */
    int32_t d;                 /* D, the decimal scale */
    int32_t e;                 /* E, the binary scale */
    uint32_t r;                /* R, its four octets as carried, high octet first (grib1_display has its value) */
    uint32_t bitmap;           /* enum grib1_bitmap_kind */
    Grib1Grid grid;            /* the GDS's grid, or the catalogue's where there is none (gds.len is 0) */
    Grib1Part pds;             /* where the Product Definition Section lies in the message */
    Grib1Part gds;             /* the Grid Description Section; len 0 where it is absent */
    Grib1Part bms;             /* the Bit Map Section; len 0 where it is absent */
    Grib1Part bds;             /* the Binary Data Section */
    uint16_t bitmap_number;    /* the bitmap's number where it is a stored one, else 0 */
    uint16_t year;             /* reference time: the whole year, 1701 to 9900 */
    uint8_t month;             /* 1 to 12 */
    uint8_t day;               /* 1 to 31 */
    uint8_t hour;              /* 0 to 23 */
    uint8_t minute;            /* 0 to 59 */
    uint8_t packing_flags;     /* the four flag bits of BDS octet 4: 0, or 2 where bit 3 is set */
    uint8_t bits;              /* N, bits per value, 0 to 24 */
} Grib1Header;

/* R and 2^E, exactly. */
typedef struct {
    uint32_t reply;            /* enum grib1_reply: 0, 1 to 4, 6 to 12, 16, 20 to 23 */
    uint32_t section;          /* as in a header */
    uint32_t place;            /* as in a header */
    double reference;          /* R */
    double step;               /* 2^E */
} Grib1Display;

/* A place of the chart. On a thinned octant a column is a position in its own row: the same one in another row lies at
 * another longitude. */
typedef struct {
    uint32_t on;               /* 1; 0 where the grid has no such point */
    uint32_t row;              /* row 0 is north; on Lambert and polar grids it has the greatest y */
    uint32_t column;           /* column 0 is west; on Lambert and polar grids it has the least x. Below grib1_row of
                                  its row */
} Grib1Place;

/* A grid point. */
typedef struct {
    uint32_t on;               /* 1; 0 where the chart has no such place */
    uint32_t point;            /* its number in message order, from 0: the index into values and marks */
} Grib1Point;

/* A grid point's data number. */
typedef struct {
    uint32_t kind;             /* enum grib1_data_kind */
    uint32_t data_number;      /* where it is present: how many present points stand before it */
} Grib1Data;

/* What filling an index answers. */
typedef struct {
    uint32_t reply;            /* enum grib1_reply: 0, 1 to 4, 6 to 12, 14, 20 to 23 */
    uint32_t section;          /* as in a header */
    uint32_t place;            /* as in a header */
    uint32_t entries;          /* how many entries were filled, one for each group: (n + 255) / 256, at most
                                  GRIB1_INDEX_MOST */
} Grib1Indexed;

/* What a place of the chart has under the cursor. */
typedef struct {
    uint32_t reply;            /* enum grib1_reply: 0, 1 to 4, 6 to 12, 20 to 25 */
    uint32_t section;          /* as in a header */
    uint32_t place;            /* as in a header: of the message, not of the chart */
    uint32_t kind;             /* enum grib1_data_kind: GRIB1_PRESENT or GRIB1_ABSENT; GRIB1_OUTSIDE where it is
                                  refused */
    uint32_t value;            /* X where it is present, else 0 */
} Grib1Cursor;

/* What writing, and how much will be written, answer. */
typedef struct {
    uint32_t reply;            /* enum grib1_reply: 0, 5 to 7, 9 to 11, 13, 14, and 15, 18, 19 of grib1_pack */
    uint32_t len;              /* octets of the message */
} Grib1Written;

/* What checking answers. */
typedef struct {
    uint32_t reply;            /* enum grib1_reply: 0 where the message renders the source, else 1 to 4, 6 to 12, 15 to
                                  18, 20 to 23 */
    uint32_t section;          /* as in a header */
    uint32_t place;            /* as in a header */
} Grib1Checked;

/* What the caller of grib1_write, grib1_pack and grib1_length chooses. Every number means something: a kind with no
 * name is refused where its part is judged. */
typedef struct {
    uint32_t given;            /* 0: no GDS, PDS octet 7 picks the grid; 1: grid is written as the GDS; any other
                                  number is refused by 9 */
    uint32_t bitmap;           /* enum grib1_bitmap_kind; any other number is refused by 10 */
    Grib1Grid grid;            /* read only where given is 1 */
    uint16_t bitmap_number;    /* the stored bitmap's number, read only where bitmap is GRIB1_STORED */
    uint8_t packing_flags;     /* the four flag bits of BDS octet 4: 0 or 2 */
    uint8_t bits;              /* N, 0 to 24 */
} Grib1Form;

/* The header of a message. Reads message and store. */
Grib1Header grib1_header(const uint8_t *message, size_t message_len, uint16_t store_number, const uint8_t *store,
    size_t store_len);

/* The header, and all points: values[i] is X of grid point i and marks[i] is 1 where it is present, 0 and 0 where it
 * is absent. Reads message and store; writes the first n of values and of marks and leaves later ones. 14 where
 * either has fewer than n. */
Grib1Header grib1_read(const uint8_t *message, size_t message_len, uint16_t store_number, const uint8_t *store,
    size_t store_len, uint32_t *values, size_t values_len, uint8_t *marks, size_t marks_len);

/* Where section 0 to 5 lies (enum grib1_section_number). The empty part at the message's start for another number, an
 * absent section or a refused message. Reads message and store. */
Grib1Part grib1_section(const uint8_t *message, size_t message_len, uint16_t store_number, const uint8_t *store,
    size_t store_len, uint32_t section);

/* Where the bitmap in force lies: just the octets that hold its n bits, first point leftmost, 1 for present; bits
 * after the nth may be ones. The empty part at the message's start where there is none or the message is refused.
 * Reads message and store. */
Grib1Part grib1_bitmap(const uint8_t *message, size_t message_len, uint16_t store_number, const uint8_t *store,
    size_t store_len);

/* R and 2^E as doubles. Reads message and store. */
Grib1Display grib1_display(const uint8_t *message, size_t message_len, uint16_t store_number, const uint8_t *store,
    size_t store_len);

/* Where a grid point lies on the chart of a grid, and which point lies at a place. Of the grid only ni, nj, scan, rows
 * and kind count, and any numbers will do. */
Grib1Place grib1_place(Grib1Grid grid, uint32_t point);
Grib1Point grib1_point(Grib1Grid grid, uint32_t row, uint32_t column);

/* How many points row `row` of the chart has: ni on a rectangle, its own count on a thinned octant; 0 where the chart
 * has no such row. Of the grid the same fields count, and any numbers will do. */
uint32_t grib1_row(Grib1Grid grid, uint32_t row);

/* The data number of a grid point of a message. Reads message and store; takes a whole header's time. */
Grib1Data grib1_data_number(const uint8_t *message, size_t message_len, uint16_t store_number, const uint8_t *store,
    size_t store_len, uint32_t point);

/* Fills the index of a message, by which grib1_cursor finds one value without unpacking the others: entry g is how many
 * present points, of all n in message order, stand before point g x GRIB1_GROUP, the first of group g. With no bitmap
 * every point is present.
 *
 * Fill it once, when the message is taken, and keep it beside the message from call to call: it is the caller's memory,
 * and several threads may read it. It may be used as long as the message, the stored bitmap and its number are the
 * same; when one of them changes, fill it anew.
 *
 * Reads message and store; writes the first `entries` of index and leaves later ones. GRIB1_INDEX_MOST entries hold any
 * message's index, and (points + 255) / 256 this one's: 14 where it has fewer. Takes a header's time, and the ones of a
 * bitmap are counted once more. */
Grib1Indexed grib1_index(const uint8_t *message, size_t message_len, uint16_t store_number, const uint8_t *store,
    size_t store_len, uint32_t *index, size_t index_len);

/* The value or absence at one place of a message's chart, by an index that was filled for it: what grib1_read puts at
 * the point that grib1_point says for row and column. On a thinned octant a column is a position in its own row. Reads
 * message, store and index. Each call judges the whole message, as grib1_header does, and then takes the octets of one
 * group of a bitmap and one value: it takes a header's time and unpacks nothing else.
 *
 * 24 where the chart has no such place. 25 where the index does not fit, at an absent place too: it has fewer entries
 * than the message has groups, or the entry of the place's group plus the ones in that group is not the next entry (in
 * the last group m, how many points are present in all) or is above m. So 25 looks at how long the index is and at two
 * entries at most; what stands in others, and after the last group, is not looked at.
 *
 * That an index is taken is no proof that it is this message's. One that was filled for another message may fit at a
 * place: then the value is the one whose data number is the group's entry plus the ones before the place in that group,
 * a value of this message, but perhaps of another point. Whether a place is absent never depends on the index. */
Grib1Cursor grib1_cursor(const uint8_t *message, size_t message_len, uint16_t store_number, const uint8_t *store,
    size_t store_len, const uint32_t *index, size_t index_len, uint32_t row, uint32_t column);

/* How many octets the message of a PDS, a form and n marks takes, for a caller who lends no more than these: whatever
 * E, R and the values or source numbers are, a grib1_write or grib1_pack of the same parts that accepts them answers
 * this len. A reply other than 0, one of 5 to 7, 9 to 11 and 13, says that they will refuse these parts whatever comes
 * with them. Reads pds, store and marks. */
Grib1Written grib1_length(const uint8_t *pds, size_t pds_len, Grib1Form form, uint16_t store_number,
    const uint8_t *store, size_t store_len, const uint8_t *marks, size_t marks_len);

/* Writes the message of a PDS, a form, E and R's four octets, and n values and n marks. Reads pds, store, values and
 * marks; fills the message's octets of out and leaves later ones. GRIB1_WRITTEN_MOST octets of out hold any message,
 * and grib1_length tells what this one takes.
 *
 * The PDS is the caller's, its time too. A year has one spelling there: its century, (year - 1) / 100 + 1, in octet 25
 * and its year of century, (year - 1) % 100 + 1, in octet 13. So 2000 is 20 and 100, and 2001 is 21 and 1. */
Grib1Written grib1_write(const uint8_t *pds, size_t pds_len, Grib1Form form, int32_t e, uint32_t r,
    uint16_t store_number, const uint8_t *store, size_t store_len, const uint32_t *values, size_t values_len,
    const uint8_t *marks, size_t marks_len, uint8_t *out, size_t out_len);

/* Whether a message renders a source field, whole numbers V for Y x 10^D with marks: every present point within half
 * a step. Reads all its buffers. */
Grib1Checked grib1_check(const uint8_t *message, size_t message_len, uint16_t store_number, const uint8_t *store,
    size_t store_len, const int32_t *numbers, size_t numbers_len, const uint8_t *marks, size_t marks_len, int32_t d);

/* Packs a source field with the least R and the least E for which N bits do, and writes its message. Buffers as
 * grib1_write; numbers of absent points are ignored. */
Grib1Written grib1_pack(const uint8_t *pds, size_t pds_len, Grib1Form form, uint16_t store_number, const uint8_t *store,
    size_t store_len, const int32_t *numbers, size_t numbers_len, const uint8_t *marks, size_t marks_len, int32_t d,
    uint8_t *out, size_t out_len);

#ifdef __cplusplus
}
#endif

#endif
