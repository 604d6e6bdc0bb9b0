/* A receiver's main path: a message in, its chart out, row by row, as values of the field. Rows go from north, and of a
 * Lambert or polar stereographic grid from the greatest y: whatever kind of grid it is, it is drawn alike. A row of a
 * thinned octant has its own length. Or the value at one place of that chart, as where a cursor stands, without
 * unpacking the field: rows and columns are counted from 0.
 *
 *   receiver FILE
 *   receiver FILE ROW COLUMN
 */
#include <stdio.h>

#include "grib1.h"

/* Lent to the codec: it has no memory of its own. One octet more than a message may have, so that a longer file is seen
 * to be longer. */
static uint8_t message[GRIB1_MESSAGE_MOST + 1];
static uint32_t values[GRIB1_POINTS_MOST];
static uint8_t marks[GRIB1_POINTS_MOST];
static uint32_t entries[GRIB1_INDEX_MOST];

/* No stored bitmap: number 0, no octets, and a pointer that is not NULL. */
static const uint8_t none[1];

/* 10^d for d of 0 or more */
static double ten(int32_t d)
{
    double power = 1;
    while (d-- > 0)
        power *= 10;
    return power;
}

/* what kind of grid it is; a latitude/longitude grid goes without saying */
static const char *kind(Grib1Grid grid)
{
    switch (grid.kind) {
    case GRIB1_MERCATOR:
        return "Mercator, ";
    case GRIB1_LAMBERT:
        return "Lambert conformal, ";
    case GRIB1_GAUSSIAN:
        return "Gaussian, ";
    case GRIB1_POLAR:
        return "polar stereographic, ";
    default:
        return "";
    }
}

/* Y, of which x is what is packed */
static double value(Grib1Display shown, uint32_t x, int32_t d)
{
    return (shown.reference + x * shown.step) * ten(-d) / ten(d);
}

static int refused(uint32_t reply, uint32_t section, uint32_t place)
{
    printf("refused %u", (unsigned)reply);
    if (place != 0) /* a section's length went wrong: where to look in the file */
        printf(": section %u, octet %u", (unsigned)section, (unsigned)place);
    printf("\n");
    return 1;
}

static int draw(size_t len)
{
    Grib1Header h = grib1_read(message, len, 0, none, 0, values, GRIB1_POINTS_MOST, marks, GRIB1_POINTS_MOST);
    Grib1Display shown = grib1_display(message, len, 0, none, 0);
    uint32_t row, column, columns;

    if (h.reply != GRIB1_ACCEPTED)
        return refused(h.reply, h.section, h.place);
    if (shown.reply != GRIB1_ACCEPTED)
        return refused(shown.reply, shown.section, shown.place);
    printf("%04u-%02u-%02u %02u:%02u, %s", (unsigned)h.year, (unsigned)h.month, (unsigned)h.day, (unsigned)h.hour,
        (unsigned)h.minute, kind(h.grid));
    if (h.grid.rows == GRIB1_ROWS_EVEN)
        printf("%u by %u, ", (unsigned)h.grid.ni, (unsigned)h.grid.nj);
    else
        printf("thinned, %u rows, ", (unsigned)h.grid.nj);
    printf("%u of %u points present\n", (unsigned)h.present, (unsigned)h.points);
    for (row = 0; row < h.grid.nj; row++) {
        columns = grib1_row(h.grid, row);
        for (column = 0; column < columns; column++) {
            Grib1Point at = grib1_point(h.grid, row, column);
            if (marks[at.point])
                printf(" %9.3f", value(shown, values[at.point], h.d));
            else
                printf(" %9s", "-");
        }
        printf("\n");
    }
    return 0;
}

/* A receiver fills the index once, when the message comes in, and keeps it: then the cursor may move, a call of
 * grib1_cursor for each place. */
static int look(size_t len, uint32_t row, uint32_t column)
{
    Grib1Indexed filled = grib1_index(message, len, 0, none, 0, entries, GRIB1_INDEX_MOST);
    Grib1Cursor under;
    Grib1Display shown;

    if (filled.reply != GRIB1_ACCEPTED)
        return refused(filled.reply, filled.section, filled.place);
    under = grib1_cursor(message, len, 0, none, 0, entries, filled.entries, row, column);
    if (under.reply != GRIB1_ACCEPTED)
        return refused(under.reply, under.section, under.place);
    if (under.kind == GRIB1_ABSENT) {
        printf("absent\n");
        return 0;
    }
    shown = grib1_display(message, len, 0, none, 0);
    if (shown.reply != GRIB1_ACCEPTED)
        return refused(shown.reply, shown.section, shown.place);
    printf("%.3f\n", value(shown, under.value, grib1_header(message, len, 0, none, 0).d));
    return 0;
}

/* a row or a column, and 1; 0 where the word is none */
static int counted(const char *word, uint32_t *number)
{
    uint64_t sum = 0;

    do {
        if (*word < '0' || *word > '9')
            return 0;
        sum = 10 * sum + (uint64_t)(*word - '0');
        if (sum > 0xFFFFFFFF)
            return 0;
    } while (*++word != 0);
    *number = (uint32_t)sum;
    return 1;
}

int main(int count, char **words)
{
    uint32_t row = 0, column = 0;
    int place = count == 4 && counted(words[2], &row) && counted(words[3], &column);
    FILE *file = count == 2 || place ? fopen(words[1], "rb") : NULL;
    size_t len;

    if (file == NULL) {
        printf("receiver: name a file to read, and for one place of its chart a row and a column\n");
        return 2;
    }
    len = fread(message, 1, sizeof message, file);
    fclose(file);
    return place ? look(len, row, column) : draw(len);
}
