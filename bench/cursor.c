/* The index and the cursor, beside a header, a full read and plain C, on several charts: cursor WHAT N [ROUNDS], where
 * WHAT is
 *   compare   every answer is compared, at every place of every chart
 *   names     a line for each call that is counted, in turn
 *   mark      the address of the mark that stands before and after each call that is counted
 *   count     the calls themselves
 *   times     a line for each call that is timed, with nanoseconds: the best of ROUNDS
 * A line has which places of the chart are asked for, the chart's points, its bitmap and the bitmap's octets, what is
 * called, the side (0 is this tree, 1 the other), and the point. */
#include "timing.h"

#include "made.h"
#include "plain.h"
#include "sides.h"

enum { MOST = GRIB1_POINTS_MOST, GROUP = GRIB1_GROUP, ENTRIES = GRIB1_INDEX_MOST, ASKED_MOST = 1024 };

/* Which places of a chart are asked for. Spread are, of few points, all; of many the first, the middle and the last of
 * each group, and a fourth, which is at another place in every group. */
enum { SPREAD, LAST_GROUP, ROW_ENDS };
static const char *const which[] = {"spread", "last_group", "row_ends"};

/* Charts of whole groups. Charts of eight points less, whose last group a stored bitmap ends before the 32 octets by
 * which a group is counted elsewhere. And a thinned octant, where a point is found by the rows before it. */
typedef struct {
    uint16_t ni, nj;
    uint32_t bitmap, which;
} Chart;
static const Chart charts[] = {
    {32, 32, GRIB1_WITHOUT, SPREAD},
    {32, 32, GRIB1_CARRIED, SPREAD},
    {256, 256, GRIB1_WITHOUT, SPREAD},
    {256, 256, GRIB1_CARRIED, SPREAD},
    {8, 127, GRIB1_CARRIED, LAST_GROUP},
    {8, 127, GRIB1_STORED, LAST_GROUP},
    {8, 8191, GRIB1_CARRIED, LAST_GROUP},
    {8, 8191, GRIB1_STORED, LAST_GROUP},
    {GRIB1_MISSING, 73, GRIB1_CARRIED, ROW_ENDS},
};
enum { CHARTS = sizeof charts / sizeof *charts };

typedef struct {
    uint32_t point, row, column;
} Place;

/* the chart in hand: its field, its index, its message, where values and bitmap (NULL for none) stand, and places */
static const Chart *chart;
static Grib1Form form;
static unsigned n;
static size_t points, present, message_len, store_len;
static uint16_t store_number;
static uint32_t values[MOST], ones_before[ENTRIES];
static uint8_t marks[MOST], store[MOST / 8], message[GRIB1_WRITTEN_MOST];
static const uint8_t *data, *bitmap;
static Place asked[ASKED_MOST];
static size_t asked_len;

/* what the calls fill */
static uint32_t filled[ENTRIES], back[MOST], held[MOST], value;
static uint8_t marks_back[MOST];

/* grid 37, one of the thinned octants */
static void make_octant(Grib1Grid *grid)
{
    grid->rows = GRIB1_ROWS_FROM_EQUATOR;
    grid->la1 = 0;
    grid->la2 = 90000;
    grid->lo1 = 330000;
    grid->lo2 = 60000;
    grid->di = GRIB1_MISSING;
    grid->dj = 1250;
    grid->resolution = 128;
    grid->scan = GRIB1_SCAN_NORTH;
    points = 3447;
}

static Place place_of(uint32_t i)
{
    Grib1Place p = grib1_place(form.grid, i);
    return (Place){i, p.row, p.column};
}

static int is_asked(uint32_t i)
{
    uint32_t g = i / GROUP, at = i % GROUP;
    if (chart->which == SPREAD)
        return points <= ASKED_MOST || at == 0 || at == GROUP / 2 || at == GROUP - 1 || at == (g + 1) % GROUP;
    if (chart->which == LAST_GROUP)
        return g == points / GROUP;
    Place p = place_of(i);
    return p.column == 0 || p.column == grib1_row(form.grid, p.row) - 1;
}

/* half the points absent where there is a bitmap */
static void make(const Chart *c)
{
    chart = c;
    form = form_of(c->bitmap, n, c->ni, c->nj);
    points = (size_t)c->ni * c->nj;
    if (c->ni == GRIB1_MISSING)
        make_octant(&form.grid);
    present = asked_len = 0;
    memset(store, 0, sizeof store);
    for (uint32_t i = 0; i < points; i++) {
        if (i % GROUP == 0)
            ones_before[i / GROUP] = (uint32_t)present;
        marks[i] = c->bitmap == GRIB1_WITHOUT || (some() >> 9 & 1);
        values[i] = marks[i] * (some() & ((1u << n) - 1));
        store[i / 8] |= (uint8_t)(marks[i] << (7 - i % 8));
        present += marks[i];
        if (is_asked(i))
            asked[asked_len++] = place_of(i);
    }
    form.bitmap_number = store_number = c->bitmap == GRIB1_STORED;
    store_len = c->bitmap == GRIB1_STORED ? (points + 7) / 8 : 0;
    pds[PARTS] = c->bitmap == GRIB1_WITHOUT ? WITH_GDS : WITH_GDS + WITH_BMS;
    Grib1Written w = grib1_write(pds, sizeof pds, form, 0, 0, store_number, store, store_len, values, points, marks,
        points, message, sizeof message);
    must(w.reply == 0, "the message written");
    message_len = w.len;
    Grib1Header h = grib1_header(message, message_len, store_number, store, store_len);
    data = message + h.bds.start + 11;
    bitmap = c->bitmap == GRIB1_WITHOUT ? NULL : c->bitmap == GRIB1_STORED ? store : message + h.bms.start + 6;
}

/* the calls */
#define MESSAGE message, message_len, store_number, store, store_len
#define HEADER(s) sides[s].header(MESSAGE)
#define READ(s) sides[s].read(MESSAGE, back, points, marks_back, points)
#define INDEX() grib1_index(MESSAGE, filled, ENTRIES)
#define CURSOR(p) grib1_cursor(MESSAGE, ones_before, ENTRIES, (p).row, (p).column)
#define C_INDEX() plain_index(bitmap, filled, points)
#define C_CURSOR(p) plain_cursor(data, n, bitmap, ones_before, (p).point, &value)
static void c_read(void)
{
    if (bitmap == NULL)
        plain_fetch(data, n, back, points);
    else
        plain_two_stage(data, n, bitmap, held, back, marks_back, points);
}

/* What stands in `filled`, or in `back` and `marks_back`, is right; then it is spoilt, so that the next to be compared
 * must fill it itself. */
static void index_is_right(const char *what)
{
    must(memcmp(filled, ones_before, (points + GROUP - 1) / GROUP * 4) == 0, what);
    memset(filled, 1, sizeof filled);
}

static void field_is_right(int with_marks, const char *what)
{
    must(memcmp(back, values, points * 4) == 0 && (!with_marks || memcmp(marks_back, marks, points) == 0), what);
    memset(back, 1, sizeof back);
    memset(marks_back, 2, sizeof marks_back);
}

static void header_is_right(Grib1Header h, const char *what)
{
    must(h.reply == 0 && h.points == points && h.present == present && h.bits == n, what);
    must(message + h.bds.start + 11 == data, what);
}

static void compare(void)
{
    for (int s = 0; s < SIDES; s++) {
        header_is_right(HEADER(s), "a header");
        header_is_right(READ(s), "the header of a message read");
        field_is_right(1, "a message read");
    }
    c_read();
    field_is_right(bitmap != NULL, "plain C's reading");
    Grib1Indexed filling = INDEX();
    must(filling.reply == 0 && filling.entries == (points + GROUP - 1) / GROUP, "the answer of filling");
    index_is_right("an index");
    C_INDEX();
    index_is_right("plain C's index");
    for (uint32_t i = 0; i < points; i++) {
        Place p = place_of(i);
        Grib1Cursor under = CURSOR(p);
        must(under.reply == 0 && under.kind == (marks[i] ? GRIB1_PRESENT : GRIB1_ABSENT), "a place under the cursor");
        must(under.value == values[i], "a value under the cursor");
        value = 1u << GRIB1_BITS_MOST;
        must(C_CURSOR(p) == marks[i] && value == values[i], "plain C's value");
    }
}

static void name(const char *what, int side, uint32_t point)
{
    const char *kind = bitmap == NULL ? "none" : bitmap == store ? "stored" : "carried";
    size_t octets = bitmap == NULL ? 0 : (points + 7) / 8;
    printf("%s %zu %s %zu %s %d %u", which[chart->which], points, kind, octets, what, side, point);
}

/* A mark stands before and after each call, so that the instructions from one to the other are those of the call and of
 * a mark, which are those of no call. */
void mark(void);
__attribute__((noinline)) void mark(void)
{
    __asm__ volatile("" ::: "memory");
}

#define CALL(what, side, point, statement) \
    do {                                   \
        if (named) {                       \
            name(what, side, point);       \
            printf("\n");                  \
        } else {                           \
            mark();                        \
            statement;                     \
            mark();                        \
        }                                  \
    } while (0)

/* the calls that are counted, each named or made */
static void counted(int named)
{
    uint32_t refused = 0;
    CALL("nothing", 0, 0, (void)0);
    for (int s = 0; s < SIDES; s++)
        CALL("header", s, 0, refused |= HEADER(s).reply);
    if (chart->which == SPREAD) {
        for (int s = 0; s < SIDES; s++)
            CALL("read", s, 0, refused |= READ(s).reply);
        CALL("C_read", 0, 0, c_read());
        CALL("index", 0, 0, refused |= INDEX().reply);
        CALL("C_index", 0, 0, C_INDEX());
    }
    for (const Place *p = asked; p < asked + asked_len; p++) {
        CALL("cursor", 0, p->point, refused |= CURSOR(*p).reply);
        CALL("C_cursor", 0, p->point, (void)C_CURSOR(*p));
    }
    must(refused == 0, "a reply");
}

/* So many of the places that are asked for are timed, so far apart that they lie in many groups and at many places of
 * them: each by as many calls, and all in turn, where a branch goes not always as it went before. */
enum { TIMES = 64, APART = 17 };
#define BEST(best, statement) TIMED(best, TIMES, TIMES, statement)

static void print_time(const char *what, int side, uint32_t point, double took)
{
    name(what, side, point);
    printf(" %.3f\n", took);
}

static void times(int rounds)
{
    double header[SIDES] = {0}, read[SIDES] = {0}, index = 0, turn = 0, cursor[TIMES] = {0};
    double c_reading = 0, c_index = 0, c_turn = 0, c_cursor[TIMES] = {0};
    Place at[TIMES];
    for (size_t i = 0; i < TIMES; i++)
        at[i] = asked[i * APART % asked_len];
    for (int round = 0; round < rounds; round++) {
        EACH_SIDE
            BEST(header[s], HEADER(s));
        if (chart->which == SPREAD) {
            EACH_SIDE
                BEST(read[s], READ(s));
            BEST(c_reading, c_read());
            BEST(index, INDEX());
            BEST(c_index, C_INDEX());
        }
        BEST(turn, CURSOR(at[call_]));
        BEST(c_turn, C_CURSOR(at[call_]));
        for (size_t i = 0; i < TIMES; i++) {
            BEST(cursor[i], CURSOR(at[i]));
            BEST(c_cursor[i], C_CURSOR(at[i]));
        }
    }
    for (int s = 0; s < SIDES; s++)
        print_time("header", s, 0, header[s]);
    if (chart->which == SPREAD) {
        for (int s = 0; s < SIDES; s++)
            print_time("read", s, 0, read[s]);
        print_time("C_read", 0, 0, c_reading);
        print_time("index", 0, 0, index);
        print_time("C_index", 0, 0, c_index);
    }
    print_time("turn", 0, 0, turn);
    print_time("C_turn", 0, 0, c_turn);
    for (size_t i = 0; i < TIMES; i++) {
        print_time("cursor", 0, at[i].point, cursor[i]);
        print_time("C_cursor", 0, at[i].point, c_cursor[i]);
    }
}

int main(int argc, char **argv)
{
    if (argc < 3)
        return 2;
    n = (unsigned)atoi(argv[2]);
    if (n < 1 || n > GRIB1_BITS_MOST)
        return 2;
    if (strcmp(argv[1], "mark") == 0)
        return printf("%p\n", (void *)mark) < 0;
    make_pds();
    for (const Chart *c = charts; c < charts + CHARTS; c++) {
        make(c);
        if (strcmp(argv[1], "compare") == 0)
            compare();
        else if (strcmp(argv[1], "names") == 0)
            counted(1);
        else if (strcmp(argv[1], "count") == 0)
            counted(0);
        else if (strcmp(argv[1], "times") == 0 && argc == 4)
            times(atoi(argv[3]));
        else
            return 2;
    }
    return 0;
}
