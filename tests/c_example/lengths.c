/* Section lengths that went wrong, on document 01's specimen: each of 20 to 23 in each section that it can name, by
 * each function that gives a reply of the reader's, with the section, its place and every other field 0; that every
 * other reply tells neither; and that writing keeps 5. Prints the lines of what differs, and ends with 1 where any
 * does. */
#include <string.h>

#define TEST "lengths.c"
#include "refused.h"

/* where the specimen's sections start, its first octet being 1; the end section starts at 91 */
enum { PDS = 9, GDS = 37, BMS = 69, BDS = 77, ROOM = 256 };

static uint8_t message[ROOM];

static void say(uint32_t start, uint32_t length)
{
    message[start - 1] = (uint8_t)(length >> 16);
    message[start] = (uint8_t)(length >> 8);
    message[start + 1] = (uint8_t)length;
}

/* the specimen, where the section that starts at a place says another length */
static void said(int line, uint32_t start, uint32_t length, uint32_t reply, uint32_t section, uint32_t place)
{
    memcpy(message, specimen, 94);
    say(start, length);
    refused(line, message, 94, reply, section, place);
}

#define odd(start, section, length) said(__LINE__, start, length, GRIB1_LENGTH_ODD, section, start)
#define out(start, section, length) said(__LINE__, start, length, GRIB1_LENGTH_BOUNDS, section, start)
#define passes(start, section, length) said(__LINE__, start, length, GRIB1_LENGTH_PASSES, section, start)

/* the section before leaves two octets for the length of the next, and none */
#define no_room(start, length, next) \
    (said(__LINE__, start, (length) - 2, GRIB1_LENGTH_PASSES, next, 89), \
        said(__LINE__, start, length, GRIB1_LENGTH_PASSES, next, 91))

static void in_each_section(void)
{
    odd(PDS, GRIB1_SECTION_PDS, 1);
    odd(PDS, GRIB1_SECTION_PDS, 27);
    odd(PDS, GRIB1_SECTION_PDS, 29);
    odd(PDS, GRIB1_SECTION_PDS, 1023);
    odd(PDS, GRIB1_SECTION_PDS, 1027);
    odd(PDS, GRIB1_SECTION_PDS, 0xFFFFFF);
    odd(GDS, GRIB1_SECTION_GDS, 31);
    odd(GDS, GRIB1_SECTION_GDS, 33);
    odd(GDS, GRIB1_SECTION_GDS, 0xFFFFFF);
    odd(BMS, GRIB1_SECTION_BMS, 5);
    odd(BMS, GRIB1_SECTION_BMS, 7);
    odd(BMS, GRIB1_SECTION_BMS, 0xFFFFFF);
    odd(BDS, GRIB1_SECTION_BDS, 11);
    odd(BDS, GRIB1_SECTION_BDS, 13);
    odd(BDS, GRIB1_SECTION_BDS, 15);
    odd(BDS, GRIB1_SECTION_BDS, 0xFFFFFF);

    out(PDS, GRIB1_SECTION_PDS, 0);
    out(PDS, GRIB1_SECTION_PDS, GRIB1_PDS_LEAST - 2);
    out(PDS, GRIB1_SECTION_PDS, GRIB1_PDS_MOST + 2);
    out(PDS, GRIB1_SECTION_PDS, 0xFFFFFE);
    out(GDS, GRIB1_SECTION_GDS, 0);
    out(GDS, GRIB1_SECTION_GDS, 30);
    out(BMS, GRIB1_SECTION_BMS, 0);
    out(BMS, GRIB1_SECTION_BMS, 4);
    out(BDS, GRIB1_SECTION_BDS, 0);
    out(BDS, GRIB1_SECTION_BDS, 10);

    passes(PDS, GRIB1_SECTION_PDS, 84);
    passes(PDS, GRIB1_SECTION_PDS, GRIB1_PDS_MOST);
    passes(GDS, GRIB1_SECTION_GDS, 56);
    passes(GDS, GRIB1_SECTION_GDS, 0xFFFFFE);
    passes(BMS, GRIB1_SECTION_BMS, 24);
    passes(BMS, GRIB1_SECTION_BMS, 0xFFFFFE);
    passes(BDS, GRIB1_SECTION_BDS, 16);
    passes(BDS, GRIB1_SECTION_BDS, 0xFFFFFE);
    no_room(PDS, 82, GRIB1_SECTION_GDS);
    no_room(GDS, 54, GRIB1_SECTION_BMS);
    no_room(BMS, 22, GRIB1_SECTION_BDS);

    said(__LINE__, BDS, 12, GRIB1_LEFT_OVER, GRIB1_SECTION_END, 89);
}

/* an indicator, zeros and an end: the PDS's own length has no room below 15 octets */
static void hollow(uint8_t len, uint32_t reply)
{
    memset(message, 0, sizeof message);
    memcpy(message, "GRIB", 4);
    message[6] = len;
    message[7] = 1;
    memcpy(message + len - 4, "7777", 4);
    refused(__LINE__, message, len, reply, GRIB1_SECTION_PDS, PDS);
}

/* the specimen with zeros before its end section */
static void longer(uint8_t more)
{
    memset(message, 0, sizeof message);
    memcpy(message, specimen, 90);
    message[6] = (uint8_t)(94 + more);
    memcpy(message + 90 + more, specimen + 90, 4);
    refused(__LINE__, message, 94u + more, GRIB1_LEFT_OVER, GRIB1_SECTION_END, 91);
}

/* two faults: the one nearest the front is told, after 4 and before 6; a section that is not announced has none */
static void the_first(void)
{
    memcpy(message, specimen, 94);
    say(BDS, 13);
    say(BMS, 4);
    refused(__LINE__, message, 94, GRIB1_LENGTH_BOUNDS, GRIB1_SECTION_BMS, BMS);
    say(GDS, 56);
    refused(__LINE__, message, 94, GRIB1_LENGTH_PASSES, GRIB1_SECTION_GDS, GDS);
    say(PDS, 27);
    refused(__LINE__, message, 94, GRIB1_LENGTH_ODD, GRIB1_SECTION_PDS, PDS);
    message[PDS + 12] = 13; /* month */
    refused(__LINE__, message, 94, GRIB1_LENGTH_ODD, GRIB1_SECTION_PDS, PDS);
    message[93] = 0;
    refused(__LINE__, message, 94, GRIB1_TOTAL, 0, 0);

    memcpy(message, specimen, 94);
    message[PDS + 6] = 64; /* a BMS and no GDS: the GDS's octets are taken for it, and the BMS's for the BDS */
    refused(__LINE__, message, 94, GRIB1_LENGTH_BOUNDS, GRIB1_SECTION_BDS, BMS);
    message[PDS + 6] = 0; /* the GDS's octets are taken for the BDS */
    refused(__LINE__, message, 94, GRIB1_LEFT_OVER, GRIB1_SECTION_END, BMS);
}

/* the specimen with another octet, which is refused otherwise: neither a section nor a place is told */
static void other(int line, uint32_t place, uint8_t octet, uint32_t reply)
{
    memcpy(message, specimen, 94);
    message[place - 1] = octet;
    refused(line, message, 94, reply, 0, 0);
}

static void others(void)
{
    Grib1Display d;

    memcpy(message, specimen, 94);
    refused(__LINE__, message, 7, GRIB1_SIZE, 0, 0);
    other(__LINE__, 1, 0, GRIB1_NOT_GRIB);
    other(__LINE__, 8, 2, GRIB1_EDITION);
    other(__LINE__, 7, 95, GRIB1_TOTAL);
    other(__LINE__, 22, 13, GRIB1_TIME);
    other(__LINE__, 41, 0, GRIB1_GDS);
    other(__LINE__, 43, 0xFF, GRIB1_GRID);
    other(__LINE__, 72, 0, GRIB1_BITMAP);
    other(__LINE__, 80, 0x8F, GRIB1_PACKING);
    other(__LINE__, 80, 0x00, GRIB1_DATA_LENGTH);

    /* the display's own: E of 1,024 */
    memcpy(message, specimen, 94);
    message[BDS + 3] = 4;
    d = grib1_display(message, 94, 0, none, 0);
    same_reply(__LINE__, d, GRIB1_SCALE, 0, 0);
    same(d.reference, 0);
    same(d.step, 0);
}

static void writing(void)
{
    static uint8_t pds[GRIB1_PDS_MOST + 2];

    unwritten(__LINE__, specimen + 8, 27, GRIB1_LENGTHS);
    unwritten(__LINE__, specimen + 8, 26, GRIB1_LENGTHS);
    unwritten(__LINE__, specimen + 8, 30, GRIB1_LENGTHS); /* not what its octets say */
    memcpy(pds, specimen + 8, 28);
    pds[2] = 29;
    unwritten(__LINE__, pds, 29, GRIB1_LENGTHS);
    pds[1] = 4;
    pds[2] = 2;
    unwritten(__LINE__, pds, sizeof pds, GRIB1_LENGTHS);
}

int main(void)
{
    in_each_section();
    hollow(12, GRIB1_LENGTH_PASSES);
    hollow(13, GRIB1_LENGTH_PASSES);
    hollow(14, GRIB1_LENGTH_PASSES);
    hollow(15, GRIB1_LENGTH_BOUNDS);
    longer(1);
    longer(2);
    longer(150);
    the_first();
    others();
    writing();
    return differ;
}
