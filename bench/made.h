/* What the benchmarks make their messages of, and how they say that an answer is wrong. */
#ifndef MADE_H
#define MADE_H
#include <stdio.h>
#include <stdlib.h>
#include <string.h>

#include "grib1.h"

/* a PDS that is accepted; octet 8 says which parts stand behind it */
enum { PARTS = 7, WITH_GDS = 128, WITH_BMS = 64 };
static uint8_t pds[28];

static void make_pds(void)
{
    pds[2] = 28;
    pds[12] = 1;
    pds[13] = 1;
    pds[14] = 1;
    pds[24] = 21;
}

static Grib1Form form_of(uint32_t bitmap_kind, unsigned n, uint16_t ni, uint16_t nj)
{
    Grib1Form f;
    memset(&f, 0, sizeof f);
    f.given = 1;
    f.bitmap = bitmap_kind;
    f.grid.la1 = 60000;
    f.grid.la2 = -60000;
    f.grid.lo2 = 90000;
    f.grid.ni = ni;
    f.grid.nj = nj;
    f.bits = (uint8_t)n;
    return f;
}

/* the same numbers in every run */
static uint32_t state = 1;
static uint32_t some(void)
{
    state ^= state << 13;
    state ^= state >> 17;
    state ^= state << 5;
    return state;
}

static void must(int good, const char *what)
{
    if (!good) {
        printf("bench: %s is not as it must be\n", what);
        exit(1);
    }
}
#endif
