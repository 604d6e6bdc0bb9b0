/* The codec and its bare loops as functions to choose from: this tree's, and where BESIDE is defined those of another tree, whose names have before_ in front. */
#ifndef SIDES_H
#define SIDES_H
#include "grib1.h"

/* the bare loops: crates/bare_loops */
_Bool bare_unpack(const uint8_t *data, size_t data_len, uint32_t at, uint8_t n, uint32_t *values, size_t values_len, uint32_t m);
_Bool bare_pack(const uint32_t *values, size_t values_len, uint8_t n, uint8_t *data, size_t data_len);

typedef struct {
    __typeof__(grib1_header) *header;
    __typeof__(grib1_read) *read;
    __typeof__(grib1_write) *write;
    __typeof__(grib1_check) *check;
    __typeof__(grib1_pack) *pack;
    __typeof__(bare_unpack) *bare_unpack;
    __typeof__(bare_pack) *bare_pack;
} Side;

#ifdef BESIDE
extern __typeof__(grib1_header) before_grib1_header;
extern __typeof__(grib1_read) before_grib1_read;
extern __typeof__(grib1_write) before_grib1_write;
extern __typeof__(grib1_check) before_grib1_check;
extern __typeof__(grib1_pack) before_grib1_pack;
extern __typeof__(bare_unpack) before_bare_unpack;
extern __typeof__(bare_pack) before_bare_pack;
#endif

static const Side sides[] = {
    {grib1_header, grib1_read, grib1_write, grib1_check, grib1_pack, bare_unpack, bare_pack},
#ifdef BESIDE
    {before_grib1_header, before_grib1_read, before_grib1_write, before_grib1_check, before_grib1_pack, before_bare_unpack, before_bare_pack},
#endif
};
enum { SIDES = sizeof sides / sizeof *sides };
#endif
