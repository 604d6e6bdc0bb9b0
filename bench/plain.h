/* The plain C that the codec is timed beside. It judges nothing: no header, no bounds, no rules. */
#ifndef PLAIN_H
#define PLAIN_H
#include <stddef.h>
#include <stdint.h>

void plain_fetch(const uint8_t *data, unsigned n, uint32_t *values, size_t m);
void plain_bit_by_bit(const uint8_t *data, unsigned n, uint32_t *values, size_t m);
void plain_two_stage(const uint8_t *data, unsigned n, const uint8_t *bitmap, uint32_t *held, uint32_t *values, uint8_t *marks, size_t points);
void plain_accumulate(const uint32_t *values, unsigned n, uint8_t *data, size_t m);
void plain_gather(const uint32_t *values, const uint8_t *marks, unsigned n, uint8_t *data, size_t points);
int plain_check(const uint8_t *data, unsigned n, const int32_t *numbers, size_t points, int32_t r, unsigned e);
void plain_pack(const int32_t *numbers, unsigned n, uint8_t *data, size_t points);
/* the ones before each 256 points, and by them the value at point i, 0 where it is absent; a bitmap that is NULL is all
 * ones, and another is read to the end of its last word of eight octets */
void plain_index(const uint8_t *bitmap, uint32_t *index, size_t points);
int plain_cursor(const uint8_t *data, unsigned n, const uint8_t *bitmap, const uint32_t *index, size_t i,
    uint32_t *value);
#endif
