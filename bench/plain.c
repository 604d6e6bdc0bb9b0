#include "plain.h"

#include <string.h>

/* the value at bit place p, out of four octets */
static uint32_t fetched(const uint8_t *data, size_t p, unsigned n)
{
    const uint8_t *q = data + p / 8;
    uint32_t w = (uint32_t)q[0] << 24 | (uint32_t)q[1] << 16 | (uint32_t)q[2] << 8 | q[3];
    return n == 0 ? 0 : (w >> (32 - p % 8 - n)) & ((1u << n) - 1);
}

void plain_fetch(const uint8_t *data, unsigned n, uint32_t *values, size_t m)
{
    size_t p = 0;
    for (size_t i = 0; i < m; i++) {
        values[i] = fetched(data, p, n);
        p += n;
    }
}

void plain_bit_by_bit(const uint8_t *data, unsigned n, uint32_t *values, size_t m)
{
    size_t p = 0;
    for (size_t i = 0; i < m; i++) {
        uint32_t x = 0;
        for (unsigned j = 0; j < n; j++) {
            x = x * 2 + (data[p / 8] >> (7 - p % 8) & 1);
            p++;
        }
        values[i] = x;
    }
}

/* all values, then each to its point; no branch on a bit */
void plain_two_stage(const uint8_t *data, unsigned n, const uint8_t *bitmap, uint32_t *held, uint32_t *values, uint8_t *marks, size_t points)
{
    size_t m = 0, c = 0;
    for (size_t i = 0; i < points; i++)
        m += bitmap[i / 8] >> (7 - i % 8) & 1;
    plain_fetch(data, n, held, m);
    for (size_t i = 0; i < points; i++) {
        uint8_t bit = bitmap[i / 8] >> (7 - i % 8) & 1;
        marks[i] = bit;
        values[i] = held[c] * bit;
        c += bit;
    }
}

/* bits shifted into an accumulator, and whole octets out of it */
void plain_accumulate(const uint32_t *values, unsigned n, uint8_t *data, size_t m)
{
    uint64_t all = 0;
    unsigned have = 0;
    size_t k = 0;
    for (size_t i = 0; i < m; i++) {
        all = all << n | values[i];
        have += n;
        while (have >= 8) {
            have -= 8;
            data[k++] = (uint8_t)(all >> have);
        }
    }
    if (have > 0)
        data[k] = (uint8_t)(all << (8 - have));
}

void plain_gather(const uint32_t *values, const uint8_t *marks, unsigned n, uint8_t *data, size_t points)
{
    uint64_t all = 0;
    unsigned have = 0;
    size_t k = 0;
    for (size_t i = 0; i < points; i++) {
        if (!marks[i])
            continue;
        all = all << n | values[i];
        have += n;
        while (have >= 8) {
            have -= 8;
            data[k++] = (uint8_t)(all >> have);
        }
    }
    if (have > 0)
        data[k] = (uint8_t)(all << (8 - have));
}

int plain_check(const uint8_t *data, unsigned n, const int32_t *numbers, size_t points, int32_t r, unsigned e)
{
    size_t p = 0;
    for (size_t i = 0; i < points; i++) {
        int64_t away = (int64_t)numbers[i] - r - ((int64_t)fetched(data, p, n) << e);
        if (away < 0)
            away = -away;
        if (2 * away > (int64_t)1 << e)
            return 0;
        p += n;
    }
    return 1;
}

void plain_pack(const int32_t *numbers, unsigned n, uint8_t *data, size_t points)
{
    int32_t least = numbers[0], most = numbers[0];
    uint64_t all = 0;
    unsigned have = 0, e = 0;
    size_t k = 0;
    for (size_t i = 1; i < points; i++) {
        least = numbers[i] < least ? numbers[i] : least;
        most = numbers[i] > most ? numbers[i] : most;
    }
    while ((((int64_t)most - least + ((1 << e) >> 1)) >> e) >> n != 0)
        e++;
    for (size_t i = 0; i < points; i++) {
        all = all << n | (uint64_t)(((int64_t)numbers[i] - least + ((1 << e) >> 1)) >> e);
        have += n;
        while (have >= 8) {
            have -= 8;
            data[k++] = (uint8_t)(all >> have);
        }
    }
    if (have > 0)
        data[k] = (uint8_t)(all << (8 - have));
}

/* the eight octets from q on as the machine reads them */
static uint64_t word(const uint8_t *q)
{
    uint64_t w;
    memcpy(&w, q, 8);
    return w;
}

static uint32_t ones(uint64_t w)
{
    return (uint32_t)__builtin_popcountll(w);
}

static uint32_t ones_256(const uint8_t *q)
{
    return ones(word(q)) + ones(word(q + 8)) + ones(word(q + 16)) + ones(word(q + 24));
}

void plain_index(const uint8_t *bitmap, uint32_t *index, size_t points)
{
    uint32_t before = 0;
    index[0] = 0;
    for (size_t g = 1; g < (points + 255) / 256; g++) {
        before += bitmap == NULL ? 256 : ones_256(bitmap + (g - 1) * 32);
        index[g] = before;
    }
}

int plain_cursor(const uint8_t *data, unsigned n, const uint8_t *bitmap, const uint32_t *index, size_t i,
    uint32_t *value)
{
    size_t k = i;
    *value = 0;
    if (bitmap != NULL) {
        const uint8_t *q = bitmap + i / 256 * 32, *last = bitmap + i / 64 * 8;
        /* first point leftmost: the place's own bit is the lowest that stays */
        uint64_t w = __builtin_bswap64(word(last)) >> (63 - i % 64);
        if (w % 2 == 0)
            return 0;
        k = index[i / 256] + ones(w >> 1);
        for (; q < last; q += 8)
            k += ones(word(q));
    }
    *value = fetched(data, k * n, n);
    return 1;
}
