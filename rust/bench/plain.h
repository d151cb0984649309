/* What the plain C files share: wells in an image's bytes, and the distances of profiles. */
#ifndef PLAIN_H
#define PLAIN_H
#include <stddef.h>
#include <stdint.h>
#include <string.h>

/* A well in an image's bytes. The images are little-endian, and so is the machine that this is measured on. */
static inline int16_t well(const uint8_t *bytes)
{
    int16_t value;
    memcpy(&value, bytes, sizeof value);
    return value;
}

static inline uint32_t difference(int16_t x, int16_t y)
{
    int32_t d = (int32_t)x - (int32_t)y;
    return (uint32_t)(d < 0 ? -d : d);
}

static inline uint32_t larger(uint32_t x, uint32_t y)
{
    return x < y ? y : x;
}

static inline uint32_t pair(uint8_t metric, const uint8_t *p, const uint8_t *q, size_t wells)
{
    uint32_t r = 0;
    if (metric == 1)
        for (size_t i = 0; i < wells; i++)
            r += difference(well(p + 2 * i), well(q + 2 * i));
    if (metric == 2)
        for (size_t i = 0; i < wells; i++)
            r = larger(r, difference(well(p + 2 * i), well(q + 2 * i)));
    return r;
}

static inline uint32_t plate(uint8_t metric, const uint8_t *profile, const int16_t *wells_of_plate, size_t wells)
{
    uint32_t r = 0;
    if (metric == 1)
        for (size_t i = 0; i < wells; i++)
            r += difference(well(profile + 2 * i), wells_of_plate[i]);
    if (metric == 2)
        for (size_t i = 0; i < wells; i++)
            r = larger(r, difference(well(profile + 2 * i), wells_of_plate[i]));
    return r;
}

#endif
