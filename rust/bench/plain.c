/* The distances in plain C, as a reader would write them without a proof: what the library is measured beside. */
#include "plain.h"

/* Of `count` profiles, each `wells` wells, one after the other: the distance of the first that lies nearer than `limit`, or the limit. */

uint32_t plain_plate_row(uint8_t metric, const uint8_t *profiles, const int16_t *wells_of_plate, size_t wells, size_t count, uint32_t limit)
{
    for (size_t j = 0; j < count; j++) {
        uint32_t d = plate(metric, profiles + 2 * wells * j, wells_of_plate, wells);
        if (d < limit)
            return d;
    }
    return limit;
}

uint32_t plain_pair_row(uint8_t metric, const uint8_t *one, const uint8_t *profiles, size_t wells, size_t count, uint32_t limit)
{
    for (size_t j = 0; j < count; j++) {
        uint32_t d = pair(metric, one, profiles + 2 * wells * j, wells);
        if (d < limit)
            return d;
    }
    return limit;
}
