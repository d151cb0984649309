/* The searches in plain C: a scan of all strains with no tree. The tree serves only to say what a walk would have measured. */
#include "plain_image.h"
#include <stdlib.h>

/* A strain found, as one number: by distance, then code. */
typedef uint64_t key;

static key key_of(uint32_t distance, uint32_t code)
{
    return (key)distance << 32 | code;
}

static size_t smaller(size_t x, size_t y)
{
    return x < y ? x : y;
}

/* Puts a number before those that are larger, and the last of so many places is lost. */
static void insert(key *best, size_t places, key new)
{
    size_t place = places - 1;
    for (; place > 0 && best[place - 1] > new; place--)
        best[place] = best[place - 1];
    best[place] = new;
}

/* The best k, in ascending order. */
static inline void best_of(const struct image *image, uint8_t metric, const int16_t *wells, size_t k, key *best)
{
    size_t kept = 0;
    for (size_t i = 0; i < k; i++)
        best[i] = UINT64_MAX;
    for (size_t i = 0; i < image->n; i++) {
        key new = key_of(plate(metric, profile(image, i), wells, image->wells), node(image, i).code);
        if (new < best[k - 1]) {
            kept = smaller(k, kept + 1);
            insert(best, kept, new);
        }
    }
}

/* The nearest k of each plate in an image that is right. Places that no strain takes become 0. */
void plain_nearest(const uint8_t *bytes, const int16_t *plates, size_t count, size_t k, uint32_t *codes, uint32_t *distances)
{
    struct header h = header(bytes);
    struct image image = image_of(&h, bytes);
    key best[32];
    for (size_t j = 0; j < count; j++) {
        const int16_t *wells = plates + j * image.wells;
        /* two copies of the loop, each with its metric built in */
        if (h.metric == 1)
            best_of(&image, 1, wells, k, best);
        else
            best_of(&image, 2, wells, k, best);
        for (size_t i = 0; i < k; i++) {
            codes[j * k + i] = best[i] == UINT64_MAX ? 0 : (uint32_t)best[i];
            distances[j * k + i] = best[i] == UINT64_MAX ? 0 : (uint32_t)(best[i] >> 32);
        }
    }
}

/* The answer is the check's, or the refusal number, or from bit 16 on how many of each plate's places hold a strain. */
uint64_t plain_sitting(const uint8_t *bytes, size_t length, const int16_t *plates, size_t values, uint32_t k, uint32_t *codes,
                       size_t codes_room, uint32_t *distances, size_t distances_room)
{
    uint64_t refusal = plain_check(bytes, length);
    if (refusal)
        return refusal;
    struct header h = header(bytes);
    size_t count = values / h.wells;
    if (values % h.wells != 0 || count < 1 || count > 64)
        return 14;
    if (k < 1 || k > 32)
        return 15;
    if (smaller(codes_room, distances_room) < count * k)
        return 16;
    plain_nearest(bytes, plates, count, k, codes, distances);
    return (uint64_t)smaller(k, h.n) << 16;
}

/* The short call: 0 or the refusal number. */
uint32_t plain_short(const uint8_t *bytes, size_t length, const uint8_t *plate_bytes, size_t plate_length, uint8_t *out, size_t room)
{
    uint64_t refusal = plain_check(bytes, length);
    if (refusal)
        return (uint8_t)refusal;
    struct header h = header(bytes);
    if (plate_length != 2u * h.wells)
        return 14;
    if (room < 40)
        return 16;
    int16_t wells[16];
    uint32_t codes[5], distances[5];
    memcpy(wells, plate_bytes, plate_length);
    plain_nearest(bytes, wells, 1, 5, codes, distances);
    for (size_t i = 0; i < 5; i++) {
        memcpy(out + 8 * i, &codes[i], 4);
        memcpy(out + 8 * i + 4, &distances[i], 4);
    }
    return 0;
}

static int in_order(const void *x, const void *y)
{
    key a = *(const key *)x, b = *(const key *)y;
    return (a > b) - (a < b);
}

static inline void measure(const struct image *image, uint8_t metric, const int16_t *wells, uint32_t *all)
{
    for (size_t i = 0; i < image->n; i++)
        all[i] = plate(metric, profile(image, i), wells, image->wells);
}

/* A record is measured when the way up from it meets none further than the radius and that one's reach. */
static int is_measured(const struct image *image, const uint32_t *all, uint32_t radius, size_t record)
{
    while (record != image->root) {
        record = node(image, record).parent;
        if (all[record] > radius + (1ull << node(image, record).level_plus_1) - 1)
            return 0;
    }
    return 1;
}

/* The answer is the check's, or the refusal number, or from bit 16 on how many strains lie within the radius, and from bit 32 on how many
   profiles a walk measures. */
uint64_t plain_within(const uint8_t *bytes, size_t length, const int16_t *wells, size_t values, uint32_t radius, uint32_t *codes,
                      size_t codes_room, uint32_t *distances, size_t distances_room)
{
    uint64_t refusal = plain_check(bytes, length);
    if (refusal)
        return refusal;
    struct header h = header(bytes);
    struct image image = image_of(&h, bytes);
    if (values != h.wells)
        return 14;
    if (smaller(codes_room, distances_room) < h.n)
        return 16;
    uint32_t all[1024];
    key near[1024];
    size_t strains = 0, measured = 0;
    if (h.metric == 1)
        measure(&image, 1, wells, all);
    else
        measure(&image, 2, wells, all);
    for (size_t i = 0; i < h.n; i++) {
        if (all[i] <= radius)
            near[strains++] = key_of(all[i], node(&image, i).code);
        measured += is_measured(&image, all, radius, i);
    }
    qsort(near, strains, sizeof *near, in_order);
    for (size_t i = 0; i < strains; i++) {
        codes[i] = (uint32_t)near[i];
        distances[i] = (uint32_t)(near[i] >> 32);
    }
    return (uint64_t)strains << 16 | (uint64_t)measured << 32;
}
