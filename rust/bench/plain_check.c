/* The check of a library image in plain C: refusal numbers 1 to 13, each tested over all records before the next. */
#include "plain_image.h"

static uint64_t at_record(uint64_t number, size_t record)
{
    return number | 1 << 8 | (uint64_t)record << 16;
}

static uint64_t at_pair(uint64_t number, size_t earlier, size_t later)
{
    return number | 2 << 8 | (uint64_t)earlier << 16 | (uint64_t)later << 32;
}

/* Numbers 2 to 8. */
static uint64_t header_refusal(const struct header *h, size_t length)
{
    if (h->edition != 1)
        return 2;
    if (h->wells < 1 || h->wells > 16)
        return 3;
    if (h->metric != 1 && h->metric != 2)
        return 4;
    if (h->n < 1 || h->n > 1024)
        return 5;
    if (h->profiles != 16u + 8u * h->n || h->nodes != 16)
        return 6;
    if (length != h->profiles + 2u * h->wells * h->n)
        return 7;
    return h->root >= h->n ? 8 : 0;
}

static uint64_t field_refusal(const struct image *image)
{
    for (size_t i = 0; i < image->n; i++) {
        struct node v = node(image, i);
        if (v.code == 0 || v.parent >= image->n || v.level_plus_1 > 21 || v.spare != 0)
            return at_record(9, i);
    }
    return 0;
}

static uint64_t code_refusal(const struct image *image)
{
    for (size_t later = 0; later < image->n; later++) {
        uint32_t code = node(image, later).code;
        for (size_t earlier = 0; earlier < later; earlier++)
            if (node(image, earlier).code == code)
                return at_pair(10, earlier, later);
    }
    return 0;
}

static uint64_t level_refusal(const struct image *image)
{
    for (size_t i = 0; i < image->n; i++) {
        struct node v = node(image, i);
        if (i == image->root ? v.parent != i : v.level_plus_1 >= node(image, v.parent).level_plus_1)
            return at_record(11, i);
    }
    return 0;
}

static inline uint64_t cover_refusal(const struct image *image, uint8_t metric)
{
    for (size_t i = 0; i < image->n; i++) {
        struct node v = node(image, i);
        if (pair(metric, profile(image, v.parent), profile(image, i), image->wells) > 1u << v.level_plus_1)
            return at_record(12, i);
    }
    return 0;
}

/* Two nodes have to be further apart than 2^m, m being the lower level: both sides doubled, since m may be -1. */
static inline uint64_t separation_refusal(const struct image *image, uint8_t metric)
{
    for (size_t later = 0; later < image->n; later++) {
        const uint8_t *own = profile(image, later), *other = image->profiles;
        uint8_t level_plus_1 = node(image, later).level_plus_1;
        for (size_t earlier = 0; earlier < later; earlier++, other += 2 * image->wells) {
            uint8_t its = node(image, earlier).level_plus_1;
            uint32_t limit = 1u << (its < level_plus_1 ? its : level_plus_1);
            if (2 * pair(metric, other, own, image->wells) <= limit)
                return at_pair(13, earlier, later);
        }
    }
    return 0;
}

static inline uint64_t distance_refusal(const struct image *image, uint8_t metric)
{
    uint64_t refusal = cover_refusal(image, metric);
    return refusal ? refusal : separation_refusal(image, metric);
}

uint64_t plain_check(const uint8_t *bytes, size_t length)
{
    if (length < 16 || length > 40976)
        return 1;
    struct header h = header(bytes);
    uint64_t refusal = header_refusal(&h, length);
    if (refusal)
        return refusal;
    struct image image = image_of(&h, bytes);
    refusal = field_refusal(&image);
    if (!refusal)
        refusal = code_refusal(&image);
    if (!refusal)
        refusal = level_refusal(&image);
    /* two copies of the loops, each with its metric built in */
    if (!refusal)
        refusal = h.metric == 1 ? distance_refusal(&image, 1) : distance_refusal(&image, 2);
    return refusal;
}
