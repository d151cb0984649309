/* What the plain C of whole calls shares: the parts of an image, and its check. */
#ifndef PLAIN_IMAGE_H
#define PLAIN_IMAGE_H
#include "plain.h"

/* A node as its 8 bytes stand in an image. */
struct node {
    uint32_t code;
    uint16_t parent;
    uint8_t level_plus_1;
    uint8_t spare;
};

/* The header as its 16 bytes stand in an image. */
struct header {
    uint16_t edition;
    uint8_t wells;
    uint8_t metric;
    uint16_t n;
    uint16_t root;
    uint32_t profiles;
    uint32_t nodes;
};

_Static_assert(sizeof(struct node) == 8 && sizeof(struct header) == 16, "nothing between the fields");

/* An image whose header and length are right. */
struct image {
    size_t wells, n, root;
    const uint8_t *nodes, *profiles;
};

static inline struct header header(const uint8_t *bytes)
{
    struct header read;
    memcpy(&read, bytes, sizeof read);
    return read;
}

static inline struct image image_of(const struct header *h, const uint8_t *bytes)
{
    return (struct image){h->wells, h->n, h->root, bytes + h->nodes, bytes + h->profiles};
}

static inline struct node node(const struct image *image, size_t record)
{
    struct node read;
    memcpy(&read, image->nodes + sizeof read * record, sizeof read);
    return read;
}

static inline const uint8_t *profile(const struct image *image, size_t record)
{
    return image->profiles + 2 * image->wells * record;
}

/* The check's answer in one number (0 is accepted): the refusal number from bit 0, the kind of its place from bit 8 (none, record, pair),
   the record or the earlier one of a pair from bit 16, the later one from bit 32. */
uint64_t plain_check(const uint8_t *bytes, size_t length);

#endif
