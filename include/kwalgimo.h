/*
 * Kwalgimo: the matching library of a water-room reader. For C (C99 and later) and C++.
 *
 * A library image holds 1 to KW_MOST_STRAINS strains, each a code and a profile of 1 to KW_MOST_WELLS wells. The calls below
 * work on memory that the caller lends; the library keeps nothing, allocates nothing and holds no state.
 *
 * Pointers. A slice passes as a pointer and then a length, in elements. A pointer is never null and is aligned for its
 * element, also where the length is 0. What is lent to be written overlaps nothing else that is lent to the same call.
 * With that kept, any bytes, numbers and lengths have an answer.
 *
 * Refusals. A call that is refused changes nothing that was lent to it. Of several reasons it tells the one that comes
 * first in the order named with the call; each is tested over all records before the next. Records are counted from 0.
 */
#ifndef KWALGIMO_H
#define KWALGIMO_H

#include <stddef.h>
#include <stdint.h>

#ifdef __cplusplus
extern "C" {
#endif

/* Limits. */
enum {
    KW_MOST_WELLS = 16,        /* wells of a profile, from 1 */
    KW_MOST_STRAINS = 1024,    /* strains of a library, from 1 */
    KW_MOST_PLATES = 64,       /* plates of a sitting, from 1 */
    KW_MOST_NEIGHBOURS = 32,   /* neighbours asked for, from 1 */
    KW_MOST_BYTES = 40976,     /* bytes of an image */
    KW_LISTING_BYTES = 147456, /* bytes that every listing fits into */
    KW_SHORT_STRAINS = 5,      /* strains that the short call tells */
    KW_SHORT_BYTES = 40        /* bytes that it writes */
};

/* The bytes of an image of so many strains, each of so many wells. */
static inline size_t kw_image_bytes(size_t strains, size_t wells) {
    return 16 + 8 * strains + 2 * wells * strains;
}

/* Why a call is refused. Behind the meaning: the place that is told, if one is. */
enum {
    KW_ACCEPTED = 0,             /* not refused */
    KW_REFUSED_SIZE = 1,         /* the image has fewer than 16 bytes or more than 40,976 */
    KW_REFUSED_EDITION = 2,      /* the edition is not 1 */
    KW_REFUSED_WELLS = 3,        /* the wells are not 1 to 16 */
    KW_REFUSED_METRIC = 4,       /* the metric is not 1 or 2 */
    KW_REFUSED_COUNT = 5,        /* the strains are not 1 to 1,024 */
    KW_REFUSED_OFFSETS = 6,      /* an offset is not the one that the layout gives */
    KW_REFUSED_LENGTH = 7,       /* the length differs from the layout */
    KW_REFUSED_ROOT_NUMBER = 8,  /* the root is no record of the image */
    KW_REFUSED_NODE = 9,         /* code 0, parent no record, level byte over 21 or spare not 0: first record */
    KW_REFUSED_EQUAL_CODES = 10, /* two records have the same code: pair */
    KW_REFUSED_LEVEL = 11,       /* root's parent not itself, or a level not below its parent's: first record */
    KW_REFUSED_COVER = 12,       /* a strain lies further from its parent than its level covers: first record */
    KW_REFUSED_SEPARATION = 13,  /* two strains lie too near each other for their levels: pair */
    KW_REFUSED_PLATE = 14,       /* the plate values are not what the call asks for */
    KW_REFUSED_NEIGHBOURS = 15,  /* the neighbours asked for are 0 or over 32 */
    KW_REFUSED_ROOM = 16,        /* the memory lent is too small */
    KW_REFUSED_NEW_PROFILE = 17, /* the new profile has not the library's number of wells */
    KW_REFUSED_NEW_CODE = 18,    /* the new code is 0 (no place) or taken: its record */
    KW_REFUSED_HELD = 19,        /* the new profile equals a held one: its record */
    KW_REFUSED_FULL = 20         /* the library holds 1,024 strains already */
};

/*
 * The answer word, which every call but kw_short returns:
 *
 *   bits     refused                                    not refused
 *   0..7     the refusal number                         0
 *   8..15    place: 0 none, 1 a record, 2 a pair        0
 *   16..31   the record; of a pair the earlier record   first value
 *   32..47   of a pair the later record; else 0         second value
 *   48..63   0                                          0
 *
 * A listing's length takes both values: the first is its lower 16 bits, the second its upper ones.
 *
 * The functions that follow take it apart. Ask kw_refusal first; the others tell of a refused call or of one that is not.
 */

/* The refusal number, 0 where the call was not refused. */
static inline unsigned kw_refusal(uint64_t answer) { return (unsigned)(answer & 0xff); }

/* Of a refusal: the kind of its place. A pair is the smallest later record, then the smallest earlier one that fits. */
enum { KW_NO_PLACE = 0, KW_RECORD = 1, KW_PAIR = 2 };
static inline unsigned kw_place(uint64_t answer) { return (unsigned)(answer >> 8 & 0xff); }

/* Of a refusal at a record: the record. */
static inline unsigned kw_record(uint64_t answer) { return (unsigned)(answer >> 16 & 0xffff); }

/* Of a refusal at a pair: the two records. */
static inline unsigned kw_earlier(uint64_t answer) { return (unsigned)(answer >> 16 & 0xffff); }
static inline unsigned kw_later(uint64_t answer) { return (unsigned)(answer >> 32 & 0xffff); }

/* Of kw_start, kw_add and kw_file: the length of the image that was made. */
static inline size_t kw_length(uint64_t answer) { return (size_t)(answer >> 16 & 0xffff); }

/* Of kw_list: the length of the listing. */
static inline size_t kw_listing_length(uint64_t answer) { return (size_t)(answer >> 16 & 0xffffffff); }

/* Of kw_sitting: how many places of each plate hold strains. Of kw_within: how many strains were found. */
static inline size_t kw_strains(uint64_t answer) { return (size_t)(answer >> 16 & 0xffff); }

/* Of kw_within: how many profiles were measured. */
static inline size_t kw_measured(uint64_t answer) { return (size_t)(answer >> 32 & 0xffff); }

/*
 * The check: accepts a library image or refuses it.
 * Writes nothing. Refusals, in this order: 1 to 13. Accepted, the answer is 0.
 */
uint64_t kw_check(const uint8_t *image, size_t image_len);

/*
 * Starts a library with one strain, at level 0.
 * Writes the image, kw_image_bytes(1, wells), at the front of the buffer; the rest stays.
 * Refusals, in this order: 3, 4, 17, 18, 16. Answer: kw_length.
 */
uint64_t kw_start(uint32_t wells, uint32_t metric, uint32_t code,
                  const int16_t *profile, size_t profile_len,
                  uint8_t *buffer, size_t buffer_len);

/*
 * Adds a strain to the image that is the first image_len bytes of the buffer. Its record comes last.
 * The image grows in the buffer by 8 + 2 * wells bytes; the bytes after it stay.
 * Refusals, in this order: 1 (also where image_len exceeds buffer_len) to 13, 17, 18, 19, 20, 16. Answer: kw_length.
 */
uint64_t kw_add(uint8_t *buffer, size_t buffer_len, size_t image_len,
                uint32_t code, const int16_t *profile, size_t profile_len);

/*
 * Filing: the same strains, started with the lowest code, the others added in ascending order of code.
 * Writes the filing form, which is as long as the image, at the front of the buffer; the rest stays.
 * Refusals, in this order: 1 to 13, 16. Answer: kw_length.
 */
uint64_t kw_file(const uint8_t *image, size_t image_len,
                 uint8_t *buffer, size_t buffer_len);

/*
 * The listing: the library as text in ASCII. A header with wells, metric, count and the root's code; then a line for each
 * record, in their order, with its code, its parent's code, its level and its values. One space stands between, and each
 * line ends in one line feed; no zero byte follows.
 * Writes the listing at the front of the buffer, which needs KW_LISTING_BYTES, also where the listing is shorter; the rest
 * stays.
 * Refusals, in this order: 1 to 13, 16. Answer: kw_listing_length.
 */
uint64_t kw_list(const uint8_t *image, size_t image_len,
                 uint8_t *buffer, size_t buffer_len);

/*
 * The sitting: the nearest strains of m plates, 1 <= m <= 64, whose values are lent one plate after the other.
 * Each slice needs m times neighbours places. Plate j owns the places from j times neighbours on: first the strains in
 * ascending order of distance, then code; its other places become code 0, distance 0. Places behind the last plate's stay.
 * Refusals, in this order: 1 to 13; 14, values not a multiple of the wells, or plates not 1 to 64; 15; 16.
 * Answer: kw_strains, the lesser of neighbours and the library's strains.
 */
uint64_t kw_sitting(const uint8_t *image, size_t image_len,
                    const int16_t *plates, size_t plates_len, uint32_t neighbours,
                    uint32_t *codes, size_t codes_len,
                    uint32_t *distances, size_t distances_len);

/*
 * The strains within a radius of one plate, those at the radius too.
 * Each slice needs a place for every strain of the library. Writes what it finds at the front, in ascending order of
 * distance, then code; other places stay.
 * Refusals, in this order: 1 to 13; 14, the plate has not the library's wells; 16. Answer: kw_strains and kw_measured.
 */
uint64_t kw_within(const uint8_t *image, size_t image_len,
                   const int16_t *plate, size_t plate_len, uint32_t radius,
                   uint32_t *codes, size_t codes_len,
                   uint32_t *distances, size_t distances_len);

/*
 * The short call, for a host program: the five nearest strains of one plate.
 * The plate is lent as bytes in the image's coding: two for each well, the lower first, two's complement.
 * Writes five times code and distance to the first 40 bytes of out, 4 bytes each, the lowest first; with fewer than five
 * strains the rest of the 40 becomes 0. Bytes from 40 on stay.
 * Refusals, in this order: 1 to 13; 14, not two bytes for each well; 16. Returns 0 or the refusal number; no place is told.
 */
uint32_t kw_short(const uint8_t *image, size_t image_len,
                  const uint8_t *plate, size_t plate_len,
                  uint8_t *out, size_t out_len);

#ifdef __cplusplus
}
#endif

#endif
