/*
 * Document 01's worked examples through the header: each call once, and what is read from its answer.
 * Prints each line that does not hold. Exit status: 0 if all hold, else 1.
 */
#include "kwalgimo.h"

#include <stdio.h>
#include <string.h>

static int failed = 0;

#define HOLDS(what) \
    if (!(what)) failed = 1, printf("calls.c:%d: not so: %s\n", __LINE__, #what)

static uint8_t image[KW_MOST_BYTES];
static size_t length;

static uint64_t add(uint32_t code, int16_t value) {
    uint64_t answer = kw_add(image, sizeof image, length, code, &value, 1);
    if (kw_refusal(answer) == KW_ACCEPTED) length = kw_length(answer);
    return answer;
}

static void build(void) {
    int16_t first = 0;
    length = kw_length(kw_start(1, 1, 101, &first, 1, image, sizeof image));
    HOLDS(length == kw_image_bytes(1, 1));
    HOLDS(kw_length(add(102, 3)) == 36 && kw_length(add(103, 10)) == 46 && kw_length(add(104, 11)) == 56);
    HOLDS(length == kw_image_bytes(4, 1) && kw_check(image, length) == KW_ACCEPTED);
    HOLDS(kw_image_bytes(KW_MOST_STRAINS, KW_MOST_WELLS) == KW_MOST_BYTES);
}

static void refusals(void) {
    uint64_t held = add(105, 10);
    HOLDS(kw_refusal(held) == KW_REFUSED_HELD && kw_place(held) == KW_RECORD && kw_record(held) == 2);
    HOLDS(kw_refusal(add(0, 12)) == KW_REFUSED_NEW_CODE && kw_place(add(0, 12)) == KW_NO_PLACE);

    uint8_t damaged[56];
    memcpy(damaged, image, sizeof damaged);
    damaged[30] = 1; /* 102's level byte */
    uint64_t cover = kw_check(damaged, sizeof damaged);
    HOLDS(kw_refusal(cover) == KW_REFUSED_COVER && kw_place(cover) == KW_RECORD && kw_record(cover) == 1);
    damaged[40] = 102; /* 104's code */
    uint64_t codes = kw_check(damaged, sizeof damaged);
    HOLDS(kw_refusal(codes) == KW_REFUSED_EQUAL_CODES && kw_place(codes) == KW_PAIR);
    HOLDS(kw_earlier(codes) == 1 && kw_later(codes) == 3);
}

static void searches(void) {
    int16_t plate = 7, below = -31;
    uint32_t codes[5] = {9, 9, 9, 9, 9}, distances[5] = {9, 9, 9, 9, 9};
    uint64_t sitting = kw_sitting(image, length, &plate, 1, 5, codes, 5, distances, 5);
    HOLDS(kw_refusal(sitting) == KW_ACCEPTED && kw_strains(sitting) == 4);
    HOLDS(codes[0] == 103 && codes[1] == 102 && codes[2] == 104 && codes[3] == 101 && codes[4] == 0);
    HOLDS(distances[0] == 3 && distances[1] == 4 && distances[2] == 4 && distances[3] == 7 && distances[4] == 0);

    uint64_t near = kw_within(image, length, &plate, 1, 4, codes, 4, distances, 4);
    HOLDS(kw_refusal(near) == KW_ACCEPTED && kw_strains(near) == 3 && kw_measured(near) == 4);
    uint64_t none = kw_within(image, length, &below, 1, 0, codes, 4, distances, 4);
    HOLDS(kw_refusal(none) == KW_ACCEPTED && kw_strains(none) == 0 && kw_measured(none) == 3);
}

static void short_and_filing(void) {
    uint8_t form[56], found[KW_SHORT_BYTES];
    const uint8_t plate[2] = {7, 0};
    HOLDS(kw_length(kw_file(image, length, form, sizeof form)) == 56 && memcmp(form, image, 56) == 0);
    HOLDS(kw_short(image, length, plate, 1, found, sizeof found) == KW_REFUSED_PLATE);
    HOLDS(kw_short(image, length, plate, 2, found, sizeof found) == KW_ACCEPTED);
    HOLDS(found[0] == 103 && found[4] == 3 && found[24] == 101 && found[28] == 7 && found[32] == 0);
}

static const char lines[] =
    "wells 1 metric 1 count 4 root 101\n101 101 4 0\n102 101 1 3\n103 101 3 10\n104 103 -1 11\n";

static uint8_t room[KW_LISTING_BYTES + 1], before[sizeof room];

/* Whether the room is as it was from this byte on. */
static int stays(size_t from) { return memcmp(room + from, before + from, sizeof room - from) == 0; }

static void listing(void) {
    size_t whole = sizeof lines - 1;
    memset(before, 0xee, sizeof before);
    memcpy(room, before, sizeof room);
    uint64_t no_room = kw_list(image, length, room, KW_LISTING_BYTES - 1);
    HOLDS(kw_refusal(no_room) == KW_REFUSED_ROOM && kw_place(no_room) == KW_NO_PLACE && stays(0));

    uint8_t damaged[56];
    memcpy(damaged, image, sizeof damaged);
    damaged[30] = 1; /* 102's level byte */
    uint64_t cover = kw_list(damaged, sizeof damaged, room, sizeof room);
    HOLDS(kw_refusal(cover) == KW_REFUSED_COVER && kw_place(cover) == KW_RECORD && kw_record(cover) == 1 && stays(0));

    uint64_t listed = kw_list(image, length, room, KW_LISTING_BYTES);
    HOLDS(kw_refusal(listed) == KW_ACCEPTED && kw_listing_length(listed) == whole);
    HOLDS(memcmp(room, lines, whole) == 0 && stays(whole));
    HOLDS(kw_listing_length(0x0000000200030000) == 0x20003); /* one of more than 65,535 bytes */
}

int main(void) {
    build();
    refusals();
    searches();
    short_and_filing();
    listing();
    return failed;
}
