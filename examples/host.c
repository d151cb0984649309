/*
 * A bench host: which strains lie nearest to a plate, by the short call.
 *
 *     host IMAGE PLATE NAMES
 *
 * IMAGE is a library image, PLATE one plate as two bytes for each well, NAMES a text of lines `code name`. Prints a
 * line for each strain: code, distance, name. Exit status: 0; 1 where the library refuses; 2 where the arguments are
 * wrong or a file cannot be read.
 */
#include "kwalgimo.h"

#include <inttypes.h>
#include <stdio.h>

enum { REFUSED = 1, UNREADABLE = 2 };

/* What the short call can tell. */
static const char *const sentences[] = {
    [KW_REFUSED_SIZE] = "the image has fewer than 16 bytes or more than 40,976",
    [KW_REFUSED_EDITION] = "the image's edition is not 1",
    [KW_REFUSED_WELLS] = "the image's wells are not 1 to 16",
    [KW_REFUSED_METRIC] = "the image's metric is not 1 or 2",
    [KW_REFUSED_COUNT] = "the image's strains are not 1 to 1,024",
    [KW_REFUSED_OFFSETS] = "an offset in the image is not the one that its layout gives",
    [KW_REFUSED_LENGTH] = "the image's length is not the one that its layout gives",
    [KW_REFUSED_ROOT_NUMBER] = "the image's root is none of its records",
    [KW_REFUSED_NODE] = "a record of the image has a code, parent, level or spare byte that is not allowed",
    [KW_REFUSED_EQUAL_CODES] = "two records of the image have the same code",
    [KW_REFUSED_LEVEL] = "a record's level is not below its parent's, or the root's parent is not itself",
    [KW_REFUSED_COVER] = "a strain lies further from its parent than its level covers",
    [KW_REFUSED_SEPARATION] = "two strains lie too near each other for their levels",
    [KW_REFUSED_PLATE] = "the plate has not two bytes for each well of the library",
    [KW_REFUSED_ROOM] = "the memory lent is too small",
};

/* A library that is newer than this program may refuse by a number that is not among them. */
static const char *sentence(uint32_t refusal) {
    int known = refusal < sizeof sentences / sizeof *sentences && sentences[refusal];
    return known ? sentences[refusal] : "for a reason that this program does not know";
}

/* Reads what there is room for. Gives 0 if that fails. */
static int read_file(const char *path, uint8_t *bytes, size_t room, size_t *length) {
    FILE *file = fopen(path, "rb");
    if (!file) return 0;
    *length = fread(bytes, 1, room, file);
    int failed = ferror(file);
    fclose(file);
    return !failed;
}

/* A folder can be opened, but not read. */
static FILE *open_names(const char *path) {
    FILE *names = fopen(path, "r");
    if (!names) return NULL;
    getc(names);
    if (!ferror(names)) return names;
    fclose(names);
    return NULL;
}

/* The number at the start of a line, or of nothing 0, which is no code. Reads the space behind it too. */
static uint64_t read_code(FILE *names) {
    uint64_t code = 0;
    int c;
    while ((c = getc(names)) >= '0' && c <= '9')
        if (code <= UINT32_MAX) code = 10 * code + (uint64_t)(c - '0');
    if (c == ' ') return code;
    ungetc(c, names);
    return 0;
}

/* Reads the rest of a line and prints it if asked to. Gives 0 at the end of the text. */
static int read_line(FILE *names, int print) {
    int c;
    while ((c = getc(names)) != EOF && c != '\n')
        if (print) putchar(c);
    return c != EOF;
}

static void print_name(FILE *names, uint32_t code) {
    rewind(names);
    do {
        if (read_code(names) == code) {
            read_line(names, 1);
            return;
        }
    } while (read_line(names, 0));
    fputs("no name", stdout);
}

static uint32_t number_at(const uint8_t *bytes) {
    return (uint32_t)bytes[0] | (uint32_t)bytes[1] << 8 | (uint32_t)bytes[2] << 16 | (uint32_t)bytes[3] << 24;
}

/* Places behind the library's last strain have code 0. */
static void print_strains(const uint8_t *found, FILE *names) {
    for (int place = 0; place < KW_SHORT_STRAINS; place++) {
        uint32_t code = number_at(found + 8 * place), distance = number_at(found + 8 * place + 4);
        if (code == 0) continue;
        printf("%" PRIu32 " %" PRIu32 " ", code, distance);
        print_name(names, code);
        putchar('\n');
    }
}

static int unreadable(const char *path) {
    fprintf(stderr, "host: %s cannot be read\n", path);
    return UNREADABLE;
}

int main(int count, char **arguments) {
    /* One byte more than is allowed, so that the library sees a file that is too long, and refuses it. */
    static uint8_t image[KW_MOST_BYTES + 1], plate[2 * KW_MOST_WELLS + 1];
    uint8_t found[KW_SHORT_BYTES];
    size_t image_len, plate_len;
    if (count != 4) {
        fputs("usage: host IMAGE PLATE NAMES\n", stderr);
        return UNREADABLE;
    }
    if (!read_file(arguments[1], image, sizeof image, &image_len)) return unreadable(arguments[1]);
    if (!read_file(arguments[2], plate, sizeof plate, &plate_len)) return unreadable(arguments[2]);
    FILE *names = open_names(arguments[3]);
    if (!names) return unreadable(arguments[3]);

    uint32_t refusal = kw_short(image, image_len, plate, plate_len, found, sizeof found);
    if (refusal == KW_ACCEPTED)
        print_strains(found, names);
    else
        printf("refused, %" PRIu32 ": %s\n", refusal, sentence(refusal));
    fclose(names);
    return refusal == KW_ACCEPTED ? 0 : REFUSED;
}
