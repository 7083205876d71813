/* How large must a buffer be that holds every report? Checks a schema image and answers for one slot.
 *
 *     ./build library
 *     cc -std=c11 -Iinclude examples/check.c target/staticlib/libvexil.a -o target/check
 *     target/check examples/bond-report.image 2
 *
 * FILE may be - for standard input. Exit status: 0 there is such a buffer; 1 there is none, or the image is refused or has
 * findings; 2 the command or the file is at fault. */
#include <errno.h>
#include <inttypes.h>
#include <stdio.h>
#include <stdlib.h>
#include <string.h>

#include "vexil.h"

enum { FINDINGS = 1000 };

/* One byte more than an image may have, so that a longer file is refused and not cut. */
static uint8_t image[VEXIL_IMAGE_MOST + 1];
static uint64_t sizes[VEXIL_SLOTS_MOST * VEXIL_SIZE_COLUMNS];
static uint32_t findings[FINDINGS * VEXIL_FINDING_COLUMNS];

static const char *meaning(uint64_t number)
{
    switch (number) {
    case VEXIL_REFUSED_LONG: return "the image has more than 65,536 bytes";
    case VEXIL_REFUSED_CUT: return "the bytes end before the number at this byte does";
    case VEXIL_REFUSED_FORM: return "the number at this byte is not in its shortest form, or beyond 64 bits";
    case VEXIL_REFUSED_RANGE: return "the number at this byte is outside its range";
    case VEXIL_REFUSED_DEEP: return "types, expressions or encodings are nested past 32 levels at this byte";
    case VEXIL_REFUSED_EXTRA: return "bytes follow the last declaration, from this byte on";
    case VEXIL_REFUSED_NAME: return "this name finds a slot that is empty or not there";
    case VEXIL_REFUSED_NEWTYPES: return "newtypes lead back to themselves, this slot among them";
    case VEXIL_REFUSED_ALIASES: return "generic aliases lead back to themselves, this slot among them";
    case VEXIL_REFUSED_SIZES: return "the size table is too short";
    case VEXIL_REFUSED_SUM: return "this slot's size passes 2^63 - 1 bits, first by a sum";
    case VEXIL_REFUSED_FINDINGS: return "there are more than 1,000 findings";
    case VEXIL_REFUSED_PRODUCT: return "this slot's size passes 2^63 - 1 bits, first by a product: is an array count mistyped?";
    default: return "a number that vexil.h does not have";
    }
}

static const char *saying(uint32_t class)
{
    switch (class) {
    case VEXIL_FINDING_ENDLESS: return "the message holds itself without end";
    case VEXIL_FINDING_ARGUMENTS: return "the impl gives its trait another number of arguments";
    case VEXIL_FINDING_TARGET: return "the impl's target is no message";
    case VEXIL_FINDING_FIELD: return "the impl's target lacks a field of the trait";
    default: return "a class that vexil.h does not have";
    }
}

/* The whole file, as far as the array reaches. False, and a message, if it cannot be read. */
static int read_image(const char *name, size_t *length)
{
    int standard = strcmp(name, "-") == 0;
    FILE *file = standard ? stdin : fopen(name, "rb");
    int failed = file == NULL;
    if (!failed) {
        *length = fread(image, 1, sizeof image, file);
        failed = ferror(file);
    }
    if (failed)
        fprintf(stderr, "check: cannot read %s: %s\n", standard ? "standard input" : name, strerror(errno));
    if (file != NULL && !standard)
        fclose(file);
    return !failed;
}

/* A slot's number in decimal. False, and a message, for anything else. */
static int parse_slot(const char *text, uint64_t *slot)
{
    char *end;
    errno = 0;
    *slot = strtoull(text, &end, 10);
    if (*text >= '0' && *text <= '9' && *end == '\0' && errno == 0)
        return 1;
    fprintf(stderr, "check: %s is no slot number\n", text);
    return 0;
}

static void print_findings(uint64_t count)
{
    for (uint64_t i = 0; i < count; i++) {
        const uint32_t *row = findings + i * VEXIL_FINDING_COLUMNS;
        printf("slot %" PRIu32 ", source %" PRIu32 " to %" PRIu32 ": %s\n", row[VEXIL_FINDING_SLOT], row[VEXIL_FINDING_OFFSET],
               row[VEXIL_FINDING_OFFSET] + row[VEXIL_FINDING_LENGTH], saying(row[VEXIL_FINDING_CLASS]));
    }
}

/* The buffer for a message or union. False if there is none. */
static int print_buffer(uint64_t slot)
{
    const uint64_t *row = sizes + slot * VEXIL_SIZE_COLUMNS;
    uint64_t smallest = row[VEXIL_SIZE_SMALLEST], largest = row[VEXIL_SIZE_LARGEST];
    printf("slot %" PRIu64 ": ", slot);
    switch (row[VEXIL_SIZE_KIND]) {
    case VEXIL_SIZE_FIXED:
    case VEXIL_SIZE_BOUNDED:
        printf("smallest %" PRIu64 " bits, largest %" PRIu64 " bits: a buffer of %" PRIu64 " bytes holds every report\n", smallest,
               largest, (largest + 7) / 8);
        return 1;
    case VEXIL_SIZE_OPEN:
        printf("smallest %" PRIu64 " bits, no largest: no buffer holds every report\n", smallest);
        return 0;
    case VEXIL_SIZE_ENUM:
        printf("an enum of %" PRIu64 " bits, no message and no union\n", smallest);
        return 0;
    case VEXIL_SIZE_FLAGS:
        printf("flags of %" PRIu64 " bytes, no message and no union\n", smallest);
        return 0;
    default:
        printf("no message and no union with a size\n");
        return 0;
    }
}

int main(int count, char **words)
{
    size_t length = 0;
    uint64_t slot = 0;
    if (count != 3) {
        fprintf(stderr, "usage: check FILE SLOT\n");
        return 2;
    }
    if (!parse_slot(words[2], &slot) || !read_image(words[1], &length))
        return 2;

    struct vexil_answer answer = vexil_check(image, length, sizes, sizeof sizes / sizeof *sizes, findings,
                                             sizeof findings / sizeof *findings);
    if (answer.number != VEXIL_ACCEPTED) {
        printf("refused %" PRIu64 " at %" PRIu64 ": %s\n", answer.number, answer.value, meaning(answer.number));
        return 1;
    }
    uint64_t slots = vexil_read(image, length, NULL, 0).value;
    if (slot >= slots) {
        fprintf(stderr, "check: no slot %" PRIu64 ", the image has %" PRIu64 "\n", slot, slots);
        return 2;
    }
    print_findings(answer.value);
    return print_buffer(slot) && answer.value == 0 ? 0 : 1;
}
