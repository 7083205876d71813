/* Calls every export from C with arguments that tell each other apart: images, tables and lengths all differ, tables are marked
 * beforehand and watched past their end. A pointer or a length in another's place changes what is seen. */
#include <stdio.h>
#include <string.h>

#include "vexil.h"

enum { MARK = 0x5a5a, SIZES = 12, FINDINGS = 15, STARTS = 5, GUARD = 4 };

/* An enum of ordinal 4; a message with the span 5, 9 that holds itself and the enum; an empty slot. The first two are declared. */
static const uint8_t loop[] = {1, 0, 3, 2, 0, 0, 0, 1, 4, 1, 5, 9, 0, 2, 0, 0, 3, 1, 0, 0, 3, 0, 0, 2, 0, 1};
static const uint64_t loop_sizes[] = {VEXIL_SIZE_ENUM, 3, 0, VEXIL_SIZE_OPEN, 3, 0, VEXIL_SIZE_NONE, 0, 0};
static const uint64_t loop_aligned[] = {VEXIL_SIZE_ENUM, 3, 0, VEXIL_SIZE_OPEN, 8, 0, VEXIL_SIZE_NONE, 0, 0};
static const uint32_t loop_findings[] = {VEXIL_FINDING_ENDLESS, 1, 5, 9, 0, 0};
static const size_t loop_starts[] = {3, 9, 22};

/* The same in edition two, where the enum has the retired ordinals 9 and 4, and the message's fields the limits 7 and 300: the
 * enum takes a bit more. */
static const uint8_t loop_two[] = {1, 0, 3, 2, 0, 0, 0, 1, 4, 2, 9, 4, 1, 5, 9, 0,
                                   2, 0, 0, 3, 1, 7, 0, 0, 3, 0, 0xac, 2, 0, 2, 0, 1};
static const uint64_t loop_two_sizes[] = {VEXIL_SIZE_ENUM, 4, 0, VEXIL_SIZE_OPEN, 4, 0, VEXIL_SIZE_NONE, 0, 0};
static const uint64_t loop_two_aligned[] = {VEXIL_SIZE_ENUM, 4, 0, VEXIL_SIZE_OPEN, 8, 0, VEXIL_SIZE_NONE, 0, 0};
static const size_t loop_two_starts[] = {3, 12, 28};

/* The same once more, in both editions, but that the message stores the fixed size 6. */
static const uint8_t stored[] = {1, 0, 3, 2, 0, 0, 0, 1, 4, 1, 5, 9, 1, 6, 2, 0, 0, 3, 1, 0, 0, 3, 0, 0, 2, 0, 1};
static const uint8_t stored_two[] = {1, 0, 3, 2, 0, 0, 0, 1, 4, 2, 9, 4, 1, 5, 9, 1, 6,
                                     2, 0, 0, 3, 1, 7, 0, 0, 3, 0, 0xac, 2, 0, 2, 0, 1};

/* A config; a message of 2^63 - 7 Bool, which rounded pass the limit, in both editions. The message is declared. */
static const uint8_t large[] = {1, 0, 2, 6, 1, 5, 9, 0, 1, 0, 0, 6, 0, 0,
                                0xf9, 0xff, 0xff, 0xff, 0xff, 0xff, 0xff, 0xff, 0x7f, 1, 1};
static const uint8_t large_two[] = {1, 0, 2, 6, 1, 5, 9, 0, 1, 0, 0, 6, 0, 0,
                                    0xf9, 0xff, 0xff, 0xff, 0xff, 0xff, 0xff, 0xff, 0x7f, 8, 1, 1};

/* A number at byte 1 that is not in its shortest form. */
static const uint8_t long_form[] = {1, 0x80, 0, 0, 0};

static uint64_t sizes[SIZES + GUARD];
static uint32_t findings[FINDINGS + GUARD];
static size_t starts[STARTS + GUARD];
static int calls, wrong;

static void mark(void)
{
    for (size_t i = 0; i < SIZES + GUARD; i++)
        sizes[i] = MARK;
    for (size_t i = 0; i < FINDINGS + GUARD; i++)
        findings[i] = MARK;
    for (size_t i = 0; i < STARTS + GUARD; i++)
        starts[i] = MARK;
}

static void expect(const char *call, const char *what, size_t place, uint64_t is, uint64_t due)
{
    if (is == due)
        return;
    printf("%s: %s %zu is %llu, not %llu\n", call, what, place, (unsigned long long)is, (unsigned long long)due);
    wrong++;
}

/* What a table has to hold at a place: the rows, then zeros up to its length, and past it the mark. */
static uint64_t due(uint64_t row, size_t place, size_t used, size_t length)
{
    return place < used ? row : place < length ? 0 : MARK;
}

static void expect_sizes(const char *call, const uint64_t *rows, size_t length, size_t used)
{
    for (size_t i = 0; i < SIZES + GUARD; i++)
        expect(call, "size", i, sizes[i], due(rows[i < 9 ? i : 0], i, used, length));
}

static void expect_findings(const char *call, size_t length, size_t used)
{
    for (size_t i = 0; i < FINDINGS + GUARD; i++)
        expect(call, "finding", i, findings[i], due(loop_findings[i < 6 ? i : 0], i, used, length));
}

static void expect_starts(const char *call, const size_t *rows, size_t length, size_t used)
{
    for (size_t i = 0; i < STARTS + GUARD; i++)
        expect(call, "start", i, starts[i], due(rows[i < 3 ? i : 0], i, used, length));
}

static void expect_answer(const char *call, struct vexil_answer answer, uint64_t number, uint64_t value)
{
    expect(call, "number", 0, answer.number, number);
    expect(call, "value", 0, answer.value, value);
    calls++;
}

/* What an edition has for a layout: all checks are called alike, and so are both readers. */
struct entry {
    struct vexil_answer (*check)(const uint8_t *, size_t, uint64_t *, size_t, uint32_t *, size_t);
    const uint64_t *sizes;
    struct vexil_answer (*read)(const uint8_t *, size_t, size_t *, size_t);
    const size_t *starts;
};

static const struct entry one = {vexil_check, loop_sizes, vexil_read, loop_starts};
static const struct entry two = {vexil_check_two, loop_two_sizes, vexil_read_two, loop_two_starts};
static const struct entry aligned = {vexil_check_aligned, loop_aligned, vexil_read, loop_starts};
static const struct entry aligned_two = {vexil_check_aligned_two, loop_two_aligned, vexil_read_two, loop_two_starts};

/* Each tries one call. A table of length 0 is lent as a null pointer. */
static void check(const char *call, const struct entry *entry, const uint8_t *image, size_t length, size_t s, size_t f,
                  uint64_t number, uint64_t value)
{
    mark();
    expect_answer(call, entry->check(image, length, s ? sizes : NULL, s, f ? findings : NULL, f), number, value);
    expect_sizes(call, entry->sizes, s, number ? 0 : 9);
    expect_findings(call, f, number ? 0 : 6);
    expect_starts(call, loop_starts, 0, 0);
}

static void size(const char *call, const uint8_t *image, size_t length, size_t s, uint64_t number, uint64_t value)
{
    mark();
    expect_answer(call, vexil_sizes(image, length, s ? sizes : NULL, s), number, value);
    expect_sizes(call, loop_sizes, s, number ? 0 : 9);
    expect_findings(call, 0, 0);
    expect_starts(call, loop_starts, 0, 0);
}

static void read(const char *call, const struct entry *entry, const uint8_t *image, size_t length, size_t s,
                 uint64_t number, uint64_t value)
{
    mark();
    expect_answer(call, entry->read(image, length, s ? starts : NULL, s), number, value);
    expect_sizes(call, entry->sizes, 0, 0);
    expect_findings(call, 0, 0);
    expect_starts(call, entry->starts, s, number ? 0 : s < 3 ? s : 3);
}

int main(void)
{
    /* so that what was seen stands there even if a call ends the program */
    setvbuf(stdout, NULL, _IOLBF, 0);

    check("check", &one, loop, sizeof loop, SIZES, FINDINGS, VEXIL_ACCEPTED, 1);
    check("check, stored", &one, stored, sizeof stored, SIZES, FINDINGS, VEXIL_ACCEPTED, 1);
    check("check, exact tables", &one, loop, sizeof loop, 9, 6, VEXIL_ACCEPTED, 1);
    check("check, a byte less", &one, loop, sizeof loop - 1, SIZES, FINDINGS, VEXIL_REFUSED_CUT, 25);
    check("check, another image", &one, long_form, sizeof long_form, SIZES, FINDINGS, VEXIL_REFUSED_FORM, 1);
    check("check, short sizes", &one, loop, sizeof loop, 8, FINDINGS, VEXIL_REFUSED_SIZES, 0);
    check("check, short findings", &one, loop, sizeof loop, SIZES, 5, VEXIL_REFUSED_FINDINGS, 0);
    check("check, null image", &one, NULL, 0, SIZES, FINDINGS, VEXIL_REFUSED_CUT, 0);
    check("check, null sizes", &one, loop, sizeof loop, 0, FINDINGS, VEXIL_REFUSED_SIZES, 0);
    check("check, null findings", &one, loop, sizeof loop, SIZES, 0, VEXIL_REFUSED_FINDINGS, 0);
    check("check, all null", &one, NULL, 0, 0, 0, VEXIL_REFUSED_CUT, 0);

    size("sizes", loop, sizeof loop, SIZES, VEXIL_ACCEPTED, 0);
    size("sizes, a byte less", loop, sizeof loop - 1, SIZES, VEXIL_REFUSED_CUT, 25);
    size("sizes, another image", long_form, sizeof long_form, SIZES, VEXIL_REFUSED_FORM, 1);
    size("sizes, short sizes", loop, sizeof loop, 8, VEXIL_REFUSED_SIZES, 0);
    size("sizes, null image", NULL, 0, SIZES, VEXIL_REFUSED_CUT, 0);
    size("sizes, null sizes", loop, sizeof loop, 0, VEXIL_REFUSED_SIZES, 0);
    size("sizes, all null", NULL, 0, 0, VEXIL_REFUSED_CUT, 0);

    read("read", &one, loop, sizeof loop, STARTS, VEXIL_ACCEPTED, 3);
    read("read, short starts", &one, loop, sizeof loop, 2, VEXIL_ACCEPTED, 3);
    read("read, a byte less", &one, loop, sizeof loop - 1, STARTS, VEXIL_REFUSED_CUT, 25);
    read("read, another image", &one, long_form, sizeof long_form, STARTS, VEXIL_REFUSED_FORM, 1);
    read("read, null image", &one, NULL, 0, STARTS, VEXIL_REFUSED_CUT, 0);
    read("read, null starts", &one, loop, sizeof loop, 0, VEXIL_ACCEPTED, 3);
    read("read, all null", &one, NULL, 0, 0, VEXIL_REFUSED_CUT, 0);

    check("check two", &two, loop_two, sizeof loop_two, SIZES, FINDINGS, VEXIL_ACCEPTED, 1);
    check("check two, stored", &two, stored_two, sizeof stored_two, SIZES, FINDINGS, VEXIL_ACCEPTED, 1);
    check("check two, exact tables", &two, loop_two, sizeof loop_two, 9, 6, VEXIL_ACCEPTED, 1);
    check("check two, a byte less", &two, loop_two, sizeof loop_two - 1, SIZES, FINDINGS, VEXIL_REFUSED_CUT, 31);
    check("check two, another image", &two, long_form, sizeof long_form, SIZES, FINDINGS, VEXIL_REFUSED_FORM, 1);
    check("check two, short sizes", &two, loop_two, sizeof loop_two, 8, FINDINGS, VEXIL_REFUSED_SIZES, 0);
    check("check two, short findings", &two, loop_two, sizeof loop_two, SIZES, 5, VEXIL_REFUSED_FINDINGS, 0);
    check("check two, null image", &two, NULL, 0, SIZES, FINDINGS, VEXIL_REFUSED_CUT, 0);
    check("check two, null sizes", &two, loop_two, sizeof loop_two, 0, FINDINGS, VEXIL_REFUSED_SIZES, 0);
    check("check two, null findings", &two, loop_two, sizeof loop_two, SIZES, 0, VEXIL_REFUSED_FINDINGS, 0);
    check("check two, all null", &two, NULL, 0, 0, 0, VEXIL_REFUSED_CUT, 0);

    read("read two", &two, loop_two, sizeof loop_two, STARTS, VEXIL_ACCEPTED, 3);
    read("read two, short starts", &two, loop_two, sizeof loop_two, 2, VEXIL_ACCEPTED, 3);
    read("read two, a byte less", &two, loop_two, sizeof loop_two - 1, STARTS, VEXIL_REFUSED_CUT, 31);
    read("read two, another image", &two, long_form, sizeof long_form, STARTS, VEXIL_REFUSED_FORM, 1);
    read("read two, null image", &two, NULL, 0, STARTS, VEXIL_REFUSED_CUT, 0);
    read("read two, null starts", &two, loop_two, sizeof loop_two, 0, VEXIL_ACCEPTED, 3);
    read("read two, all null", &two, NULL, 0, 0, VEXIL_REFUSED_CUT, 0);

    /* the image of one edition in the other: a backing of 9, and no third slot */
    check("check, edition two", &one, loop_two, sizeof loop_two, SIZES, FINDINGS, VEXIL_REFUSED_RANGE, 10);
    read("read, edition two", &one, loop_two, sizeof loop_two, STARTS, VEXIL_REFUSED_RANGE, 10);
    check("check two, edition one", &two, loop, sizeof loop, SIZES, FINDINGS, VEXIL_REFUSED_CUT, 26);
    read("read two, edition one", &two, loop, sizeof loop, STARTS, VEXIL_REFUSED_CUT, 26);

    check("check aligned", &aligned, loop, sizeof loop, SIZES, FINDINGS, VEXIL_ACCEPTED, 1);
    check("check aligned, exact tables", &aligned, loop, sizeof loop, 9, 6, VEXIL_ACCEPTED, 1);
    check("check aligned, a byte less", &aligned, loop, sizeof loop - 1, SIZES, FINDINGS, VEXIL_REFUSED_CUT, 25);
    check("check aligned, another image", &aligned, long_form, sizeof long_form, SIZES, FINDINGS, VEXIL_REFUSED_FORM, 1);
    check("check aligned, short sizes", &aligned, loop, sizeof loop, 8, FINDINGS, VEXIL_REFUSED_SIZES, 0);
    check("check aligned, short findings", &aligned, loop, sizeof loop, SIZES, 5, VEXIL_REFUSED_FINDINGS, 0);
    check("check aligned, stored", &aligned, stored, sizeof stored, SIZES, FINDINGS, VEXIL_REFUSED_STORED, 1);
    check("check aligned, stored, short sizes", &aligned, stored, sizeof stored, 8, FINDINGS, VEXIL_REFUSED_STORED, 1);
    check("check aligned, large", &aligned, large, sizeof large, SIZES, FINDINGS, VEXIL_REFUSED_SUM, 1);
    check("check aligned, null image", &aligned, NULL, 0, SIZES, FINDINGS, VEXIL_REFUSED_CUT, 0);
    check("check aligned, null sizes", &aligned, loop, sizeof loop, 0, FINDINGS, VEXIL_REFUSED_SIZES, 0);
    check("check aligned, null findings", &aligned, loop, sizeof loop, SIZES, 0, VEXIL_REFUSED_FINDINGS, 0);
    check("check aligned, all null", &aligned, NULL, 0, 0, 0, VEXIL_REFUSED_CUT, 0);

    check("check aligned two", &aligned_two, loop_two, sizeof loop_two, SIZES, FINDINGS, VEXIL_ACCEPTED, 1);
    check("check aligned two, exact tables", &aligned_two, loop_two, sizeof loop_two, 9, 6, VEXIL_ACCEPTED, 1);
    check("check aligned two, a byte less", &aligned_two, loop_two, sizeof loop_two - 1, SIZES, FINDINGS, VEXIL_REFUSED_CUT, 31);
    check("check aligned two, another image", &aligned_two, long_form, sizeof long_form, SIZES, FINDINGS, VEXIL_REFUSED_FORM, 1);
    check("check aligned two, short sizes", &aligned_two, loop_two, sizeof loop_two, 8, FINDINGS, VEXIL_REFUSED_SIZES, 0);
    check("check aligned two, short findings", &aligned_two, loop_two, sizeof loop_two, SIZES, 5, VEXIL_REFUSED_FINDINGS, 0);
    check("check aligned two, stored", &aligned_two, stored_two, sizeof stored_two, SIZES, FINDINGS, VEXIL_REFUSED_STORED, 1);
    check("check aligned two, stored, short sizes", &aligned_two, stored_two, sizeof stored_two, 8, FINDINGS, VEXIL_REFUSED_STORED, 1);
    check("check aligned two, large", &aligned_two, large_two, sizeof large_two, SIZES, FINDINGS, VEXIL_REFUSED_SUM, 1);
    check("check aligned two, null image", &aligned_two, NULL, 0, SIZES, FINDINGS, VEXIL_REFUSED_CUT, 0);
    check("check aligned two, null sizes", &aligned_two, loop_two, sizeof loop_two, 0, FINDINGS, VEXIL_REFUSED_SIZES, 0);
    check("check aligned two, null findings", &aligned_two, loop_two, sizeof loop_two, SIZES, 0, VEXIL_REFUSED_FINDINGS, 0);
    check("check aligned two, all null", &aligned_two, NULL, 0, 0, 0, VEXIL_REFUSED_CUT, 0);

    printf("exports: %d calls, %d differences\n", calls, wrong);
    return wrong != 0;
}
