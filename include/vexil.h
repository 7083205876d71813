/* The check of Vexil schema images, for C11 and C++17. `./build library` writes the library, target/staticlib/libvexil.a, for
 * x86-64 Linux. docs/FORMAT.md describes images, refusals and both tables; examples/check.c is a program to start from.
 *
 * Every argument is answered: the functions test the image and the lengths themselves. What they cannot test, the caller sees to:
 *   - A pointer has as many elements behind it as its length says; lengths count elements, not bytes.
 *   - A pointer is aligned for its elements. It may be null where its length is 0, and only there.
 *   - The image and the tables do not overlap, and nobody else writes the image or touches the tables until the call returns.
 *   - The stack is large enough; if it ends, the system stops the process. 8 MiB serve all but schemas built to go deep. For
 *     images of unknown origin see 'Stack' in docs/DECISIONS.md.
 * The library keeps no state, allocates nothing and calls only memcpy and memset: threads may call it at the same time, each with
 * tables of its own. Tables need not be cleared beforehand: every place of them is written, whatever the answer. */
#ifndef VEXIL_H
#define VEXIL_H

#include <stddef.h>
#include <stdint.h>

#ifdef __cplusplus
extern "C" {
#endif

enum {
    VEXIL_IMAGE_MOST = 65536,  /* bytes of an image */
    VEXIL_SLOTS_MOST = 512,    /* slots of an image */
    VEXIL_SIZE_COLUMNS = 3,    /* numbers a slot in the size table: 3 * 512 places are always enough */
    VEXIL_FINDING_COLUMNS = 6  /* numbers a finding in the findings table */
};

/* number is VEXIL_ACCEPTED, and value what the function counts; or number is a refusal's, and value its place. */
struct vexil_answer {
    uint64_t number;
    uint64_t value;
};

/* The answer's number. After it: what the place is. There is no 13. */
enum vexil_number {
    VEXIL_ACCEPTED = 0,
    VEXIL_REFUSED_LONG = 1,      /* 0. The image has more than 65,536 bytes */
    VEXIL_REFUSED_CUT = 2,       /* the number's first byte. The bytes end where one is due */
    VEXIL_REFUSED_FORM = 3,      /* the number's first byte. Not the shortest form, or beyond 64 bits */
    VEXIL_REFUSED_RANGE = 4,     /* the number's first byte. Outside its range */
    VEXIL_REFUSED_DEEP = 5,      /* the kind's byte. A type, expression or encoding nests past 32 levels */
    VEXIL_REFUSED_EXTRA = 6,     /* the first extra byte. Bytes follow the last declaration */
    VEXIL_REFUSED_NAME = 7,      /* the lowest such name. It finds a slot that is empty or not there */
    VEXIL_REFUSED_NEWTYPES = 8,  /* the lowest slot on a loop. Newtypes lead back to themselves */
    VEXIL_REFUSED_ALIASES = 9,   /* the lowest slot on a loop. Generic aliases lead back to themselves */
    VEXIL_REFUSED_SIZES = 10,    /* 0. The size table has under 3 places a slot */
    VEXIL_REFUSED_SUM = 11,      /* the declared slot. A sum is the first step of its size above 2^63 - 1 bits */
    VEXIL_REFUSED_FINDINGS = 12, /* 0. The findings table has under 6 places a finding */
    VEXIL_REFUSED_PRODUCT = 14,  /* the declared slot. A product is the first such step: mostly a mistyped array count */
    VEXIL_REFUSED_STORED = 15    /* the lowest such slot. A message or union stores a size: head board only, tested before 10 */
};

/* A slot's row of the size table, sizes[3 * slot] on: a kind and two numbers. A slot that the image does not declare shows what
 * the image stores for it. */
enum vexil_size_kind {
    VEXIL_SIZE_NONE = 0,    /* 0, 0. No size: no message, union, enum or flags; or one that is undeclared and stores none */
    VEXIL_SIZE_FIXED = 1,   /* bits, bits. Always so many */
    VEXIL_SIZE_BOUNDED = 2, /* smallest, largest, in bits */
    VEXIL_SIZE_OPEN = 3,    /* smallest, 0. In bits; there is no largest */
    VEXIL_SIZE_ENUM = 4,    /* bits, 0 */
    VEXIL_SIZE_FLAGS = 5    /* BYTES, 0 */
};

enum vexil_size_column {
    VEXIL_SIZE_KIND = 0,
    VEXIL_SIZE_SMALLEST = 1, /* of an enum its bits, of flags their bytes */
    VEXIL_SIZE_LARGEST = 2
};

/* What a finding says. After it: its slot, whose span it has, A and B. */
enum vexil_finding_class {
    VEXIL_FINDING_ENDLESS = 1,   /* a declared message; its own; 0, 0. The message holds itself without end */
    VEXIL_FINDING_ARGUMENTS = 2, /* an impl; the trait's if given, else its own; parameters, arguments. These two differ */
    VEXIL_FINDING_TARGET = 3,    /* an impl; its own; 0, 0. Its target is no message */
    VEXIL_FINDING_FIELD = 4      /* an impl; its own; the trait field's index from 0, 0. Its target lacks that field */
};

/* A finding's row of the findings table, findings[6 * i] on. */
enum vexil_finding_column {
    VEXIL_FINDING_CLASS = 0,
    VEXIL_FINDING_SLOT = 1,
    VEXIL_FINDING_OFFSET = 2, /* of the span in the schema's source */
    VEXIL_FINDING_LENGTH = 3,
    VEXIL_FINDING_A = 4,
    VEXIL_FINDING_B = 5
};

/* There are two editions of an image, and nothing in the bytes tells which one they are: many are images of both, with other
 * contents. The caller knows it and chooses the function. The functions whose names end in _two read edition two, all others
 * edition one. In edition two a limit follows the type of each field of a message or variant, and retired ordinals or bits the
 * list of live ones; docs/FORMAT.md describes both. Refusals and tables are the same. Retired ones count for the width of a
 * declared enum or flags type as the live ones do, and so for every size made with it. A limit bears on a field whose own type is an
 * array, a set or a map: the field then has a largest size wherever its element has one, and may be refused by 11 or 14 for it. */

/* The whole check: sizes and findings. Counts the findings. The rows of the slots stand in `sizes`, those of the findings in
 * `findings`, and zeros after them; on a refusal both tables are all zero. */
struct vexil_answer vexil_check(const uint8_t *image, size_t image_length, uint64_t *sizes, size_t sizes_length,
                                uint32_t *findings, size_t findings_length);

struct vexil_answer vexil_check_two(const uint8_t *image, size_t image_length, uint64_t *sizes, size_t sizes_length,
                                    uint32_t *findings, size_t findings_length);

/* The whole check for the byte-aligned head board, called and answered likewise. There every field of a message or variant starts on
 * a whole byte: its smallest and largest are rounded up to a multiple of 8 before they are added, which counts as a sum for refusal
 * 11. No size becomes fixed by it: 1..2 bits become 8..8. A message or union that stores a size is refused by 15, declared or not.
 * The findings are the same. */
struct vexil_answer vexil_check_aligned(const uint8_t *image, size_t image_length, uint64_t *sizes, size_t sizes_length,
                                        uint32_t *findings, size_t findings_length);

struct vexil_answer vexil_check_aligned_two(const uint8_t *image, size_t image_length, uint64_t *sizes, size_t sizes_length,
                                            uint32_t *findings, size_t findings_length);

/* Sizes alone, of edition one, never refusal 12. Counts nothing: the value of an accepted image is 0. The table is that of vexil_check. */
struct vexil_answer vexil_sizes(const uint8_t *image, size_t image_length, uint64_t *sizes, size_t sizes_length);

/* Reading alone, refusals 1 to 9. Counts the slots. Into `starts` goes the byte at which each slot starts, for as many slots as
 * it has places, and zeros after them; on a refusal it is all zero. A table without places is no refusal. */
struct vexil_answer vexil_read(const uint8_t *image, size_t image_length, size_t *starts, size_t starts_length);

struct vexil_answer vexil_read_two(const uint8_t *image, size_t image_length, size_t *starts, size_t starts_length);

#ifdef __cplusplus
}
#endif

#endif
