/* Plan files and rows: calls on byte strings that answer plain numbers.
 *
 * Link crates/tablet/out/libtablet.a, which `rt lib` in crates/tablet proves and builds. It needs memcpy and memset of the C
 * library and nothing else: the calls allocate nothing, keep nothing and write to no memory of the caller but the
 * answer. So they may run at the same time in several threads.
 *
 * Bytes are passed as a pointer and their length. The pointer may be null where the length is 0. The bytes must not
 * change while the call runs. Each call uses some 8 KiB of stack at most.
 */
#ifndef SIDEBOARDJAY_H
#define SIDEBOARDJAY_H

#include <stddef.h>
#include <stdint.h>

#ifdef __cplusplus
extern "C" {
#endif

/* Layers of a refusal. */
enum {
    TABLET_ACCEPTED = 0, /* no refusal: number and place are 0, too */
    TABLET_FILE = 1,     /* the first reading of a file */
    TABLET_PLAN = 2,     /* the second reading of a file */
    TABLET_BOX = 3       /* rows */
};

/* What a call answers: all 0 where it accepts, else the layer that refuses, the number of the refusal as in
 * docs/REFUSALS.md, and its place, 0 where it has none. */
struct tablet_answer {
    uint32_t layer;
    uint32_t number;
    uint64_t place;
};

/* A count, which is 0 where the answer is a refusal. */
struct tablet_counted {
    struct tablet_answer answer;
    uint64_t count;
};

/* Looks over a plan file. Accepts a good one, else answers its first fault: 1 to 4 of the first reading, or 5, 6, 7, 9 or
 * 10 of the second. The place is an offset in the file. */
struct tablet_answer tablet_look(const uint8_t *file, size_t file_length);

/* Judges a row against the plan in a file. Accepts a route of the plan; 14 where the bytes have not the shape of a row;
 * 15 where it is no route. The place of 15 is the number, from 0, of the first entry that no path has after those before
 * it, or the number of entries where only the end is wrong. A file that tablet_look refuses is the plan without
 * components. */
struct tablet_answer tablet_judge(const uint8_t *file, size_t file_length, const uint8_t *row, size_t row_length);

/* Counts the components that both rows have, each once. 14 where either has not the shape of a row. */
struct tablet_counted tablet_shared(const uint8_t *a, size_t a_length, const uint8_t *b, size_t b_length);

#ifdef __cplusplus
}
#endif

#endif
