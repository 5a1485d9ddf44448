/*
 * Scionwheel's nine calls for C, on x86-64 Linux. Link crates/exports/out/libexports.a, which `rt lib` in crates/exports
 * writes; of the C library it needs memcpy and memset only. docs/RULES.md says what lists, half-spaces and models are,
 * bindings/example.c shows each kind of call.
 *
 * What a caller owes. The calls check every number and word that they are given, but they cannot check memory:
 * - A part of memory is lent as a pointer and then a length. The length counts elements, not bytes.
 * - `counts` and `text` have a fixed size. They are one pointer and have no length.
 * - Each part is readable in its whole length, and writable where it is not const. It was written before the call, with
 *   0 for example, also where the call only writes: a call may copy what it finds.
 * - No pointer is null, and each is aligned for its element: 4 bytes for int32_t, 8 for uint64_t. So too where the
 *   length is 0. (The library as compiled today does not follow such a pointer; do not rest on that.)
 * - A part that is written overlaps no other part of the same call. Parts that are only read may overlap.
 * - The stack has room; see below.
 *
 * Calls share no state, keep no pointer and allocate nothing. They may run in several threads at once, each on memory
 * of its own; a part that is only read may be lent to several, as long as nobody writes it.
 *
 * Answers. Each is one number. Below 0 it is a refusal: minus its number, 1 to 8. From 0 on it is
 * - of contains and included: 1 for yes, 0 for no;
 * - of intersect, delay, reset and hull: how many vectors stand at the start of `out`;
 * - of rewrite: how many bytes stand at the start of `out`;
 * - of walk: SCIONWHEEL_NEVER, SCIONWHEEL_REACHED or SCIONWHEEL_OPEN;
 * - of print: the length of the text, at most 397. Print never refuses; a refused walk is the text `REFUSED number`.
 * What stands behind a result or a text in its part is as it was.
 *
 * A refusal leaves all lent memory as it was, `counts` too. But a walk that is refused 4, 5 or 6 leaves every word of
 * the state area 0, in walk and in print. (Refused 1, 7 or 8 it leaves the area as it was.)
 *
 * Stack that a call takes, measured on this library as compiled by the kit of `rt version`, rounded up, not proved:
 *     contains, included                  512 bytes
 *     intersect, delay, reset, hull    10,000 bytes
 *     walk, print                      26,000 bytes
 *     rewrite                         270,000 bytes
 * Where a program finds memcpy and memset only at their first call (lazy binding), that took 3,400 bytes more, once.
 * Large frames are touched page by page, so a stack that is too short ends at its guard page.
 *
 * A call whose signature changes gets a new name, and the old name goes. So a program that was written for the old one
 * fails to link, and never passes words that mean something else.
 *
 * From Rust use bindings/scionwheel.rs; it says why these calls must not be declared there with `&[i32]`.
 */
#ifndef SCIONWHEEL_H
#define SCIONWHEEL_H

#include <stddef.h>
#include <stdint.h>

/* The word for minus infinity, -2147483648: an entry that is not there, and the last word of a ray. */
#define SCIONWHEEL_MARK INT32_MIN

/* Words of a result area, `out`, for n clocks, n from 1 to 6: 32 vectors. A longer area is good too. */
#define SCIONWHEEL_RESULT(n) (32 * ((n) + 1))

/* Words of one record of the state area for n clocks. A walk keeps at most 64 records, as many as the area has. */
#define SCIONWHEEL_RECORD(n) (4 + 32 * ((n) + 1))
#define SCIONWHEEL_RECORDS 64

/* Words of a state area that has room for every walk: 64 records of 6 clocks. */
#define SCIONWHEEL_AREA 14592

/* Bytes of the longest model, and of the text area. No text is longer than 397 bytes. */
#define SCIONWHEEL_LONGEST 33664
#define SCIONWHEEL_TEXT 512

/* What walk answers. */
enum { SCIONWHEEL_NEVER = 0, SCIONWHEEL_REACHED = 1, SCIONWHEEL_OPEN = 2 };

/* The numbers of refusals; a call answers minus one of them. */
enum {
    SCIONWHEEL_SHAPE = 1, /* clocks not 1 to 6, a length that does not fit, an area that is too short */
    SCIONWHEEL_ENTRY = 2, /* a word of a list, a point or a half-space out of its limits */
    SCIONWHEEL_ARG = 3,   /* reset: no such clock, or the value not 0 to 1,000,000 */
    SCIONWHEEL_RANGE = 4, /* a result beyond 1,000,000 */
    SCIONWHEEL_GENS = 5,  /* a result of over 32 vectors */
    SCIONWHEEL_ROOM = 6,  /* a walk with more states than the state area has records, or more than 64 */
    SCIONWHEEL_BYTES = 7, /* bytes that are no model */
    SCIONWHEEL_MODEL = 8  /* a number of a model out of its limits */
};

/*
 * Sets over n clocks. A list is whole vectors of n + 1 words, at most 32: n clocks, then 0 for a point or the mark for
 * a ray. A tested point is n words. A half-space is 2(n + 1) words, a (n of them), b, c (n of them), d, and means:
 * largest of (a + x, b) <= largest of (c + x, d).
 */

/* Whether the point is in the list's set. */
int64_t scionwheel_contains(size_t n, const int32_t *list, size_t list_len, const int32_t *point, size_t point_len);

/* Whether inner's set is in outer's. */
int64_t scionwheel_included(size_t n, const int32_t *inner, size_t inner_len, const int32_t *outer, size_t outer_len);

/* The vectors of the list's set that satisfy the half-space. */
int64_t scionwheel_intersect(size_t n, const int32_t *list, size_t list_len, const int32_t *half, size_t half_len,
                             int32_t *out, size_t out_len);

/* All vectors of the list's set, later by whole ticks. */
int64_t scionwheel_delay(size_t n, const int32_t *list, size_t list_len, int32_t *out, size_t out_len);

/* All vectors of the list's set, with one clock replaced by the value. Clocks count from 0. */
int64_t scionwheel_reset(size_t n, const int32_t *list, size_t list_len, size_t clock, int32_t value,
                         int32_t *out, size_t out_len);

/* The smallest max-plus polyhedron that holds both lists' sets. */
int64_t scionwheel_hull(size_t n, const int32_t *first, size_t first_len, const int32_t *second, size_t second_len,
                        int32_t *out, size_t out_len);

/* Reads a model and writes it: the same bytes. Refused 7 or 8 by the reader, then 1 for an `out` that is too short. */
int64_t scionwheel_rewrite(const uint8_t *bytes, size_t bytes_len, uint8_t *out, size_t out_len);

/*
 * Walks a model. The counts are edges (REACHED) or depth (OPEN) or 0 (NEVER), states kept, candidates tried. The state
 * area then has the kept states, one record each.
 */
int64_t scionwheel_walk(const uint8_t *bytes, size_t bytes_len, int32_t *area, size_t area_len,
                        uint64_t counts[static 3]);

/* Walks a model and prints its answer into the text, in ASCII and without a 0 at its end: the text's length. */
int64_t scionwheel_print(const uint8_t *bytes, size_t bytes_len, int32_t *area, size_t area_len,
                         uint8_t text[static SCIONWHEEL_TEXT]);

#endif
