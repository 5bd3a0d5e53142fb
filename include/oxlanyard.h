/*
 * Oxlanyard: bit vectors, sparse vectors and aggregate states, proved. For C99 and C++; link liboxlanyard.a.
 *
 * Every call answers every input. It returns OXL_DONE, or the number of the first refusal that applies, in the order
 * that its comment has; a number in brackets after it is the place that is set beside it. docs/PROMISES.md has what
 * is proved of each.
 *
 * Memory. The caller owns it all. No call allocates, keeps a pointer, or reads or writes beyond what it is given.
 *   list    a pointer and the number of its entries. Where that number is 0 the pointer may be NULL.
 *   slot    a pointer to one number that the call sets. It must not be NULL.
 *   header  a pointer to OXL_HEADER numbers. It must not be NULL.
 * What a call writes (lists, headers, slots) must not overlap anything else that is given to it. Lists that are only
 * read may overlap each other. Pointers are aligned as C has it.
 *
 * Results. Slots are set by every call: `place` is 0 when done, and the other numbers are 0 beside a refusal. Floats
 * are left as they were by a refusal. An output (out, oi, ov) has the answer in its first *len entries and is as it was
 * behind them; for the lists of a state see there. After a refusal every list is as it was, and so is a header.
 *
 * Threads. The calls share nothing, so any threads may call at once, with different things to write.
 * Floats. The default rounding mode, to nearest, with subnormal numbers. Which bits a computed NaN has is open.
 */
#ifndef OXLANYARD_H
#define OXLANYARD_H

#include <stddef.h>
#include <stdint.h>

#ifdef __cplusplus
extern "C" {
#endif

/* What a call returns, and the place that it sets beside that. Places of entries and words count from 0. */
enum {
    OXL_DONE = 0,
    OXL_DIMS = 1,       /* dims out of range, or a move's length above dims */
    OXL_LENGTH = 2,     /* lists differ in length, or the number of words is wrong */
    OXL_ORDER = 3,      /* indexes do not rise [the later entry of the first bad pair] */
    OXL_INDEX = 4,      /* last index not below dims [the last entry]; or the index asked for [that index] */
    OXL_ZERO = 5,       /* a zero value [the first such entry] */
    OXL_PADDING = 6,    /* a bit at or above dims is set [the last word] */
    OXL_DIFFER = 7,     /* the two dims differ */
    OXL_BOUNDS = 8,     /* bad bounds: empty, beyond dims, or of no kind below */
    OXL_ROOM = 9,       /* a list is too short [entries, words or capacity needed; the length of the region] */
    OXL_NEED = 10,      /* the state must grow [the capacity wanted] */
    OXL_COUNT = 11,     /* more than 18,446,744,073,709,551,615 rows */
    OXL_NOT_BEGUN = 12, /* the state has no rows */
    OXL_STATE = 13,     /* header and entries of a state do not fit together */
    OXL_NOT_NEEDED = 14 /* a move that is not needed: the state has the room */
};

/* The kinds of a bound of a slice. The number of an unbounded one is not looked at. */
enum { OXL_INCLUDED = 0, OXL_EXCLUDED = 1, OXL_UNBOUNDED = 2 };

/* What an order slot says; 0 beside a refusal. */
enum { OXL_LESS = 1, OXL_EQUAL = 2, OXL_GREATER = 3, OXL_UNORDERED = 4 };

/* The numbers of a header, and how many they are. */
enum {
    OXL_HEADER_START = 0,    /* where in its lists the state's region starts */
    OXL_HEADER_LENGTH = 1,   /* how long the region is */
    OXL_HEADER_BEGUN = 2,    /* 1 if there was a row, else 0 */
    OXL_HEADER_DIMS = 3,     /* the dims of the rows */
    OXL_HEADER_LEN = 4,      /* the number of entries that the state has */
    OXL_HEADER_CAPACITY = 5, /* the number that it can have */
    OXL_HEADER_COUNT = 6,    /* the number of rows */
    OXL_HEADER = 7
};

/*
 * Bit vectors: 1 to 65,535 bits in 64-bit words, as many as they fill; bit i is bit i % 64 of word i / 64, and bits at
 * and above dims are clear. "Vector" among the refusals is DIMS, LENGTH, PADDING [the last word]; left before right.
 * A refusal leaves the float of a distance (dot, Hamming, Jaccard) as it was.
 */

/* Checks a vector. Refuses: vector. */
uint32_t oxl_bvect_new_checked(uint32_t dims, const uint64_t *words, size_t words_len, size_t *place);

/* Writes a vector without ones. Refuses: DIMS, ROOM [words]. */
uint32_t oxl_bvect_zero(uint32_t dims, uint64_t *out, size_t out_len, uint32_t *dims_out, size_t *len, size_t *place);

/* *yes: 1 if the bit is set, else 0. Refuses: vector, INDEX [index]. */
uint32_t oxl_bvect_get(uint32_t dims, const uint64_t *words, size_t words_len, uint32_t index, uint32_t *yes,
                       size_t *place);

/* *value: the negated number of common ones. Refuses: left, right, DIFFER. */
uint32_t oxl_bvect_operator_dot(uint32_t dims_a, const uint64_t *a, size_t a_len, uint32_t dims_b, const uint64_t *b,
                                size_t b_len, float *value, size_t *place);

/* *value: the number of differing bits. Refuses: left, right, DIFFER. */
uint32_t oxl_bvect_operator_hamming(uint32_t dims_a, const uint64_t *a, size_t a_len, uint32_t dims_b,
                                    const uint64_t *b, size_t b_len, float *value, size_t *place);

/*
 * *value: 1 - ones of AND / ones of OR. Two vectors without ones are alike: +0. Never NaN. Refuses: left, right, DIFFER.
 * Before, two vectors without ones had NaN. A report that counts those calls oxl_bvect_operator_jaccard_or_nan.
 */
uint32_t oxl_bvect_operator_jaccard(uint32_t dims_a, const uint64_t *a, size_t a_len, uint32_t dims_b,
                                    const uint64_t *b, size_t b_len, float *value, size_t *place);

/* The same, but NaN for two vectors without ones, and for no others: test it by value != value. */
uint32_t oxl_bvect_operator_jaccard_or_nan(uint32_t dims_a, const uint64_t *a, size_t a_len, uint32_t dims_b,
                                           const uint64_t *b, size_t b_len, float *value, size_t *place);

/* Writes a AND b. *dims, *len: its dims and words. Refuses: left, right, DIFFER, ROOM [words]. */
uint32_t oxl_bvect_operator_and(uint32_t dims_a, const uint64_t *a, size_t a_len, uint32_t dims_b, const uint64_t *b,
                                size_t b_len, uint64_t *out, size_t out_len, uint32_t *dims, size_t *len,
                                size_t *place);

/* Writes a OR b. *dims, *len: its dims and words. Refuses: left, right, DIFFER, ROOM [words]. */
uint32_t oxl_bvect_operator_or(uint32_t dims_a, const uint64_t *a, size_t a_len, uint32_t dims_b, const uint64_t *b,
                               size_t b_len, uint64_t *out, size_t out_len, uint32_t *dims, size_t *len,
                               size_t *place);

/* Writes a XOR b. *dims, *len: its dims and words. Refuses: left, right, DIFFER, ROOM [words]. */
uint32_t oxl_bvect_operator_xor(uint32_t dims_a, const uint64_t *a, size_t a_len, uint32_t dims_b, const uint64_t *b,
                                size_t b_len, uint64_t *out, size_t out_len, uint32_t *dims, size_t *len,
                                size_t *place);

/* Writes the bits between two bounds. *dims_out, *len: its dims and words. Refuses: vector, BOUNDS, ROOM [words]. */
uint32_t oxl_bvect_subvector(uint32_t dims, const uint64_t *words, size_t words_len, uint32_t from_kind, uint32_t from,
                             uint32_t to_kind, uint32_t to, uint64_t *out, size_t out_len, uint32_t *dims_out,
                             size_t *len, size_t *place);

/* *yes: 1 if dims and bits are equal, else 0. Refuses: left, right. */
uint32_t oxl_bvect_eq(uint32_t dims_a, const uint64_t *a, size_t a_len, uint32_t dims_b, const uint64_t *b,
                      size_t b_len, uint32_t *yes, size_t *place);

/* *order: at the lowest differing bit the one is greater; unordered if dims differ. Refuses: left, right. */
uint32_t oxl_bvect_partial_cmp(uint32_t dims_a, const uint64_t *a, size_t a_len, uint32_t dims_b, const uint64_t *b,
                               size_t b_len, uint32_t *order, size_t *place);

/*
 * Sparse vectors: 1 to 1,048,575 places; the indexes that hold a value, rising, and the values, none a zero. What is
 * absent is zero. "Vector" among the refusals is DIMS, LENGTH, ORDER [entry], INDEX [entry], ZERO [entry].
 * A refusal leaves the float of a distance (dot, L2) as it was.
 */

/* Checks a vector. Refuses: vector. */
uint32_t oxl_svect_new_checked(uint32_t dims, const uint32_t *indexes, size_t indexes_len, const float *values,
                               size_t values_len, size_t *place);

/* The vector without entries. *dims_out, *len: its dims, and 0. Refuses: DIMS. */
uint32_t oxl_svect_zero(uint32_t dims, uint32_t *dims_out, size_t *len, size_t *place);

/* *value: the negated sum of the products, in rising order. Refuses: left, right, DIFFER. */
uint32_t oxl_svect_operator_dot(uint32_t dims_a, const uint32_t *ia, size_t ia_len, const float *va, size_t va_len,
                                uint32_t dims_b, const uint32_t *ib, size_t ib_len, const float *vb, size_t vb_len,
                                float *value, size_t *place);

/* *value: the sum of the squared differences, in rising order. Refuses: left, right, DIFFER. */
uint32_t oxl_svect_operator_l2(uint32_t dims_a, const uint32_t *ia, size_t ia_len, const float *va, size_t va_len,
                               uint32_t dims_b, const uint32_t *ib, size_t ib_len, const float *vb, size_t vb_len,
                               float *value, size_t *place);

/*
 * *xy, *x2, *y2: the sums of the products, of the left's squares, of the right's. Refuses: left, right, DIFFER.
 * A refusal leaves all three as they were: a caller who does not look at the number reads old floats.
 */
uint32_t oxl_svect_three_sums(uint32_t dims_a, const uint32_t *ia, size_t ia_len, const float *va, size_t va_len,
                              uint32_t dims_b, const uint32_t *ib, size_t ib_len, const float *vb, size_t vb_len,
                              float *xy, float *x2, float *y2, size_t *place);

/*
 * Writes a plus b, without zeros. *dims, *len: its dims and entries; *turns: the distinct indexes of both.
 * Refuses: left, right, DIFFER, ROOM [the entries of both together, or the dims if these are fewer].
 */
uint32_t oxl_svect_operator_add(uint32_t dims_a, const uint32_t *ia, size_t ia_len, const float *va, size_t va_len,
                                uint32_t dims_b, const uint32_t *ib, size_t ib_len, const float *vb, size_t vb_len,
                                uint32_t *oi, size_t oi_len, float *ov, size_t ov_len, uint32_t *dims, size_t *len,
                                size_t *turns, size_t *place);

/* Writes a minus b; the rest is as for add. */
uint32_t oxl_svect_operator_sub(uint32_t dims_a, const uint32_t *ia, size_t ia_len, const float *va, size_t va_len,
                                uint32_t dims_b, const uint32_t *ib, size_t ib_len, const float *vb, size_t vb_len,
                                uint32_t *oi, size_t oi_len, float *ov, size_t ov_len, uint32_t *dims, size_t *len,
                                size_t *turns, size_t *place);

/*
 * Writes the products at common indexes, without zeros. *dims, *len: its dims and entries; *turns: the distinct indexes
 * not above the smaller of the last ones, 0 if a side is empty. Refuses: left, right, DIFFER, ROOM [the fewer entries].
 */
uint32_t oxl_svect_operator_mul(uint32_t dims_a, const uint32_t *ia, size_t ia_len, const float *va, size_t va_len,
                                uint32_t dims_b, const uint32_t *ib, size_t ib_len, const float *vb, size_t vb_len,
                                uint32_t *oi, size_t oi_len, float *ov, size_t ov_len, uint32_t *dims, size_t *len,
                                size_t *turns, size_t *place);

/*
 * Writes the entries between two bounds, indexes less the start. *dims_out, *len: its dims and entries.
 * Refuses: vector, BOUNDS, ROOM [the entries kept].
 */
uint32_t oxl_svect_subvector(uint32_t dims, const uint32_t *indexes, size_t indexes_len, const float *values,
                             size_t values_len, uint32_t from_kind, uint32_t from, uint32_t to_kind, uint32_t to,
                             uint32_t *oi, size_t oi_len, float *ov, size_t ov_len, uint32_t *dims_out, size_t *len,
                             size_t *place);

/* *yes: 1 if dims and entries are equal, else 0; a NaN equals nothing. Refuses: left, right. */
uint32_t oxl_svect_eq(uint32_t dims_a, const uint32_t *ia, size_t ia_len, const float *va, size_t va_len,
                      uint32_t dims_b, const uint32_t *ib, size_t ib_len, const float *vb, size_t vb_len,
                      uint32_t *yes, size_t *place);

/*
 * *order: that of the dense vectors, absent values counting as zero: the lowest index at which they differ decides.
 * Unordered if dims differ, or where what decides is a NaN, on either side; a NaN behind it changes nothing. Turned
 * round, less and greater are exchanged. Without NaN, vectors of equal dims are never unordered. Refuses: left, right.
 * Before, a NaN that decided was greater on either side, if the other side had an entry behind it.
 */
uint32_t oxl_svect_partial_cmp(uint32_t dims_a, const uint32_t *ia, size_t ia_len, const float *va, size_t va_len,
                               uint32_t dims_b, const uint32_t *ib, size_t ib_len, const float *vb, size_t vb_len,
                               uint32_t *order, size_t *place);

/*
 * Aggregate states: the sum of sparse rows and their count, in a region of a pair of lists. "State" among the refusals
 * is ROOM [region length] if the region is not inside both lists, then STATE. What stands in the region from len up to
 * the capacity is open after a merge; outside the region, and from the capacity on, nothing is written.
 */

/* h: the header of a state without rows in the region of `length` entries from `start`. Refuses nothing. */
void oxl_aggregate_fresh(size_t start, size_t length, uint64_t *h);

/* Returns the capacity for n entries: the power of two at or above n, at least 16, at most dims. Refuses nothing. */
size_t oxl_aggregate_capacity(uint32_t dims, size_t n);

/* Checks a state. Refuses: state. */
uint32_t oxl_aggregate_check(const uint64_t *h, const uint32_t *ai, size_t ai_len, const float *av, size_t av_len,
                             size_t *place);

/*
 * Adds a row and sets h. *turns: the distinct indexes from the row's first on; 0 for an empty row.
 * Refuses: the row as a vector, state, DIFFER, COUNT, NEED [capacity]; a first row the vector, state, ROOM [capacity].
 */
uint32_t oxl_aggregate_row(uint64_t *h, uint32_t *ai, size_t ai_len, float *av, size_t av_len, uint32_t dims,
                           const uint32_t *bi, size_t bi_len, const float *bv, size_t bv_len, size_t *turns,
                           size_t *place);

/*
 * Adds the state `other`, of the lists bi and bv, as if it were a row, with its count; sets h. A second state without
 * rows changes nothing. *turns: as for a row; the entries of the second if the first has no rows; 0 if the second has
 * none. Refuses: the second state, the first, DIFFER, COUNT, NEED [capacity] or ROOM [capacity].
 */
uint32_t oxl_aggregate_combine(uint64_t *h, uint32_t *ai, size_t ai_len, float *av, size_t av_len,
                               const uint64_t *other, const uint32_t *bi, size_t bi_len, const float *bv,
                               size_t bv_len, size_t *turns, size_t *place);

/*
 * Copies a state to a region of the lists ci and cv, with the capacity for `more` entries more; sets h to the header
 * there. *turns: 0. Refuses: state, NOT_BEGUN, DIMS, NOT_NEEDED, ROOM [length], ROOM [capacity].
 */
uint32_t oxl_aggregate_move_to(uint64_t *h, const uint32_t *ai, size_t ai_len, const float *av, size_t av_len,
                               size_t more, uint32_t *ci, size_t ci_len, float *cv, size_t cv_len, size_t start,
                               size_t length, size_t *turns, size_t *place);

/* Writes the sum of the rows. *dims, *len: its dims and entries. Refuses: state, NOT_BEGUN, ROOM [entries]. */
uint32_t oxl_aggregate_sum(const uint64_t *h, const uint32_t *ai, size_t ai_len, const float *av, size_t av_len,
                           uint32_t *oi, size_t oi_len, float *ov, size_t ov_len, uint32_t *dims, size_t *len,
                           size_t *place);

/*
 * Writes the sum, each value divided once by the float nearest to the count, ties to even, without zeros; the rest is as
 * for sum.
 */
uint32_t oxl_aggregate_average(const uint64_t *h, const uint32_t *ai, size_t ai_len, const float *av, size_t av_len,
                               uint32_t *oi, size_t oi_len, float *ov, size_t ov_len, uint32_t *dims, size_t *len,
                               size_t *place);

#ifdef __cplusplus
}
#endif

#endif
