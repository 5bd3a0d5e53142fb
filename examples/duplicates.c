/*
 * Duplicate listings. A listing has a bit for each of 70 features, and two listings are duplicates if few of the features
 * that either has are not common to both. The default call finds them: two listings without any feature are alike. A
 * report that counts such pairs asks the second call, which answers NaN for them and for no others.
 *
 *     ./archive && cc -std=c99 -Iinclude examples/duplicates.c target/archive/liboxlanyard.a -o target/duplicates
 *     target/duplicates
 */
#include "oxlanyard.h"

#include <inttypes.h>
#include <stdio.h>

#define FEATURES 70 /* two words: 64 + 6 */
#define WORDS 2
#define LISTINGS 6

/* Pairs that are no farther apart than this are duplicates. */
#define NEAR 0.25f

/* The features of each listing. 2 and 4 have none. */
static const uint64_t listings[LISTINGS][WORDS] = {
    {0x0000000000000407, 0x01}, /* 0, 1, 2, 10 and 64 */
    {0x0000000000000407, 0x01}, /* the same */
    {0x0000000000000000, 0x00},
    {0x8000000000000000, 0x20}, /* 63 and 69 */
    {0x0000000000000000, 0x00},
    {0x0000000000000007, 0x01}, /* 0, 1, 2 and 64 */
};

typedef uint32_t distance_call(uint32_t, const uint64_t *, size_t, uint32_t, const uint64_t *, size_t, float *,
                               size_t *);

/* The distance of two listings, to *value. Answers whether there is one, and else says why not. */
static int distance(distance_call *call, int i, int j, float *value)
{
    size_t place;
    uint32_t number = call(FEATURES, listings[i], WORDS, FEATURES, listings[j], WORDS, value, &place);
    if (number != OXL_DONE) {
        printf("%d and %d: refused with %" PRIu32 " at %zu\n", i, j, number, place);
    }
    return number == OXL_DONE;
}

int main(void)
{
    int i, j, pairs = 0, bare = 0;
    float value;

    for (i = 0; i < LISTINGS; i++) {
        for (j = i + 1; j < LISTINGS; j++) {
            pairs++;
            if (!distance(oxl_bvect_operator_jaccard, i, j, &value)) {
                return 1;
            }
            if (value <= NEAR) {
                printf("%d and %d are duplicates: %.2f\n", i, j, value);
            }
            if (!distance(oxl_bvect_operator_jaccard_or_nan, i, j, &value)) {
                return 1;
            }
            if (value != value) {
                bare++;
            }
        }
    }
    printf("%d of %d pairs without features\n", bare, pairs);
    return 0;
}
