/*
 * The mask of a listings page. A page has up to 65,535 listings, and a bit for each: `page` says which match what the
 * visitor looks for, `unsold` which are still to be had. The page shows those that both have.
 *
 *     ./archive && cc -std=c99 -Iinclude examples/listings.c target/archive/liboxlanyard.a -o target/listings
 *     target/listings
 */
#include "oxlanyard.h"

#include <inttypes.h>
#include <stdio.h>

#define LISTINGS 130 /* three words: 64 + 64 + 2 */
#define WORDS 3

static void set(uint64_t *mask, uint32_t listing)
{
    mask[listing / 64] |= (uint64_t)1 << listing % 64;
}

/* Every tenth listing matches. From 64 on all are unsold, and of those before only 20 and 21. */
static void fill(uint64_t *page, uint64_t *unsold)
{
    uint32_t listing;
    for (listing = 0; listing < LISTINGS; listing += 10) {
        set(page, listing);
    }
    for (listing = 64; listing < LISTINGS; listing++) {
        set(unsold, listing);
    }
    set(unsold, 20);
    set(unsold, 21);
}

static void show(const char *name, const uint64_t *mask)
{
    size_t word;
    printf("%-8s", name);
    for (word = 0; word < WORDS; word++) {
        printf(" %016" PRIx64, mask[word]);
    }
    printf("\n");
}

int main(void)
{
    uint64_t page[WORDS] = {0}, unsold[WORDS] = {0}, visible[WORDS] = {0}, other[WORDS] = {0};
    uint32_t listing, dims, yes, number;
    size_t len, place;
    float dot;

    fill(page, unsold);
    show("page", page);
    show("unsold", unsold);
    number = oxl_bvect_operator_and(LISTINGS, page, WORDS, LISTINGS, unsold, WORDS, visible, WORDS, &dims, &len,
                                    &place);
    if (number != OXL_DONE) {
        printf("refused with %" PRIu32 " at %zu\n", number, place);
        return 1;
    }
    show("visible", visible);

    /* The number of common ones is what dot answers, negated. */
    number = oxl_bvect_operator_dot(LISTINGS, page, WORDS, LISTINGS, unsold, WORDS, &dot, &place);
    if (number != OXL_DONE) {
        printf("refused with %" PRIu32 " at %zu\n", number, place);
        return 1;
    }
    printf("%.0f listings are visible:", -dot);
    for (listing = 0; listing < LISTINGS; listing++) {
        if (oxl_bvect_get(dims, visible, len, listing, &yes, &place) == OXL_DONE && yes) {
            printf(" %" PRIu32, listing);
        }
    }
    printf("\n");

    /* A list that is too short is refused with the words that it needs, and stays as it was. */
    number = oxl_bvect_operator_and(LISTINGS, page, WORDS, LISTINGS, unsold, WORDS, other, 1, &dims, &len, &place);
    printf("room for one word: refused with %s, as %zu are needed\n", number == OXL_ROOM ? "ROOM" : "?", place);
    show("other", other);
    return 0;
}
