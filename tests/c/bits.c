/* The calls on bit vectors. */
#include "calls.h"

#define SAME(a, b) (memcmp((a), (b), sizeof(b)) == 0)

/* P5, and each refusal of a bit vector. */
static void bits_checked(void)
{
    const uint64_t good[2] = {0, 1}, bad[2] = {0, 2};
    uint32_t yes = E32;
    size_t place = E32;
    EXPECT(oxl_bvect_new_checked(65, good, 2, &place) == OXL_DONE && place == 0);
    EXPECT(oxl_bvect_new_checked(65, bad, 2, &place) == OXL_PADDING && place == 1);
    EXPECT(oxl_bvect_new_checked(65, good, 1, &place) == OXL_LENGTH && place == 0);
    EXPECT(oxl_bvect_new_checked(0, NULL, 0, &place) == OXL_DIMS && place == 0);
    EXPECT(oxl_bvect_new_checked(65536, good, 2, &place) == OXL_DIMS && place == 0);
    EXPECT(oxl_bvect_new_checked(65, NULL, 0, &place) == OXL_LENGTH && place == 0);
    EXPECT(oxl_bvect_get(65, good, 2, 64, &yes, &place) == OXL_DONE && yes == 1 && place == 0);
    EXPECT(oxl_bvect_get(65, good, 2, 63, &yes, &place) == OXL_DONE && yes == 0 && place == 0);
    yes = E32;
    EXPECT(oxl_bvect_get(65, good, 2, 65, &yes, &place) == OXL_INDEX && yes == 0 && place == 65);
    yes = E32;
    EXPECT(oxl_bvect_get(65, bad, 2, 65, &yes, &place) == OXL_PADDING && yes == 0 && place == 1);
}

static void bits_zero(void)
{
    uint64_t out[3] = {E64, E64, E64};
    const uint64_t old[3] = {E64, E64, E64}, cleared[3] = {0, 0, E64};
    uint32_t dims = E32;
    size_t len = E32, place = E32;
    EXPECT(oxl_bvect_zero(65, out, 1, &dims, &len, &place) == OXL_ROOM && place == 2);
    EXPECT(dims == 0 && len == 0 && SAME(out, old));
    EXPECT(oxl_bvect_zero(65, NULL, 0, &dims, &len, &place) == OXL_ROOM && place == 2);
    EXPECT(oxl_bvect_zero(0, out, 3, &dims, &len, &place) == OXL_DIMS && place == 0 && SAME(out, old));
    EXPECT(oxl_bvect_zero(65, out, 3, &dims, &len, &place) == OXL_DONE && place == 0);
    EXPECT(dims == 65 && len == 2 && SAME(out, cleared));
}

/* P8 and P9. A float slot is left as it was by a refusal. */
static void bits_distances(void)
{
    const uint64_t a[1] = {12}, b[1] = {10}, none[1] = {0};
    float value = OLD;
    size_t place = E32;
    EXPECT(oxl_bvect_operator_dot(4, a, 1, 5, b, 1, &value, &place) == OXL_DIFFER && place == 0 && value == OLD);
    EXPECT(oxl_bvect_operator_hamming(4, a, 1, 0, b, 1, &value, &place) == OXL_DIMS && value == OLD);
    EXPECT(oxl_bvect_operator_jaccard(3, a, 1, 4, b, 1, &value, &place) == OXL_PADDING && value == OLD);
    EXPECT(oxl_bvect_operator_jaccard_or_nan(4, none, 1, 5, none, 1, &value, &place) == OXL_DIFFER && value == OLD);
    EXPECT(oxl_bvect_operator_dot(4, a, 1, 4, b, 1, &value, &place) == OXL_DONE && bits_of(value) == 0xbf800000);
    EXPECT(oxl_bvect_operator_hamming(4, a, 1, 4, b, 1, &value, &place) == OXL_DONE && bits_of(value) == 0x40000000);
    EXPECT(oxl_bvect_operator_jaccard(4, a, 1, 4, b, 1, &value, &place) == OXL_DONE && bits_of(value) == 0x3f2aaaaa);
    EXPECT(oxl_bvect_operator_dot(4, none, 1, 4, none, 1, &value, &place) == OXL_DONE && bits_of(value) == 0x80000000);
    EXPECT(oxl_bvect_operator_jaccard(4, none, 1, 5, none, 1, &value, &place) == OXL_DIFFER &&
           bits_of(value) == 0x80000000);
    EXPECT(oxl_bvect_operator_jaccard(4, none, 1, 4, none, 1, &value, &place) == OXL_DONE && bits_of(value) == 0);
    EXPECT(oxl_bvect_operator_jaccard_or_nan(4, none, 1, 4, none, 1, &value, &place) == OXL_DONE && value != value);
    EXPECT(oxl_bvect_operator_jaccard_or_nan(4, a, 1, 4, b, 1, &value, &place) == OXL_DONE &&
           bits_of(value) == 0x3f2aaaaa);
}

typedef uint32_t bits_call(uint32_t, const uint64_t *, size_t, uint32_t, const uint64_t *, size_t, uint64_t *, size_t,
                           uint32_t *, size_t *, size_t *);

/* P8, for one of AND, OR and XOR. */
static void bits_operation(bits_call *call, uint64_t expected)
{
    const uint64_t a[1] = {12}, b[1] = {10};
    uint64_t out[2] = {E64, E64};
    const uint64_t old[2] = {E64, E64};
    uint32_t dims = E32;
    size_t len = E32, place = E32;
    EXPECT(call(4, a, 1, 5, b, 1, out, 2, &dims, &len, &place) == OXL_DIFFER && place == 0);
    EXPECT(call(4, a, 1, 4, b, 1, NULL, 0, &dims, &len, &place) == OXL_ROOM && place == 1);
    EXPECT(dims == 0 && len == 0 && SAME(out, old));
    EXPECT(call(4, a, 1, 4, b, 1, out, 2, &dims, &len, &place) == OXL_DONE && place == 0);
    EXPECT(dims == 4 && len == 1 && out[0] == expected && out[1] == E64);
}

/* Bits 64 and 65 of 66 are set. */
static void bits_slices(void)
{
    const uint64_t words[2] = {0, 3};
    uint64_t out[2] = {E64, E64};
    uint32_t dims;
    size_t len, place;
#define CUT(from_kind, from, to_kind, to, room) \
    oxl_bvect_subvector(66, words, 2, from_kind, from, to_kind, to, out, room, &dims, &len, &place)
    EXPECT(CUT(OXL_INCLUDED, 64, OXL_UNBOUNDED, 9, 2) == OXL_DONE);
    EXPECT(dims == 2 && len == 1 && place == 0 && out[0] == 3 && out[1] == E64);
    EXPECT(CUT(OXL_EXCLUDED, 64, OXL_INCLUDED, 65, 2) == OXL_DONE);
    EXPECT(dims == 1 && len == 1 && place == 0 && out[0] == 1 && out[1] == E64);
    EXPECT(CUT(OXL_EXCLUDED, UINT32_MAX, OXL_UNBOUNDED, 0, 2) == OXL_BOUNDS);
    EXPECT(dims == 0 && len == 0 && place == 0 && out[0] == 1);
    EXPECT(CUT(3, 0, OXL_UNBOUNDED, 0, 2) == OXL_BOUNDS && CUT(OXL_UNBOUNDED, 0, UINT32_MAX, 66, 2) == OXL_BOUNDS);
    EXPECT(CUT(OXL_UNBOUNDED, 0, OXL_EXCLUDED, 67, 2) == OXL_BOUNDS);
    EXPECT(CUT(OXL_INCLUDED, 3, OXL_EXCLUDED, 3, 2) == OXL_BOUNDS);
    EXPECT(CUT(OXL_UNBOUNDED, 0, OXL_UNBOUNDED, 0, 1) == OXL_ROOM && place == 2 && out[0] == 1);
    EXPECT(oxl_bvect_subvector(66, words, 1, 3, 0, 3, 0, out, 0, &dims, &len, &place) == OXL_LENGTH && place == 0);
#undef CUT
}

/* P10, and unequal dims. */
static void bits_order(void)
{
    const uint64_t a[1] = {1}, b[1] = {2};
    uint32_t yes = E32, order = E32;
    size_t place;
    EXPECT(oxl_bvect_partial_cmp(4, a, 1, 4, b, 1, &order, &place) == OXL_DONE && order == OXL_GREATER);
    EXPECT(oxl_bvect_partial_cmp(4, b, 1, 4, a, 1, &order, &place) == OXL_DONE && order == OXL_LESS);
    EXPECT(oxl_bvect_partial_cmp(4, a, 1, 4, a, 1, &order, &place) == OXL_DONE && order == OXL_EQUAL);
    EXPECT(oxl_bvect_partial_cmp(4, a, 1, 5, a, 1, &order, &place) == OXL_DONE && order == OXL_UNORDERED);
    EXPECT(oxl_bvect_partial_cmp(4, a, 1, 0, a, 1, &order, &place) == OXL_DIMS && order == 0 && place == 0);
    EXPECT(oxl_bvect_eq(4, a, 1, 4, a, 1, &yes, &place) == OXL_DONE && yes == 1);
    EXPECT(oxl_bvect_eq(4, a, 1, 5, a, 1, &yes, &place) == OXL_DONE && yes == 0);
    EXPECT(oxl_bvect_eq(4, a, 1, 4, a, 0, &yes, &place) == OXL_LENGTH && yes == 0 && place == 0);
}

void bits(void)
{
    bits_checked();
    bits_zero();
    bits_distances();
    bits_operation(oxl_bvect_operator_and, 8);
    bits_operation(oxl_bvect_operator_or, 14);
    bits_operation(oxl_bvect_operator_xor, 6);
    bits_slices();
    bits_order();
}
