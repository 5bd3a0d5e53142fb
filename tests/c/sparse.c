/* The calls on sparse vectors. */
#include "calls.h"

/* A and B of document 01. */
static const uint32_t a_at[2] = {1, 4}, b_at[2] = {4, 6};
static const float a_is[2] = {1.0f, -2.0f}, b_is[2] = {2.0f, 0.5f};
#define A 8, a_at, 2, a_is, 2
#define B 8, b_at, 2, b_is, 2

/* P4, and each refusal of a sparse vector. */
static void sparse_checked(void)
{
    const uint32_t equal[3] = {1, 4, 4}, at_dims[2] = {1, 8};
    const float zero[2] = {1.0f, -0.0f}, three[3] = {1.0f, 2.0f, 3.0f};
    uint32_t dims = E32;
    size_t len = E32, place = E32;
    EXPECT(oxl_svect_new_checked(8, a_at, 2, a_is, 2, &place) == OXL_DONE && place == 0);
    EXPECT(oxl_svect_new_checked(1048575, NULL, 0, NULL, 0, &place) == OXL_DONE && place == 0);
    EXPECT(oxl_svect_new_checked(0, NULL, 0, NULL, 0, &place) == OXL_DIMS && place == 0);
    EXPECT(oxl_svect_new_checked(1048576, NULL, 0, NULL, 0, &place) == OXL_DIMS && place == 0);
    EXPECT(oxl_svect_new_checked(8, a_at, 2, a_is, 1, &place) == OXL_LENGTH && place == 0);
    EXPECT(oxl_svect_new_checked(8, equal, 3, three, 3, &place) == OXL_ORDER && place == 2);
    EXPECT(oxl_svect_new_checked(8, at_dims, 2, a_is, 2, &place) == OXL_INDEX && place == 1);
    EXPECT(oxl_svect_new_checked(8, a_at, 2, zero, 2, &place) == OXL_ZERO && place == 1);
    EXPECT(oxl_svect_zero(8, &dims, &len, &place) == OXL_DONE && dims == 8 && len == 0 && place == 0);
    EXPECT(oxl_svect_zero(0, &dims, &len, &place) == OXL_DIMS && dims == 0 && len == 0 && place == 0);
}

/* Of A and B, as crates/test_sparse/stdout has it. In the last two a fused step would keep what rounding takes. */
static void sparse_sums(void)
{
    const uint32_t both[2] = {0, 1};
    const float x[2] = {-1.0f, 1.000244140625f}, y[2] = {1.00048828125f, 1.000244140625f};
    float value = OLD, xy = OLD, x2 = OLD, y2 = OLD;
    size_t place = E32;
    EXPECT(oxl_svect_operator_dot(A, 9, b_at, 2, b_is, 2, &value, &place) == OXL_DIFFER && value == OLD);
    EXPECT(oxl_svect_operator_l2(0, a_at, 2, a_is, 2, B, &value, &place) == OXL_DIMS && value == OLD);
    EXPECT(oxl_svect_three_sums(A, 8, b_at, 2, b_is, 1, &xy, &x2, &y2, &place) == OXL_LENGTH && place == 0);
    EXPECT(xy == OLD && x2 == OLD && y2 == OLD);
    EXPECT(oxl_svect_operator_dot(A, B, &value, &place) == OXL_DONE && bits_of(value) == 0x40800000 && place == 0);
    EXPECT(oxl_svect_operator_l2(A, B, &value, &place) == OXL_DONE && bits_of(value) == 0x418a0000);
    EXPECT(oxl_svect_three_sums(A, B, &xy, &x2, &y2, &place) == OXL_DONE && bits_of(xy) == 0xc0800000);
    EXPECT(bits_of(x2) == 0x40a00000 && bits_of(y2) == 0x40880000);
    EXPECT(oxl_svect_operator_dot(2, both, 2, x, 2, 2, both, 2, y, 2, &value, &place) == OXL_DONE);
    EXPECT(bits_of(value) == 0x80000000);
}

typedef uint32_t merge_call(uint32_t, const uint32_t *, size_t, const float *, size_t, uint32_t, const uint32_t *,
                            size_t, const float *, size_t, uint32_t *, size_t, float *, size_t, uint32_t *, size_t *,
                            size_t *, size_t *);

/* P1, P2 or P3: the answer in front, and `room` entries needed. */
static void sparse_merge(merge_call *call, size_t room, size_t n, const uint32_t *at, const float *is, size_t steps)
{
    uint32_t oi[5], dims = E32;
    float ov[5];
    size_t k, len = E32, turns = E32, place = E32;
    for (k = 0; k < 5; k++) {
        oi[k] = E32;
        ov[k] = OLD;
    }
    EXPECT(call(A, 9, b_at, 2, b_is, 2, oi, 5, ov, 5, &dims, &len, &turns, &place) == OXL_DIFFER && place == 0);
    EXPECT(call(A, B, oi, room, ov, room - 1, &dims, &len, &turns, &place) == OXL_ROOM && place == room);
    EXPECT(dims == 0 && len == 0 && turns == 0 && oi[0] == E32 && ov[0] == OLD);
    EXPECT(call(A, B, oi, 5, ov, 5, &dims, &len, &turns, &place) == OXL_DONE && place == 0);
    EXPECT(dims == 8 && len == n && turns == steps);
    for (k = 0; k < 5; k++) {
        EXPECT(k < n ? oi[k] == at[k] && ov[k] == is[k] : oi[k] == E32 && ov[k] == OLD);
    }
}

static void sparse_merges(void)
{
    const uint32_t sum_at[2] = {1, 6}, less_at[3] = {1, 4, 6}, times_at[1] = {4};
    const float sum_is[2] = {1.0f, 0.5f}, less_is[3] = {1.0f, -4.0f, -0.5f}, times_is[1] = {-4.0f};
    sparse_merge(oxl_svect_operator_add, 4, 2, sum_at, sum_is, 3);
    sparse_merge(oxl_svect_operator_sub, 4, 3, less_at, less_is, 3);
    sparse_merge(oxl_svect_operator_mul, 2, 1, times_at, times_is, 2);
}

/* A sum of vectors that have more entries than dims needs as much room as dims, and no more. */
static void sparse_room(void)
{
    const uint32_t at[3] = {0, 1, 2};
    const float is[3] = {1.0f, 2.0f, 4.0f};
    uint32_t oi[4] = {E32, E32, E32, E32}, dims = E32;
    float ov[4] = {OLD, OLD, OLD, OLD};
    size_t len = E32, turns = E32, place = E32;
#define FULL 3, at, 3, is, 3
#define ONE 3, at, 1, is, 1
    EXPECT(oxl_svect_operator_add(FULL, FULL, oi, 2, ov, 4, &dims, &len, &turns, &place) == OXL_ROOM && place == 3);
    EXPECT(oxl_svect_operator_sub(FULL, ONE, oi, 4, ov, 2, &dims, &len, &turns, &place) == OXL_ROOM && place == 3);
    EXPECT(dims == 0 && len == 0 && turns == 0 && oi[0] == E32 && ov[0] == OLD);
    EXPECT(oxl_svect_operator_add(FULL, FULL, oi, 3, ov, 3, &dims, &len, &turns, &place) == OXL_DONE && place == 0);
    EXPECT(dims == 3 && len == 3 && turns == 3 && oi[2] == 2 && ov[2] == 8.0f && oi[3] == E32 && ov[3] == OLD);
    EXPECT(oxl_svect_operator_sub(FULL, ONE, oi, 3, ov, 4, &dims, &len, &turns, &place) == OXL_DONE && place == 0);
    EXPECT(dims == 3 && len == 2 && turns == 3 && oi[0] == 1 && ov[1] == 4.0f && oi[2] == 2 && ov[2] == 8.0f);
}

/* P6, P7, P10, and a NaN: at its own index, where it decides, and behind what decides. */
static void sparse_slices_and_order(void)
{
    const uint32_t at[1] = {1}, early[1] = {3}, late[1] = {5};
    const float below[1] = {-1.0f}, one[1] = {1.0f}, nan[1] = {of_bits(0x7fc00000)};
    uint32_t oi[2] = {E32, E32}, dims = E32, yes = E32, order = E32;
    float ov[2] = {OLD, OLD};
    size_t len = E32, place = E32;
    EXPECT(oxl_svect_subvector(A, OXL_INCLUDED, 3, OXL_EXCLUDED, 3, oi, 2, ov, 2, &dims, &len, &place) == OXL_BOUNDS);
    EXPECT(oxl_svect_subvector(A, 3, 0, OXL_UNBOUNDED, 0, oi, 2, ov, 2, &dims, &len, &place) == OXL_BOUNDS);
    EXPECT(oxl_svect_subvector(A, OXL_INCLUDED, 4, OXL_UNBOUNDED, 0, oi, 0, ov, 2, &dims, &len, &place) == OXL_ROOM);
    EXPECT(place == 1 && dims == 0 && len == 0 && oi[0] == E32 && ov[0] == OLD);
    EXPECT(oxl_svect_subvector(A, OXL_INCLUDED, 4, OXL_UNBOUNDED, 0, oi, 2, ov, 2, &dims, &len, &place) == OXL_DONE);
    EXPECT(dims == 4 && len == 1 && place == 0 && oi[0] == 0 && ov[0] == -2.0f && oi[1] == E32 && ov[1] == OLD);
    EXPECT(oxl_svect_partial_cmp(4, at, 1, below, 1, 4, NULL, 0, NULL, 0, &order, &place) == OXL_DONE);
    EXPECT(order == OXL_LESS);
    EXPECT(oxl_svect_partial_cmp(4, at, 1, nan, 1, 4, at, 1, nan, 1, &order, &place) == OXL_DONE);
    EXPECT(order == OXL_UNORDERED);
    EXPECT(oxl_svect_partial_cmp(8, early, 1, nan, 1, 8, late, 1, one, 1, &order, &place) == OXL_DONE);
    EXPECT(order == OXL_UNORDERED);
    EXPECT(oxl_svect_partial_cmp(8, late, 1, one, 1, 8, early, 1, nan, 1, &order, &place) == OXL_DONE);
    EXPECT(order == OXL_UNORDERED);
    EXPECT(oxl_svect_partial_cmp(8, early, 1, one, 1, 8, late, 1, nan, 1, &order, &place) == OXL_DONE);
    EXPECT(order == OXL_GREATER);
    EXPECT(oxl_svect_partial_cmp(8, late, 1, nan, 1, 8, early, 1, one, 1, &order, &place) == OXL_DONE);
    EXPECT(order == OXL_LESS);
    EXPECT(oxl_svect_partial_cmp(A, A, &order, &place) == OXL_DONE && order == OXL_EQUAL);
    EXPECT(oxl_svect_partial_cmp(A, 8, b_at, 2, b_is, 1, &order, &place) == OXL_LENGTH && order == 0);
    EXPECT(oxl_svect_eq(A, A, &yes, &place) == OXL_DONE && yes == 1);
    EXPECT(oxl_svect_eq(4, at, 1, nan, 1, 4, at, 1, nan, 1, &yes, &place) == OXL_DONE && yes == 0);
    EXPECT(oxl_svect_eq(0, at, 1, nan, 1, 4, at, 1, nan, 1, &yes, &place) == OXL_DIMS && yes == 0);
}

void sparse(void)
{
    sparse_checked();
    sparse_sums();
    sparse_merges();
    sparse_room();
    sparse_slices_and_order();
}
