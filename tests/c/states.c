/* The calls on aggregate states. */
#include "calls.h"

/* A pair of lists, and the header of a state in them. */
struct lists {
    uint64_t h[OXL_HEADER];
    uint32_t at[20];
    float is[20];
};

static const uint32_t a_at[2] = {1, 4}, b_at[2] = {4, 6};
static const float a_is[2] = {1.0f, -2.0f}, b_is[2] = {2.0f, 0.5f};

/* A state without rows in the places 2 to 17 of 20. */
static struct lists fresh(void)
{
    struct lists s;
    size_t k;
    for (k = 0; k < 20; k++) {
        s.at[k] = E32;
        s.is[k] = OLD;
    }
    for (k = 0; k < OXL_HEADER; k++) {
        s.h[k] = E64;
    }
    oxl_aggregate_fresh(2, 16, s.h);
    return s;
}

static int header_is(const struct lists *s, uint64_t begun, uint64_t dims, uint64_t len, uint64_t capacity,
                     uint64_t count)
{
    const uint64_t h[OXL_HEADER] = {2, 16, begun, dims, len, capacity, count};
    return memcmp(s->h, h, sizeof h) == 0;
}

static uint32_t row(struct lists *s, uint32_t dims, const uint32_t *at, const float *is, size_t n, size_t *turns,
                    size_t *place)
{
    return oxl_aggregate_row(s->h, s->at, 20, s->is, 20, dims, at, n, is, n, turns, place);
}

static uint32_t combine(struct lists *s, const struct lists *t, size_t *turns, size_t *place)
{
    return oxl_aggregate_combine(s->h, s->at, 20, s->is, 20, t->h, t->at, 20, t->is, 20, turns, place);
}

static uint32_t check(const struct lists *s, size_t *place)
{
    return oxl_aggregate_check(s->h, s->at, 20, s->is, 20, place);
}

/* P11. */
static void capacities(void)
{
    EXPECT(oxl_aggregate_capacity(1000, 0) == 16);
    EXPECT(oxl_aggregate_capacity(1000, 17) == 32);
    EXPECT(oxl_aggregate_capacity(1000, 1000) == 1000);
    EXPECT(oxl_aggregate_capacity(10, 0) == 10);
}

/* A, then B: the entries at 4 cancel, as in P1. */
static void rows(void)
{
    struct lists s = fresh(), before;
    size_t turns = E32, place = E32;
    EXPECT(header_is(&s, 0, 0, 0, 0, 0) && check(&s, &place) == OXL_DONE && place == 0);
    EXPECT(row(&s, 8, a_at, a_is, 2, &turns, &place) == OXL_DONE && turns == 2 && place == 0);
    EXPECT(header_is(&s, 1, 8, 2, 8, 1) && check(&s, &place) == OXL_DONE);
    before = s;
    EXPECT(row(&s, 9, b_at, b_is, 2, &turns, &place) == OXL_DIFFER && turns == 0 && place == 0);
    EXPECT(row(&s, 4, b_at, b_is, 2, &turns, &place) == OXL_INDEX && turns == 0 && place == 1);
    EXPECT(memcmp(&s, &before, sizeof s) == 0);
    EXPECT(row(&s, 8, b_at, b_is, 2, &turns, &place) == OXL_DONE && turns == 2 && place == 0);
    EXPECT(header_is(&s, 1, 8, 2, 8, 2));
    EXPECT(s.at[2] == 1 && s.is[2] == 1.0f && s.at[3] == 6 && s.is[3] == 0.5f);
    EXPECT(s.at[1] == E32 && s.is[1] == OLD && s.at[10] == E32 && s.is[10] == OLD);
    EXPECT(row(&s, 8, NULL, NULL, 0, &turns, &place) == OXL_DONE && turns == 0 && header_is(&s, 1, 8, 2, 8, 3));
}

/* Headers that no state has; the numbers of the last two do not fit a header at all. */
static void bad_headers(void)
{
    struct lists s = fresh(), t = s, before;
    size_t turns = E32, place = E32;
    EXPECT(row(&s, 8, a_at, a_is, 2, &turns, &place) == OXL_DONE);
    t = s;
    t.h[OXL_HEADER_LENGTH] = 19;
    before = t;
    EXPECT(check(&t, &place) == OXL_ROOM && place == 19);
    EXPECT(row(&t, 8, b_at, b_is, 2, &turns, &place) == OXL_ROOM && place == 19 && memcmp(&t, &before, sizeof t) == 0);
    EXPECT(combine(&s, &t, &turns, &place) == OXL_ROOM && place == 19 && header_is(&s, 1, 8, 2, 8, 1));
    t = s;
    t.h[OXL_HEADER_LEN] = 9;
    EXPECT(check(&t, &place) == OXL_STATE && place == 0);
    t = fresh();
    t.h[OXL_HEADER_BEGUN] = 2;
    EXPECT(check(&t, &place) == OXL_STATE && place == 0);
    t = s;
    t.h[OXL_HEADER_DIMS] += (uint64_t)1 << 32;
    EXPECT(check(&t, &place) == OXL_STATE && place == 0);
    before = t;
    EXPECT(row(&t, 8, b_at, b_is, 2, &turns, &place) == OXL_STATE && memcmp(&t, &before, sizeof t) == 0);
    t = s;
    t.h[OXL_HEADER_COUNT] = 0;
    EXPECT(check(&t, &place) == OXL_STATE && place == 0);
}

/* Any count but 0 is one; what would pass the last is refused, and changes nothing. */
static void counts(void)
{
    struct lists s = fresh(), t, before;
    uint32_t oi[2], dims = E32;
    float ov[2];
    size_t len = E32, turns = E32, place = E32;
    EXPECT(row(&s, 8, a_at, a_is, 2, &turns, &place) == OXL_DONE);
    t = s;
    s.h[OXL_HEADER_COUNT] = UINT64_MAX - 5;
    EXPECT(check(&s, &place) == OXL_DONE);
    t.h[OXL_HEADER_COUNT] = 5;
    EXPECT(combine(&s, &t, &turns, &place) == OXL_DONE && header_is(&s, 1, 8, 2, 8, UINT64_MAX));
    before = s;
    turns = place = E32;
    EXPECT(combine(&s, &t, &turns, &place) == OXL_COUNT && turns == 0 && place == 0);
    turns = place = E32;
    EXPECT(row(&s, 8, b_at, b_is, 2, &turns, &place) == OXL_COUNT && turns == 0 && place == 0);
    EXPECT(memcmp(&s, &before, sizeof s) == 0);
    /* The nearest floats: at the end 2^64; at 33,554,438, a tie, 33,554,440, which is even. */
    EXPECT(oxl_aggregate_average(s.h, s.at, 20, s.is, 20, oi, 2, ov, 2, &dims, &len, &place) == OXL_DONE);
    EXPECT(len == 2 && ov[0] == 2.0f / 18446744073709551616.0f && ov[1] == -4.0f / 18446744073709551616.0f);
    s.h[OXL_HEADER_COUNT] = 33554438;
    EXPECT(oxl_aggregate_average(s.h, s.at, 20, s.is, 20, oi, 2, ov, 2, &dims, &len, &place) == OXL_DONE);
    EXPECT(len == 2 && ov[0] == 2.0f / 33554440.0f && ov[1] == -4.0f / 33554440.0f);
}

static void combines(void)
{
    struct lists s = fresh(), t = fresh(), none = fresh();
    size_t turns = E32, place = E32;
    EXPECT(row(&t, 8, b_at, b_is, 2, &turns, &place) == OXL_DONE);
    EXPECT(combine(&s, &none, &turns, &place) == OXL_DONE && turns == 0 && header_is(&s, 0, 0, 0, 0, 0));
    EXPECT(combine(&s, &t, &turns, &place) == OXL_DONE && turns == 2 && header_is(&s, 1, 8, 2, 8, 1));
    EXPECT(combine(&s, &t, &turns, &place) == OXL_DONE && turns == 2 && header_is(&s, 1, 8, 2, 8, 2));
    EXPECT(s.at[2] == 4 && s.is[2] == 4.0f && s.at[3] == 6 && s.is[3] == 1.0f);
}

/* P12: a state of ten entries and capacity 16, and a row of seven; then the move that NEED asks for. */
static void moves(void)
{
    struct lists s = fresh();
    uint32_t at[10], new_at[40];
    float is[10], new_is[40];
    size_t k, turns = E32, place = E32;
    for (k = 0; k < 10; k++) {
        at[k] = (uint32_t)(10 * k);
        is[k] = 1.0f;
    }
#define MOVE(more, start, length) \
    oxl_aggregate_move_to(s.h, s.at, 20, s.is, 20, more, new_at, 40, new_is, 40, start, length, &turns, &place)
    EXPECT(MOVE(7, 4, 36) == OXL_NOT_BEGUN && turns == 0 && place == 0);
    EXPECT(row(&s, 1000, at, is, 10, &turns, &place) == OXL_DONE && header_is(&s, 1, 1000, 10, 16, 1));
    EXPECT(row(&s, 1000, at, is, 7, &turns, &place) == OXL_NEED && place == 32);
    EXPECT(MOVE(6, 4, 36) == OXL_NOT_NEEDED && MOVE(1001, 4, 36) == OXL_DIMS && place == 0);
    EXPECT(MOVE(7, 4, 37) == OXL_ROOM && place == 37);
    EXPECT(MOVE(7, 4, 31) == OXL_ROOM && place == 32);
    EXPECT(turns == 0 && header_is(&s, 1, 1000, 10, 16, 1));
    EXPECT(MOVE(7, 4, 36) == OXL_DONE);
#undef MOVE
    EXPECT(turns == 0 && place == 0 && new_at[4] == 0 && new_at[13] == 90 && new_is[13] == 1.0f);
    EXPECT(s.h[OXL_HEADER_START] == 4 && s.h[OXL_HEADER_LENGTH] == 36 && s.h[OXL_HEADER_CAPACITY] == 32);
    EXPECT(oxl_aggregate_row(s.h, new_at, 40, new_is, 40, 1000, at, 7, is, 7, &turns, &place) == OXL_DONE);
    EXPECT(s.h[OXL_HEADER_COUNT] == 2 && s.h[OXL_HEADER_LEN] == 10 && new_is[4] == 2.0f && new_is[13] == 1.0f);
}

/* P13, with an entry on either side: half of the smallest float is zero, and left out. */
static void finishes(void)
{
    struct lists s = fresh();
    const uint32_t at[3] = {1, 3, 5};
    const float is[3] = {1.0f, of_bits(1), 2.0f};
    uint32_t oi[4] = {E32, E32, E32, E32}, dims = E32;
    float ov[4] = {OLD, OLD, OLD, OLD};
    size_t len = E32, turns = E32, place = E32;
    EXPECT(oxl_aggregate_sum(s.h, s.at, 20, s.is, 20, oi, 4, ov, 4, &dims, &len, &place) == OXL_NOT_BEGUN);
    EXPECT(row(&s, 8, at, is, 3, &turns, &place) == OXL_DONE && row(&s, 8, at, is, 0, &turns, &place) == OXL_DONE);
    EXPECT(oxl_aggregate_average(s.h, s.at, 20, s.is, 20, oi, 2, ov, 4, &dims, &len, &place) == OXL_ROOM && place == 3);
    EXPECT(dims == 0 && len == 0 && oi[0] == E32 && ov[0] == OLD);
    EXPECT(oxl_aggregate_average(s.h, s.at, 20, s.is, 20, oi, 4, ov, 4, &dims, &len, &place) == OXL_DONE);
    EXPECT(dims == 8 && len == 2 && oi[0] == 1 && ov[0] == 0.5f && oi[1] == 5 && ov[1] == 1.0f);
    EXPECT(oi[2] == E32 && ov[2] == OLD);
    EXPECT(oxl_aggregate_sum(s.h, s.at, 20, s.is, 20, oi, 4, ov, 4, &dims, &len, &place) == OXL_DONE && place == 0);
    EXPECT(dims == 8 && len == 3 && oi[1] == 3 && bits_of(ov[1]) == 1 && ov[2] == 2.0f && oi[3] == E32);
}

void states(void)
{
    capacities();
    rows();
    bad_headers();
    combines();
    counts();
    moves();
    finishes();
}
