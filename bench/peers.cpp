// The peers' calls for the bench: Eigen's SparseVector (HAVE_EIGEN) and CRoaring (HAVE_ROARING). The data is made once.
// A timed call makes its answer as a user of the library would, and drops it; another hands the answer out, to be
// compared.
#include <cstddef>
#include <cstdint>

#ifdef HAVE_EIGEN
#include <Eigen/SparseCore>

using Vector = Eigen::SparseVector<float>;

static Vector merged(int which, const Vector &a, const Vector &b) {
    switch (which) {
    case 0: return a + b;
    case 1: return a - b;
    default: return a.cwiseProduct(b);
    }
}

extern "C" {
void *peer_eigen_vector(uint32_t dims, const uint32_t *indexes, const float *values, size_t n) {
    auto *v = new Vector(dims);
    v->reserve(n);
    for (size_t k = 0; k < n; k++) v->insertBack(indexes[k]) = values[k];
    return v;
}

void peer_eigen_drop(void *v) { delete static_cast<Vector *>(v); }

// The number of entries of a sum, a difference or a product.
size_t peer_eigen_merge(int which, const void *a, const void *b) {
    return merged(which, *static_cast<const Vector *>(a), *static_cast<const Vector *>(b)).nonZeros();
}

size_t peer_eigen_answer(int which, const void *a, const void *b, uint32_t *indexes, float *values) {
    Vector v = merged(which, *static_cast<const Vector *>(a), *static_cast<const Vector *>(b));
    size_t n = 0;
    for (Vector::InnerIterator it(v); it; ++it, n++) {
        indexes[n] = it.index();
        values[n] = it.value();
    }
    return n;
}

// The sum of products, that of squared differences, or the three sums: of products and of each side's squares.
void peer_eigen_fold(int which, const void *a, const void *b, float *sums) {
    const Vector &x = *static_cast<const Vector *>(a), &y = *static_cast<const Vector *>(b);
    switch (which) {
    case 3: sums[0] = x.dot(y); break;
    case 4: sums[0] = (x - y).squaredNorm(); break;
    default: sums[0] = x.dot(y), sums[1] = x.squaredNorm(), sums[2] = y.squaredNorm();
    }
}
}
#endif

#ifdef HAVE_ROARING
#include <roaring/roaring.h>

using Bits = const roaring_bitmap_t *;

static roaring_bitmap_t *combined(int which, Bits a, Bits b) {
    switch (which) {
    case 0: return roaring_bitmap_and(a, b);
    case 1: return roaring_bitmap_or(a, b);
    default: return roaring_bitmap_xor(a, b);
    }
}

extern "C" {
void *peer_roaring_bits(const uint64_t *words, size_t n) {
    roaring_bitmap_t *v = roaring_bitmap_create();
    for (size_t k = 0; k < 64 * n; k++)
        if (words[k / 64] >> (k % 64) & 1) roaring_bitmap_add(v, k);
    return v;
}

void peer_roaring_drop(void *v) { roaring_bitmap_free(static_cast<roaring_bitmap_t *>(v)); }

void peer_roaring_words(int which, const void *a, const void *b) {
    roaring_bitmap_free(combined(which, static_cast<Bits>(a), static_cast<Bits>(b)));
}

// The indexes of the ones, and how many they are.
size_t peer_roaring_answer(int which, const void *a, const void *b, uint32_t *indexes) {
    roaring_bitmap_t *v = combined(which, static_cast<Bits>(a), static_cast<Bits>(b));
    size_t n = roaring_bitmap_get_cardinality(v);
    roaring_bitmap_to_uint32_array(v, indexes);
    roaring_bitmap_free(v);
    return n;
}

// The ones of AND, the ones of XOR, or the Jaccard index.
double peer_roaring_count(int which, const void *a, const void *b) {
    switch (which) {
    case 3: return roaring_bitmap_and_cardinality(static_cast<Bits>(a), static_cast<Bits>(b));
    case 4: return roaring_bitmap_xor_cardinality(static_cast<Bits>(a), static_cast<Bits>(b));
    default: return roaring_bitmap_jaccard_index(static_cast<Bits>(a), static_cast<Bits>(b));
    }
}
}
#endif
