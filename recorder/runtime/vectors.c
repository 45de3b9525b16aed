/* Loads and stores of vectors by a mask, and gathers: each element that the mask has is told. A mask's element counts where
 * its highest bit is set. `how` has the bytes of an element, then the kind, or for gathers the bytes of an index, the scale
 * and the number of elements. */
#include <immintrin.h>
#include "recorder.h"

static bool is_set(const unsigned char *mask, unsigned size, unsigned k) { return mask[(k + 1) * size - 1] & 128; }

static void masked(const char *p, const void *mask, unsigned bytes, unsigned long how, const void *return_address)
{
    unsigned size = how & 255;

    for (unsigned k = 0; k < bytes / size; k++)
        if (is_set(mask, size, k))
            library_access((enum kind)(how >> 8 & 1), p + k * size, size, return_address);
}

static void gathered(const char *p, const void *index, const void *mask, unsigned long how, const void *return_address)
{
    unsigned size = how & 255, index_size = how >> 8 & 255, scale = how >> 16 & 255, n = how >> 24 & 255;

    for (unsigned k = 0; k < n; k++)
        if (is_set(mask, size, k)) {
            int64_t at = index_size == 4 ? ((const int32_t *)index)[k] : ((const int64_t *)index)[k];
            library_access(READ, p + at * scale, size, return_address);
        }
}

#define MASKED(BITS, TYPE) \
    void cilkrec_masked_##BITS(const void *p, TYPE mask, unsigned long how) \
    { \
        if (span != UINTPTR_MAX) \
            masked(p, &mask, BITS / 8, how, RETURN_ADDRESS); \
    }
#define GATHER(INDEX_BITS, INDEX, MASK_BITS, MASK) \
    void cilkrec_gather_##INDEX_BITS##_##MASK_BITS(const void *p, INDEX index, MASK mask, unsigned long how) \
    { \
        if (span != UINTPTR_MAX) \
            gathered(p, &index, &mask, how, RETURN_ADDRESS); \
    }
MASKED(128, __m128i) MASKED(256, __m256i)
GATHER(128, __m128i, 128, __m128i) GATHER(128, __m128i, 256, __m256i) GATHER(256, __m256i, 128, __m128i)
GATHER(256, __m256i, 256, __m256i)
