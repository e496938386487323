/* On Windows: a division of numbers of 128 bits, which the proved code calls and Microsoft's compiler has no function for. The numbers
 * come by pointers and the quotient goes back in xmm0, as in the convention of compilers for Windows on x86-64. */
#include <emmintrin.h>
#include <stdint.h>

typedef struct {
    uint64_t low;
    uint64_t high;
} wide;

__m128i rattle_wide_quotient(const wide *dividend, const wide *divisor);

/* Long division, from the highest bit to the lowest. The divisor is not 0. */
__m128i rattle_wide_quotient(const wide *dividend, const wide *divisor) {
    wide rest = {0, 0}, quotient = {0, 0};
    for (int bit = 127; bit >= 0; bit--) {
        const uint64_t next = (bit < 64 ? dividend->low >> bit : dividend->high >> (bit - 64)) & 1, above = rest.high >> 63;
        rest.high = rest.high << 1 | rest.low >> 63;
        rest.low = rest.low << 1 | next;
        if (above || rest.high > divisor->high || (rest.high == divisor->high && rest.low >= divisor->low)) {
            rest.high -= divisor->high + (rest.low < divisor->low);
            rest.low -= divisor->low;
            if (bit < 64) quotient.low |= (uint64_t)1 << bit;
            else quotient.high |= (uint64_t)1 << (bit - 64);
        }
    }
    return _mm_set_epi64x((long long)quotient.high, (long long)quotient.low);
}
