/* On Windows: the division of numbers of 128 bits in c/src/wide.c, beside the compiler's own. */
#include "check.h"
#include <emmintrin.h>

__extension__ typedef unsigned __int128 number;

__m128i rattle_wide_quotient(const number *dividend, const number *divisor);

static uint64_t state = 1;

/* The next pseudo-random number, with any count of leading zeros. */
static number next(void) {
    number made = 0;
    for (int i = 0; i < 2; i++) {
        state = state * 6364136223846793005u + 1442695040888963407u;
        made = made << 64 | (state ^ state >> 29);
    }
    state = state * 6364136223846793005u + 1442695040888963407u;
    return made >> (state >> 57);
}

static bool is_right(number dividend, number divisor) {
    const __m128i answer = rattle_wide_quotient(&dividend, &divisor);
    number quotient;
    memcpy(&quotient, &answer, sizeof quotient);
    return quotient == dividend / divisor;
}

int main(void) {
    const number most = ~(number)0;
    CHECK(is_right(0, 1) && is_right(most, 1) && is_right(most, most) && is_right(most - 1, most));
    CHECK(is_right(most, (number)1 << 127) && is_right((number)1 << 127, most));
    for (int i = 0; i < 100000; i++) {
        const number divisor = next();
        if (divisor) CHECK(is_right(next(), divisor));
    }
    return checked();
}
