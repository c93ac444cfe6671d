/*
 * The functions that the translator writes by itself, each against its definition
 * (logic/Lib/Count.antt). They are static, so the C file is a part of this one.
 */
#include <stdio.h>

#include "j8.c"

/* As the definition has it: a digit at a time, from the lowest. */
static uint32_t zeros_of(uint64_t x)
{
    uint32_t count = 0;

    while (count < 64 && x % 2 == 0) {
        count++;
        x /= 2;
    }
    return count;
}

int main(void)
{
    uint64_t x = 1;
    unsigned long checks = 0;
    int bit;

    for (bit = -1; bit < 64; bit++) {
        uint64_t low = bit < 0 ? 0 : UINT64_C(1) << bit;
        int turn;

        for (turn = 0; turn < 100; turn++, checks++) {
            /* The bit, and any above it. */
            uint64_t all = turn == 0 || bit < 0 || bit == 63 ? low : low | x << bit << 1;

            if (trailing_zeros(all) != zeros_of(all)) {
                printf("trailing_zeros of %lx%08lx\n", (unsigned long)(all >> 32), (unsigned long)(all & 0xffffffff));
                return 1;
            }
            x ^= x << 13;
            x ^= x >> 7;
            x ^= x << 17;
        }
    }
    printf("helpers: %lu checks\n", checks);
    return 0;
}
