/*
 * Calls every function of include/oxlanyard.h from C. What is expected are figures of document 01 (P1 to P13) and lines
 * of crates/test_bits/stdout, crates/test_sparse/stdout and crates/test_aggregate/stdout, or follows from document 01.
 * Prints what does not hold, and then 'N passed, M failed'. Exit status: 0 all holds; 1 something does not.
 */
#include "calls.h"

#include <stdio.h>

static unsigned passed, failed;

void expect(int holds, const char *what, const char *file, int line)
{
    if (holds) {
        passed++;
        return;
    }
    failed++;
    printf("%s:%d: %s does not hold\n", file, line, what);
}

uint32_t bits_of(float x)
{
    uint32_t bits;
    memcpy(&bits, &x, sizeof bits);
    return bits;
}

float of_bits(uint32_t bits)
{
    float x;
    memcpy(&x, &bits, sizeof x);
    return x;
}

int main(void)
{
    bits();
    sparse();
    states();
    printf("%u passed, %u failed\n", passed, failed);
    return failed != 0;
}
