/* What the parts of the test program share. */
#ifndef CALLS_H
#define CALLS_H

#include "oxlanyard.h"

#include <string.h>

/* Counts what is expected, and says where it does not hold. */
#define EXPECT(holds) expect((holds), #holds, __FILE__, __LINE__)
void expect(int holds, const char *what, const char *file, int line);

/* What stands in slots and lists before a call. */
#define E64 0xeeeeeeeeeeeeeeeeU
#define E32 0xeeeeeeeeU
#define OLD 7.5f

uint32_t bits_of(float x);
float of_bits(uint32_t bits);

void bits(void);
void sparse(void);
void states(void);

#endif
