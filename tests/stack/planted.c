/* What is planted, to show that the test can fail: this file may call the C library's functions on memory. */
#include <alloca.h>
#include <string.h>

#include "stack.h"

size_t planted_size;

/* Writes that many bytes of stack, from the highest to the lowest. */
void planted_use(void)
{
    volatile uint8_t *bytes = alloca(planted_size);
    for (size_t n = planted_size; n > 0; n--)
        bytes[n - 1] = 1;
}

/* Writes the lowest byte alone. */
void planted_jump(void)
{
    volatile uint8_t *bytes = alloca(planted_size);
    bytes[0] = 1;
}

void planted_memset(void)
{
    static uint8_t area[64];
    memset(area, 1, sizeof area);
}

void planted_nothing(void)
{
}
