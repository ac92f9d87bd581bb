/* The programs on a machine with a C library: hosted TRACE. */
#include "floor.h"

#include <stdio.h>

static FILE *trace;

size_t trace_bytes(uint8_t *to, size_t n)
{
    return fread(to, 1, n, trace);
}

void put(const char *text)
{
    fputs(text, stdout);
}

void stack_clean(void) {}

uint32_t stack_touched(void)
{
    return 0;
}

int main(int n, char **words)
{
    if (n != 2 || (trace = fopen(words[1], "rb")) == NULL) {
        fputs("usage: hosted TRACE\n", stderr);
        return 2;
    }
    return sample() || replay();
}
