/* Numbers as text. */
#ifndef PRINT_H
#define PRINT_H

#include "floor.h"

static void put_number(uint64_t number, unsigned base, int digits)
{
    char text[24];
    int at = sizeof text - 1;
    text[at] = 0;
    while (digits-- > 0 || number > 0) {
        text[--at] = "0123456789abcdef"[number % base];
        number /= base;
    }
    put(text + at);
}

#endif
