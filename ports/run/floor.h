/* What the programs here stand on: a C library (hosted.c), or an emulated machine with nothing on it (metal.c). */
#ifndef FLOOR_H
#define FLOOR_H

#include <stddef.h>
#include <stdint.h>

/* Of <string.h>, which a machine with nothing on it has not. */
void *memset(void *to, int byte, size_t n);
void *memcpy(void *to, const void *from, size_t n);
int memcmp(const void *a, const void *b, size_t n);
size_t strlen(const char *text);

/* Reads up to n bytes of the trace; answers how many, 0 at its end. */
size_t trace_bytes(uint8_t *to, size_t n);

/* Prints a text. */
void put(const char *text);

/* How many bytes of stack lie below this call that the calls since `clean` have touched, or 0 where nobody can say. */
void stack_clean(void);
uint32_t stack_touched(void);

/* The programs: 0 where all is well. */
int replay(void);
int sample(void);
int count(void);

#endif
