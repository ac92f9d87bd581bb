/*
 * Start-up and floor of the programs on an emulated machine with nothing on it: a Cortex-M or a RISC-V processor, memory, and
 * semihosting (the emulator's way to open files, print and end). The linker script is metal.ld.
 */
#include "floor.h"

/* Of the linker script. */
extern uint8_t data_start[], data_end[], data_stored[], bss_start[], bss_end[], stack_low[], stack_top[];

int main(void);
void start(void);

/* ---- what the library needs, as include/osd.h shows it, and what a C compiler takes for granted */

void *memset(void *to, int byte, size_t n) {
    for (volatile uint8_t *p = to; n > 0; n--) *p++ = (uint8_t)byte;
    return to; }

void *memcpy(void *to, const void *from, size_t n)
{
    volatile uint8_t *p = to;
    for (const uint8_t *q = from; n > 0; n--)
        *p++ = *q++;
    return to;
}

int memcmp(const void *a, const void *b, size_t n)
{
    const volatile uint8_t *p = a, *q = b;
    /* words while they are the same and lie as words do; then bytes */
    for (; ((uintptr_t)p | (uintptr_t)q) % 4 == 0 && n >= 4 && *(const volatile uint32_t *)p == *(const volatile uint32_t *)q; n -= 4)
        p += 4, q += 4;
    for (; n > 0; n--, p++, q++)
        if (*p != *q)
            return *p < *q ? -1 : 1;
    return 0;
}

size_t strlen(const char *text)
{
    const volatile char *p = text;
    while (*p)
        p++;
    return (size_t)(p - text);
}

/* ---- semihosting */

#define SYS_OPEN 0x01
#define SYS_WRITE0 0x04
#define SYS_READ 0x06
#define SYS_EXIT 0x18
#define ENDED_WELL 0x20026
#define ENDED_BADLY 0x20023

#if defined __arm__

static intptr_t semihost(intptr_t number, const void *words)
{
    register intptr_t r0 __asm__("r0") = number;
    register const void *r1 __asm__("r1") = words;
    __asm__ volatile("bkpt 0xab" : "+r"(r0) : "r"(r1) : "memory");
    return r0;
}

/* The vector table: the stack's top, the start, and the faults, which end the program badly. */
static void fault(void)
{
    put("a fault\n");
    semihost(SYS_EXIT, (const void *)ENDED_BADLY);
    for (;;)
        ;
}

__attribute__((section(".vectors"), used)) static const void *const vectors[16] = {stack_top, start, fault, fault, fault, fault, fault};

static void processor(void)
{
#ifdef __ARM_FP
    *(volatile uint32_t *)0xE000ED88 |= 0xF << 20; /* CPACR: the C compiler may use the floating point unit */
#endif
#ifdef ALIGNED
    *(volatile uint32_t *)0xE000ED14 |= 1 << 3; /* CCR.UNALIGN_TRP: fault at words that are not aligned, as a Cortex-M0 does */
#endif
}

#elif defined __riscv

static intptr_t semihost(intptr_t number, const void *words)
{
    register intptr_t a0 __asm__("a0") = number;
    register const void *a1 __asm__("a1") = words;
    __asm__ volatile(".option push\n.option norvc\n.balign 16\nslli x0, x0, 0x1f\nebreak\nsrai x0, x0, 7\n.option pop" : "+r"(a0) : "r"(a1) : "memory");
    return a0;
}

__asm__(".section .vectors, \"ax\"\n.globl entry\nentry:\nla sp, stack_top\nla t0, fault\ncsrw mtvec, t0\nj start\n.text");

__attribute__((used, aligned(4))) static void fault(void)
{
    put("a fault\n");
    semihost(SYS_EXIT, (const void *)ENDED_BADLY);
    for (;;)
        ;
}

static void processor(void) {}

#endif

void start(void)
{
    for (volatile uint8_t *to = data_start, *from = data_stored; to < (volatile uint8_t *)data_end;)
        *to++ = *from++;
    for (volatile uint8_t *to = bss_start; to < (volatile uint8_t *)bss_end;)
        *to++ = 0;
    processor();
    semihost(SYS_EXIT, (const void *)(intptr_t)(main() == 0 ? ENDED_WELL : ENDED_BADLY));
    for (;;)
        ;
}

/* ---- the floor */

void put(const char *text)
{
    semihost(SYS_WRITE0, text);
}

size_t trace_bytes(uint8_t *to, size_t n)
{
    static intptr_t file = -1;
    if (file < 0) {
        static const char name[] = "target/ports-test/trace.short";
        const uintptr_t words[3] = {(uintptr_t)name, 1 /* read, binary */, sizeof name - 1};
        file = semihost(SYS_OPEN, words);
        if (file < 0)
            return 0;
    }
    const uintptr_t words[3] = {(uintptr_t)file, (uintptr_t)to, n};
    return n - (size_t)semihost(SYS_READ, words); /* answers how many bytes are lacking */
}

/* The stack below the caller is painted, and looked at again: what is no longer paint was touched. */
#define PAINT 0xC5
static uint8_t *caller;

__attribute__((noinline)) void stack_clean(void)
{
    caller = __builtin_dwarf_cfa();
    for (volatile uint8_t *p = stack_low; p < caller - 64; p++)
        *p = PAINT;
}

__attribute__((noinline)) uint32_t stack_touched(void)
{
    const volatile uint8_t *p = stack_low;
    while (p < caller && *p == PAINT)
        p++;
    return (uint32_t)(caller - p);
}

int main(void)
{
#if defined COUNT
    return count();
#elif defined TRACE
    return sample() || replay();
#else
    return sample();
#endif
}
