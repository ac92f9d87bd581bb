/*
 * Counts the instructions of calls on an emulated Cortex-M, and prints a row for each of the table in docs/SPEED.md. The pages are those
 * of `make speed` (pages.S).
 *
 * The emulator is told that an instruction takes 2^SHIFT ns of its own time (-icount), and SysTick counts that time in ticks of TICK_PS
 * picoseconds, less than half an instruction each: so from the ticks between two readings follows the number of instructions between
 * them, exactly. What the readings take themselves is counted at the start and left out. A loop of known length must count as what it is.
 */
#include "osd.h"
#include "print.h"

#define SYST_CSR (*(volatile uint32_t *)0xE000E010)
#define SYST_RVR (*(volatile uint32_t *)0xE000E014)
#define SYST_CVR (*(volatile uint32_t *)0xE000E018)
#define SYST_MASK 0xFFFFFF

#define LINES 2048
#define WIDTH 768

/* As compare/runner/src/bin/pages.rs writes them. */
extern const struct {
    uint8_t font[OSD_FONT_LEN], font_page[OSD_RAM_LEN], user_page[OSD_RAM_LEN], shadowed[OSD_RAM_LEN], stop[OSD_RAM_LEN],
        noise[OSD_RAM_LEN], descriptors[OSD_RAM_LEN], strips[OSD_RAM_LEN], writing[2 * 65], reading[2 * 67],
        passing[3][OSD_RAM_LEN], behind_511[OSD_RAM_LEN], zeros[OSD_RAM_LEN];
} pages;

static uint8_t device[OSD_DEVICE_LEN], feed[OSD_FEED_LEN], ram[OSD_RAM_LEN];
static union {
    uint8_t line[WIDTH];
    uint8_t out[sizeof pages.reading];
    struct {
        uint8_t file[OSD_FONT_FILE_LEN], font[OSD_FONT_LEN];
    } read;
} lent;
static uint32_t refused, overhead;

/* ---- counting */

static uint32_t ticks;

#define BEGIN() (ticks = SYST_CVR)
#define END() counted(SYST_CVR)

/* SysTick counts down. */
static uint32_t counted(uint32_t now)
{
    uint64_t ps = (uint64_t)((ticks - now) & SYST_MASK) * TICK_PS, instruction = 1000ull << SHIFT;
    return (uint32_t)((ps + instruction / 2) / instruction) - overhead;
}

/* Two instructions a turn. */
__attribute__((noinline)) static uint32_t loop(uint32_t turns)
{
    BEGIN();
    __asm__ volatile(".syntax unified\n1: subs %0, #1\nbne 1b" : "+l"(turns) : : "cc");
    return END();
}

static int prepare(void)
{
    SYST_RVR = SYST_MASK;
    SYST_CVR = 0;
    SYST_CSR = 5; /* on, by the processor's clock, no interrupt */
    overhead = loop(1000) - 2000;
    for (uint32_t turns = 1; turns <= 1000000; turns *= 10)
        if (loop(turns) != 2 * turns)
            return 1;
    return 0;
}

/* ---- the device */

static void take(uint32_t answer)
{
    refused += answer >= 0x10000;
}

static void event(uint8_t kind, uint8_t byte)
{
    take(osd_bus(device, sizeof device, ram, sizeof ram, kind, byte));
}

/* A page, and registers 3FF0 to 3FF3 written over the bus, as a host does it. */
static void show(const uint8_t *page, uint8_t ld, uint8_t ch)
{
    const uint8_t bytes[] = {0xBA, 0x3F, 0xF0, ld, 4, ch, 0x80};
    memcpy(ram, page, sizeof ram);
    take(osd_fresh(device, sizeof device));
    event(0, 0);
    for (size_t i = 0; i < sizeof bytes; i++)
        event(1, bytes[i]);
    event(3, 0);
    take(osd_frame_start(device, sizeof device, LINES));
}

/* ---- rows */

static void row(const char *name, const char *more, uint64_t instructions, uint32_t calls)
{
    put("| ");
    put(name);
    put(more);
    put(" | ");
    put_number((instructions + calls / 2) / calls, 10, 1);
    put(" |\n");
}

/* The lines of a frame from one on, up to another. */
static void lines(const char *name, const uint8_t *page, uint8_t ld, uint32_t from, uint32_t to)
{
    uint64_t all = 0;
    show(page, ld, 18);
    for (uint32_t i = 0; i < to; i++) {
        BEGIN();
        uint32_t answer = osd_draw(device, sizeof device, ram, sizeof ram, pages.font, sizeof pages.font, lent.line, sizeof lent.line);
        uint32_t one = END();
        take(answer);
        all += i < from ? 0 : one;
    }
    row(name, "", all, to - from);
}

static void line(const char *name, const uint8_t *page, uint8_t ld)
{
    lines(name, page, ld, 0, LINES);
}

static void bus(const char *name, const uint8_t *events, uint32_t n)
{
    uint64_t all = 0;
    show(pages.stop, 63, 18);
    for (uint32_t i = 0; i < n; i += 2) {
        BEGIN();
        uint32_t answer = osd_bus(device, sizeof device, ram, sizeof ram, events[i], events[i + 1]);
        all += END();
        take(answer);
    }
    row(name, "", all, n / 2);
}

static void fed(const char *name, const uint8_t *events, uint32_t n)
{
    show(pages.stop, 63, 18);
    take(osd_feed_fresh(feed, sizeof feed));
    BEGIN();
    uint32_t answer = osd_feed(device, sizeof device, feed, sizeof feed, ram, sizeof ram, events, n, lent.out, sizeof lent.out);
    row(name, "", END(), n / 2);
    take(answer);
}

static void cells(const char *name, const uint8_t *page, uint8_t ch)
{
    uint64_t all = 0;
    uint32_t worst = 0;
    show(page, 63, ch);
    for (uint32_t cell = 0; cell < OSD_RAM_LEN; cell++) {
        BEGIN();
        uint32_t answer = osd_cell(device, sizeof device, ram, sizeof ram, cell);
        uint32_t one = END();
        take(answer);
        all += one;
        worst = one > worst ? one : worst;
    }
    row(name, ", worst", worst, 1);
    row(name, ", mean", all, OSD_RAM_LEN);
}

static void pixel(const char *name, const uint8_t *page, uint8_t ch, uint32_t x, uint32_t y)
{
    show(page, 63, ch);
    BEGIN();
    uint32_t answer = osd_pixel(device, sizeof device, ram, sizeof ram, pages.font, sizeof pages.font, LINES, 0, x, y);
    row(name, "", END(), 1);
    take(answer);
}

static void font_files(void)
{
    BEGIN();
    uint32_t answer = osd_font_write(pages.font, sizeof pages.font, lent.read.file, sizeof lent.read.file);
    row("a font file, written", "", END(), 1);
    take(answer);
    BEGIN();
    answer = osd_font_read(lent.read.file, sizeof lent.read.file, lent.read.font, sizeof lent.read.font);
    row("a font file, read", "", END(), 1);
    take(answer);
    lent.read.file[sizeof lent.read.file - 1] ^= 1;
    BEGIN();
    answer = osd_font_read(lent.read.file, sizeof lent.read.file, lent.read.font, sizeof lent.read.font);
    row("a font file, refused at block 9", "", END(), 1);
    refused += answer != (16u << 16 | 9);
}

int count(void)
{
    if (prepare()) {
        put("a loop of known length is not counted as what it is\n");
        return 1;
    }
    line("a line of 61 font characters", pages.font_page, 63);
    line("a line of 61 user characters", pages.user_page, 63);
    line("a line of 61 shadowed characters", pages.shadowed, 63);
    line("a line of a stop page, mostly transparent", pages.stop, 63);
    line("a line over noise RAM", pages.noise, 63);
    line("a narrow line, 48 pixels", pages.font_page, 3);
    line("a line that passes over 1 zero spacing", pages.passing[0], 63);
    line("a line that passes over 16 zero spacings", pages.passing[1], 63);
    line("a line that passes over 511 zero spacings", pages.passing[2], 63);
    lines("a line that meets 512 zero spacings", pages.zeros, 63, 0, 1);
    lines("a line of the plain rest", pages.zeros, 63, 1, LINES);
    bus("a bus event, writing", pages.writing, sizeof pages.writing);
    bus("a bus event, reading", pages.reading, sizeof pages.reading);
    fed("a fed event, writing", pages.writing, sizeof pages.writing);
    fed("a fed event, reading", pages.reading, sizeof pages.reading);
    cells("a cell question, CH 1, full page", pages.font_page, 1);
    cells("a cell question, CH 1, stop page", pages.stop, 1);
    cells("a cell question, CH 1, noise", pages.noise, 1);
    cells("a cell question, CH 1, all descriptors", pages.descriptors, 1);
    cells("a cell question, CH 18, full page", pages.font_page, 18);
    cells("a cell question, CH 18, stop page", pages.stop, 18);
    cells("a cell question, CH 18, noise", pages.noise, 18);
    cells("a cell question, CH 18, all descriptors", pages.descriptors, 18);
    cells("a cell question, CH 63, full page", pages.font_page, 63);
    cells("a cell question, CH 63, stop page", pages.stop, 63);
    cells("a cell question, CH 63, noise", pages.noise, 63);
    cells("a cell question, CH 63, all descriptors", pages.descriptors, 63);
    cells("a cell question, zero spacings", pages.zeros, 18);
    cells("a cell question, CH 1, 511 zero spacings and a strip", pages.behind_511, 1);
    pixel("a pixel, first line, first character", pages.font_page, 18, 36, 0);
    pixel("a pixel, CH 18, full page, line 1,000, in the middle", pages.font_page, 18, 384, 1000);
    pixel("a pixel, CH 1, 2,048 strips, last line, last column", pages.strips, 1, 767, 2047);
    pixel("a pixel, CH 1, 511 zero spacings and a strip, last line, last column", pages.behind_511, 1, 767, 2047);
    pixel("a pixel, zero spacings, last line, last column", pages.zeros, 18, 767, 2047);
    font_files();
    if (refused > 0) {
        put("a call was refused\n");
        return 1;
    }
    return 0;
}
