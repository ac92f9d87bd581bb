/*
 * Draws the sample page, the demo's font and bus traffic (crates/demo/stdin), as one frame, asks about every cell in the middle of it
 * and for one pixel of each line, and prints the digest of all lines and answers. The font comes by way of a font file.
 * compare/runner/src/sample.rs has the same of the independent implementation.
 */
#include "osd.h"
#include "print.h"

#define LINES 216
#define WIDTH 384
#define STEP 53 /* columns from the pixel asked for to that of the next line */

/* page.S; like the buffers it lies at no even address */
extern const uint8_t sample_page[], sample_page_end[];

static _Alignas(4) struct {
    uint8_t odd, device[OSD_DEVICE_LEN], ram[OSD_RAM_LEN], line[WIDTH], font[OSD_FONT_LEN], file[OSD_FONT_FILE_LEN];
} lent;
static uint32_t digest = 0xFFFFFFFF, deepest;

/* CRC-32, as zip and Ethernet have it. */
static void add(const uint8_t *bytes, size_t n)
{
    for (size_t i = 0; i < n; i++) {
        digest ^= bytes[i];
        for (int bit = 0; bit < 8; bit++)
            digest = digest >> 1 ^ (digest & 1 ? 0xEDB88320 : 0);
    }
}

/* Behind each call: the stack that it touched. */
static uint32_t measured(uint32_t answer)
{
    uint32_t touched = stack_touched();
    deepest = touched > deepest ? touched : deepest;
    return answer;
}

static void add_answer(uint32_t answer)
{
    uint8_t bytes[4] = {(uint8_t)answer, (uint8_t)(answer >> 8), (uint8_t)(answer >> 16), (uint8_t)(answer >> 24)};
    measured(answer);
    add(bytes, sizeof bytes);
}

int sample(void)
{
    const uint8_t *event = sample_page + OSD_FONT_LEN;
    stack_clean();
    int refused = measured(osd_font_write(sample_page, OSD_FONT_LEN, lent.file, sizeof lent.file)) != 0;
    stack_clean();
    refused += measured(osd_font_read(lent.file, sizeof lent.file, lent.font, sizeof lent.font)) != 0;
    refused += osd_fresh(lent.device, sizeof lent.device) != 0;
    for (; event + 1 < sample_page_end; event += 2)
        refused += osd_bus(lent.device, sizeof lent.device, lent.ram, sizeof lent.ram, event[0], event[1]) != 0;
    refused += osd_frame_start(lent.device, sizeof lent.device, LINES) != 0;
    for (int drawn = 0; drawn < LINES; drawn++) {
        for (uint32_t cell = 0; drawn == LINES / 2 && cell < OSD_RAM_LEN; cell++) {
            stack_clean();
            add_answer(osd_cell(lent.device, sizeof lent.device, lent.ram, sizeof lent.ram, cell));
        }
        stack_clean();
        add_answer(osd_draw(lent.device, sizeof lent.device, lent.ram, sizeof lent.ram, lent.font, sizeof lent.font, lent.line,
                            sizeof lent.line));
        add(lent.line, sizeof lent.line);
        stack_clean();
        add_answer(osd_pixel(lent.device, sizeof lent.device, lent.ram, sizeof lent.ram, lent.font, sizeof lent.font, LINES, 0,
                             (uint32_t)drawn * STEP % WIDTH, (uint32_t)drawn));
    }
    if (refused > 0) {
        put("a call for the sample page was refused\n");
        return 1;
    }
    put("sample page: digest ");
    put_number(~digest, 16, 8);
    put("\n");
    if (deepest > 0) {
        put("deepest stack of a call: ");
        put_number(deepest, 10, 1);
        put("\n");
    }
    return 0;
}
