/*
 * Firmware in small: the font comes from a card, as a font file. A host sends a page over the two-wire bus and the monitor shows it; its
 * settings come from a logger's capture, and each line of the second frame is held against the pixels asked for, as at the bench.
 * During the first frame the host writes a second page to cells that the frame does not read, and changes to it; the frame goes on as it was,
 * and the next one shows the new page. Then the host is out of step in each way that has a number, and the refusal says what to look for.
 * At the end the card is bad in each way that has a number.
 *
 *     cc -Iinclude examples/door_monitor.c target/staticlib/libosd.a
 */
#include "osd.h"

#include <stdio.h>
#include <string.h>

/* LD 6 */
#define WIDTH (12 * (6 + 1))
#define LINES 20

static uint8_t device[OSD_DEVICE_LEN];
static uint8_t ram[OSD_RAM_LEN];
static uint8_t font[OSD_FONT_LEN];
static uint8_t line[OSD_LINE_MAX];
static uint8_t file[OSD_FONT_FILE_LEN]; /* stands for the card */

static uint32_t event(uint8_t kind, uint8_t byte)
{
    return osd_bus(device, sizeof device, ram, sizeof ram, kind, byte);
}

/* A transfer to consecutive addresses, as the host's driver makes it. Answers how many events were refused. */
static int host_writes(uint16_t address, const uint8_t *bytes, size_t n)
{
    int refused = 0;
    refused += OSD_REFUSAL(event(OSD_START, 0)) != OSD_ACCEPTED;
    refused += OSD_REFUSAL(event(OSD_BYTE, OSD_SLAVE_WRITE)) != OSD_ACCEPTED;
    refused += OSD_REFUSAL(event(OSD_BYTE, (uint8_t)(address >> 8))) != OSD_ACCEPTED;
    refused += OSD_REFUSAL(event(OSD_BYTE, (uint8_t)address)) != OSD_ACCEPTED;
    for (size_t i = 0; i < n; i++)
        refused += OSD_REFUSAL(event(OSD_BYTE, bytes[i])) != OSD_ACCEPTED;
    refused += OSD_REFUSAL(event(OSD_STOP, 0)) != OSD_ACCEPTED;
    return refused;
}

/*
 * Such a transfer as a logger's capture, two bytes an event, in two chunks; the first has `cut` bytes and may end within an event. Answers
 * how many chunks and events were refused.
 */
static int capture_fed(const uint8_t *capture, size_t n, size_t cut)
{
    const size_t ends[] = {0, cut, n};
    uint8_t feed[OSD_FEED_LEN], out[64];
    int refused = OSD_REFUSAL(osd_feed_fresh(feed, sizeof feed)) != OSD_ACCEPTED;
    for (int c = 0; c < 2; c++) {
        uint32_t answer = osd_feed(device, sizeof device, feed, sizeof feed, ram, sizeof ram, capture + ends[c], ends[c + 1] - ends[c], out, sizeof out);
        refused += OSD_REFUSAL(answer) != OSD_ACCEPTED;
        for (size_t i = 0; i < OSD_VALUE(answer); i += 2)
            refused += out[i] != 1;
    }
    return refused;
}

/* Puts a letter into the lent font, slices 5 to 14. */
static void letter(int number, const uint16_t *slices)
{
    for (int s = 0; s < 10; s++) {
        font[36 * number + 2 * (s + 4)] = (uint8_t)slices[s];
        font[36 * number + 2 * (s + 4) + 1] = (uint8_t)(slices[s] >> 8);
    }
}

static void show(const char *what, uint32_t answer)
{
    printf("%s: refusal %u, value %u\n", what, (unsigned)OSD_REFUSAL(answer), (unsigned)OSD_VALUE(answer));
}

/* What is wrong with a font file. */
static const char *wrong_with(uint32_t answer)
{
    switch (OSD_REFUSAL(answer)) {
    case OSD_ACCEPTED:
        return "nothing";
    case OSD_FILE_LENGTH:
        return "its length";
    case OSD_BLOCK_CHECKS:
        return "a byte";
    case OSD_BLOCK_FORMAT:
        return "a block that is no block of this place";
    default:
        return "something else";
    }
}

/* Answers whether the font was read; a font buffer that was not is as it was. */
static int read_card(const char *what, size_t n)
{
    uint32_t answer = osd_font_read(file, n, font, sizeof font);
    printf("%s: refusal %u, value %u: wrong is %s\n", what, (unsigned)OSD_REFUSAL(answer), (unsigned)OSD_VALUE(answer), wrong_with(answer));
    return OSD_REFUSAL(answer) == OSD_ACCEPTED;
}

/* What a fitter should look for when an event is not acknowledged. */
static const char *look_for(uint32_t answer)
{
    switch (OSD_REFUSAL(answer)) {
    case OSD_IDLE:
        return "a start that was lost";
    case OSD_NOT_ADDRESSED:
        return "a slave address other than BA and BB";
    case OSD_READING:
        return "BB where BA was meant, or a start that was lost";
    case OSD_WRITING:
        return "BA where BB was meant, or a start that was lost before BB";
    default:
        return "another cause";
    }
}

static void not_heard(const char *what, uint32_t answer)
{
    printf("%s: refusal %u, value %u: look for %s\n", what, (unsigned)OSD_REFUSAL(answer), (unsigned)OSD_VALUE(answer), look_for(answer));
}

/* The next line, a character of text for each pixel: foreground, background, or the camera. */
static void draw(void)
{
    uint32_t answer = osd_draw(device, sizeof device, ram, sizeof ram, font, sizeof font, line, sizeof line);
    if (OSD_REFUSAL(answer) != OSD_ACCEPTED) {
        show("draw", answer);
        return;
    }
    for (int x = 0; x < WIDTH; x++)
        putchar(line[x] & OSD_FBLK ? (line[x] & OSD_R ? '#' : '-') : '.');
    printf(" %u\n", (unsigned)OSD_VALUE(answer));
}

/* How many of these cells do the frame's remaining lines read? A refused question is no answer: the cell is not free. */
static unsigned still_read(uint32_t first, size_t n)
{
    unsigned read = 0;
    for (uint32_t cell = first; cell < first + n; cell++)
        read += osd_cell(device, sizeof device, ram, sizeof ram, cell) != 0;
    return read;
}

/* The bench: is the line that was drawn, line y of a frame with this number, what osd_pixel says? */
static int as_asked(uint32_t number, uint32_t y)
{
    for (uint32_t x = 0; x < WIDTH; x++)
        if (osd_pixel(device, sizeof device, ram, sizeof ram, font, sizeof font, LINES, number, x, y) != line[x])
            return 0;
    return 1;
}

int main(void)
{
    static const uint16_t o[10] = {0x0F0, 0x198, 0x30C, 0x30C, 0x30C, 0x30C, 0x30C, 0x30C, 0x198, 0x0F0};
    static const uint16_t k[10] = {0x30C, 0x318, 0x330, 0x360, 0x3C0, 0x3C0, 0x360, 0x330, 0x318, 0x30C};
    /* from register 3FF0 on: LD, DD 4 (characters from pixel 36), CH 18, OSD on with page 0 */
    static const uint8_t settings[] = {OSD_START, 0, OSD_BYTE, OSD_SLAVE_WRITE, OSD_BYTE, 0x3F, OSD_BYTE, 0xF0,
                                       OSD_BYTE, 6, OSD_BYTE, 4, OSD_BYTE, 18, OSD_BYTE, 0x80, OSD_STOP, 0};
    /*
     * Page 0, at cell 0: a spacing line, then a row of characters at cell 512: O and K in white on blue, and the end of the line. A
     * spacing to the frame's end closes it, lest the frame go on into whatever the RAM has behind it.
     */
    static const uint8_t page_0[] = {1, 0x00, 0x00, 0xC2, 255, 0x00};
    static const uint8_t text_0[] = {0x71, 'O', 0x71, 'K', 0x00, 0xFF};
    /* page 1, at cell 64: the same with the row at cell 600, K and O */
    static const uint8_t page_1[] = {1, 0x00, 0x58, 0xC2, 255, 0x00};
    static const uint8_t text_1[] = {0x71, 'K', 0x71, 'O', 0x00, 0xFF};
    /* P 1, with OSD, FBK and FL as they are */
    static const uint8_t to_page_1[] = {0x81};
    int refused = 0;

    if (osd_device_len() != OSD_DEVICE_LEN || osd_feed_len() != OSD_FEED_LEN)
        return 1;
    letter('O', o);
    letter('K', k);
    show("a font file for the card", osd_font_write(font, sizeof font, file, sizeof file));
    memset(font, 0, sizeof font);
    if (!read_card("the card", sizeof file))
        return 1;
    show("fresh", osd_fresh(device, sizeof device));
    refused += capture_fed(settings, sizeof settings, 7);
    refused += host_writes(0, page_0, sizeof page_0);
    refused += host_writes(512, text_0, sizeof text_0);
    printf("events refused: %d\n", refused);

    show("frame start", osd_frame_start(device, sizeof device, LINES));
    for (int i = 0; i < LINES / 2; i++)
        draw();
    printf("cells still read of the old text: %u\n", still_read(512, sizeof text_0));
    unsigned read = still_read(600, sizeof text_1) + still_read(64, sizeof page_1);
    printf("cells still read of the new page: %u\n", read);
    if (read != 0)
        return 1;
    refused += host_writes(600, text_1, sizeof text_1);
    refused += host_writes(64, page_1, sizeof page_1);
    refused += host_writes(0x3FF3, to_page_1, sizeof to_page_1);
    printf("events refused: %d\n", refused);
    for (int i = LINES / 2; i < LINES + 1; i++) /* one more than the frame has: refused */
        draw();

    show("frame start", osd_frame_start(device, sizeof device, LINES));
    for (int i = 0; i < LINES; i++) {
        draw();
        if (!as_asked(1, (uint32_t)i)) /* the second frame has number 1 */
            return 1;
    }

    not_heard("a byte while idle", event(OSD_BYTE, 0x00));
    not_heard("a fetch while idle", event(OSD_FETCH, 0));
    event(OSD_START, 0);
    not_heard("a fetch before the slave address", event(OSD_FETCH, 0));
    not_heard("an unknown slave address", event(OSD_BYTE, 0x42));
    not_heard("a byte to a deaf device", event(OSD_BYTE, OSD_SLAVE_WRITE));
    not_heard("a fetch from a deaf device", event(OSD_FETCH, 0));
    event(OSD_START, 0);
    event(OSD_BYTE, OSD_SLAVE_READ);
    not_heard("a byte while reading", event(OSD_BYTE, 0x00));
    event(OSD_START, 0);
    event(OSD_BYTE, OSD_SLAVE_WRITE);
    not_heard("a fetch before the internal address", event(OSD_FETCH, 0));
    event(OSD_BYTE, 0x02);
    event(OSD_BYTE, 0x10);
    event(OSD_BYTE, OSD_SLAVE_READ); /* with no start before it: a byte of data, to cell 0210 */
    not_heard("a fetch after a start was lost", event(OSD_FETCH, 0));
    event(OSD_STOP, 0);
    show("a record of another length", osd_reset(device, sizeof device - 1));

    enum { BLOCK = OSD_FONT_BLOCK_LEN };
    uint8_t first[BLOCK];
    read_card("a card that was cut short", sizeof file - 1);
    file[6 * BLOCK + 100] ^= 0x10;
    read_card("a flipped bit", sizeof file);
    file[6 * BLOCK + 100] ^= 0x10;
    memcpy(first, file, BLOCK);
    memcpy(file, file + BLOCK, BLOCK);
    memcpy(file + BLOCK, first, BLOCK);
    read_card("two blocks exchanged", sizeof file);
    return 0;
}
