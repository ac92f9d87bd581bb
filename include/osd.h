/*
 * osd.h - a software stand-in for the on-screen display controller STV9425/26.
 *
 * The library (libosd.a) takes a host's two-wire traffic, keeps 1,024 cells of RAM and sixteen registers, reads a lent font, and
 * hands out each scan line's red, green, blue and fast blanking. It also writes and reads fonts as files that can be checked. Every
 * function is proved to end and to stay within the buffers that you lend it, for any bytes in them.
 *
 * It allocates nothing and keeps no state outside these buffers. It needs memset from your C library and nothing else: no division
 * function, even on a processor without division. Where there is no C library, three lines do:
 *
 *     void *memset(void *to, int byte, size_t n) {
 *         for (volatile uint8_t *p = to; n > 0; n--) *p++ = (uint8_t)byte;   // volatile: else a compiler may put in a memset for it
 *         return to; }
 *
 * `make library` makes it for x86-64 (ELF, System V calls; it uses SSE registers), `make ports` for ARM, RISC-V and WebAssembly
 * (docs/PORTS.md). This header is right on all of them: a length is 64 bits wide everywhere, also where size_t is not.
 *
 * Buffers. You own all of them; the library keeps no pointer after a call has returned.
 *
 *     device   OSD_DEVICE_LEN bytes, any alignment: the device's record. Make it with osd_fresh. It may be copied, saved and
 *              restored byte by byte. Bytes that were corrupted are some other device, and cause no fault.
 *     ram      OSD_RAM_LEN bytes; any bytes will do. Changed by osd_bus and osd_feed alone.
 *     font     OSD_FONT_LEN bytes: 128 characters of 18 slices of two bytes. Written by osd_font_read alone.
 *     file     OSD_FONT_FILE_LEN bytes: a font file, that is a font in blocks with checks, so that a bad byte on a card is noticed before
 *              it is drawn (table "Font file" below). Written by osd_font_write alone.
 *     line     at least as many bytes as the line has pixels, 12 * (LD + 1): OSD_LINE_MAX is always enough. One byte a pixel,
 *              OSD_FBLK | OSD_R | OSD_G | OSD_B. Bytes after the line's last pixel stay as they are.
 *     feed     OSD_FEED_LEN bytes: the record of a feed, where bus traffic comes as a logger's capture. Make it with
 *              osd_feed_fresh. Any bytes are some feed.
 *     chunk    up to OSD_CHUNK_MAX bytes of a capture, only read.
 *     out      two bytes for each event that a chunk would complete, whatever their kinds; one byte more than the chunk has is always
 *              enough. It must not lie in the chunk. Later bytes stay.
 *
 * Give each buffer with its true length. A device, RAM, font, font file or feed of any other length is refused, and so is a chunk that
 * is too long and a line or an output that is too short; a length that is larger than the buffer cannot be noticed. A pointer may be NULL
 * where its length is 0. A buffer that a call may write (no const) must overlap no other buffer of that call.
 *
 * Calls on different buffers may run at the same time. While a call runs, nobody else may write its buffers, or read those that it
 * may write: if bus events arrive in an interrupt, keep it out while any call on the same device or RAM runs.
 *
 * Answers. Every function but osd_device_len and osd_feed_len answers one number, refusal * 65,536 + value: OSD_REFUSAL(answer) is 0
 * where the call was accepted, OSD_VALUE(answer) is then its value. With a refusal the value is 0, but 255 where a bus event is not
 * acknowledged (OSD_IDLE, OSD_NOT_ADDRESSED, OSD_READING, OSD_WRITING), with OSD_FEED_SHUT the number of output bytes that a
 * feed wrote before a bad kind, and with OSD_BLOCK_CHECKS and OSD_BLOCK_FORMAT the place of the bad block in its file, 0 to 9. A
 * refused call changes no byte of any buffer, with two exceptions: an unknown slave address (OSD_NOT_ADDRESSED) sets byte 0 of the
 * device's record to 1, deaf until the next start or stop, where a device that is deaf already stays as it is; and a feed that meets a
 * bad kind has taken the events before it, and is shut. Where several refusals fit, the one that is named first at the function is
 * given.
 *
 * Formats. What a host writes over the bus (registers, descriptors, codes, user characters) and the lent font have the formats of
 * the tables below the refusals. They are close to those of the STV9425/26, but not the same: ZY in a descriptor, the low byte of a
 * code, the end of line and the slices of a user character lie elsewhere than its data sheet says, so a page that was made from
 * the data sheet alone is drawn wrongly. docs/DIFFERENCES.md lists every difference.
 *
 * Example: a frame of 288 lines. (examples/door_monitor.c is a whole program.)
 *
 *     static uint8_t device[OSD_DEVICE_LEN], ram[OSD_RAM_LEN], line[OSD_LINE_MAX];
 *     extern const uint8_t font[OSD_FONT_LEN];
 *
 *     osd_fresh(device, sizeof device);
 *     osd_bus(device, sizeof device, ram, sizeof ram, OSD_START, 0);     // the host turns OSD on, with page 0: 80 to register 3FF3
 *     osd_bus(device, sizeof device, ram, sizeof ram, OSD_BYTE, OSD_SLAVE_WRITE);
 *     osd_bus(device, sizeof device, ram, sizeof ram, OSD_BYTE, 0x3F);
 *     osd_bus(device, sizeof device, ram, sizeof ram, OSD_BYTE, 0xF3);
 *     osd_bus(device, sizeof device, ram, sizeof ram, OSD_BYTE, 0x80);
 *     osd_bus(device, sizeof device, ram, sizeof ram, OSD_STOP, 0);      // and likewise the page: descriptors, a closing spacing, codes
 *     osd_frame_start(device, sizeof device, 288);
 *     for (int i = 0; i < 288; i++)
 *         if (OSD_REFUSAL(osd_draw(device, sizeof device, ram, sizeof ram, font, sizeof font, line, sizeof line)) == OSD_ACCEPTED)
 *             show(line);                                                // where OSD_FBLK is set the overlay, else the camera
 *
 * Writing during a frame. A byte stored to a cell that the frame's remaining lines read can show in them. Ask osd_cell about each cell
 * that you will store to: a store to a cell of which it answers 0 changes no remaining line and no other cell's answer, nor does a
 * store to a register that leaves LD, DD, CH, OSD, FBK and FL as they are. A 0 stays 0 over draws, questions and such stores, until the
 * next frame start: ask about all cells of a page first, then write it. To show a new page, write it to cells that the present one does
 * not use and change P, which counts from the next frame start. P stands in register 3FF3 with OSD, FBK and FL: store it with their bits
 * as they are.
 */
#ifndef OSD_H
#define OSD_H

#include <stddef.h>
#include <stdint.h>

#ifdef __cplusplus
extern "C" {
#endif

/* The length of a buffer, in bytes. `sizeof` of the buffer fits on every machine, without a cast. */
typedef uint64_t osd_len;

/* Lengths, in bytes. */
#define OSD_DEVICE_LEN 32
#define OSD_RAM_LEN 1024
#define OSD_FONT_LEN 4608
#define OSD_FONT_FILE_LEN 5120
#define OSD_FONT_BLOCK_LEN 512 /* of a font file */
#define OSD_LINE_MAX 768
#define OSD_FEED_LEN 2
#define OSD_CHUNK_MAX 65534 /* since a value has 16 bits */

/* The most lines that a frame can have. */
#define OSD_FRAME_LINES_MAX 2048

/* A pixel. */
#define OSD_FBLK 8 /* fast blanking: the overlay is shown */
#define OSD_R 4
#define OSD_G 2
#define OSD_B 1

/* Kinds of bus events. */
#define OSD_START 0
#define OSD_BYTE 1  /* a byte from the host */
#define OSD_FETCH 2 /* the host reads a byte */
#define OSD_STOP 3

/* Slave addresses. */
#define OSD_SLAVE_WRITE 0xBA
#define OSD_SLAVE_READ 0xBB

/* The parts of an answer. */
#define OSD_REFUSAL(answer) ((answer) >> 16)
#define OSD_VALUE(answer) ((answer) & 0xFFFF)

/* Refusals. */
#define OSD_ACCEPTED 0
#define OSD_RAM_LENGTH 1     /* ram is not OSD_RAM_LEN bytes */
#define OSD_FONT_LENGTH 2    /* font is not OSD_FONT_LEN bytes (osd_draw, osd_pixel) */
#define OSD_LINE_LENGTH 3    /* line is shorter than the line's pixels */
#define OSD_NO_LINE 4        /* no frame, or all its lines are drawn */
#define OSD_IDLE 5           /* not acknowledged, as the bus is idle: a byte or a fetch */
#define OSD_FRAME_LINES 6    /* lines is 0 or above OSD_FRAME_LINES_MAX */
#define OSD_BENCH_LENGTH 7   /* the bench program's: no function here gives it */
#define OSD_CELL_RANGE 8     /* cell is OSD_RAM_LEN or above */
#define OSD_FEED_SHUT 9      /* the feed is shut already (value 0), or a bad kind shuts it (value: output bytes written) */
#define OSD_OUTPUT_ROOM 10   /* out has less than two bytes for each event that the chunk would complete */
#define OSD_PIXEL_RANGE 11   /* x is at the line's width or beyond, or y at lines or beyond */
#define OSD_NOT_ADDRESSED 12 /* not acknowledged: an unknown slave address, or a byte or a fetch while deaf after one */
#define OSD_READING 13       /* not acknowledged, as the device is read: a byte from the host after OSD_SLAVE_READ */
#define OSD_WRITING 14       /* not acknowledged, as an address or write data is due: a fetch */
#define OSD_FILE_LENGTH 15   /* file is not OSD_FONT_FILE_LEN bytes, or font not OSD_FONT_LEN (osd_font_write, osd_font_read) */
#define OSD_BLOCK_CHECKS 16  /* a block's checks are wrong (value: its place in the file) */
#define OSD_BLOCK_FORMAT 17  /* its checks hold, but its number, used length or padding is wrong for its place (value: that place) */
#define OSD_NOT_TAKEN 255    /* a record's length is wrong, osd_bus's kind is above OSD_STOP, or chunk is too long */

/*
 * Events that are not acknowledged: what to look for with a logic analyser. The value is 255 with each, as with no other refusal of
 * osd_bus, so OSD_REFUSAL(answer) != OSD_ACCEPTED && OSD_VALUE(answer) == 255 asks for any of the four. They are told apart by the
 * event and by what the device waited for before it (in brackets byte 0 of its record before the call: the names here are refusals,
 * and no values of that byte).
 *
 *     refusal                the device waited for              the event        look for
 *      5  OSD_IDLE           a start (0, or above 6)            a byte, a fetch  a start that was lost, a stop too many, a reset
 *     12  OSD_NOT_ADDRESSED  the slave address (2)              another byte     an address other than BA and BB (5D in seven bits);
 *                                                                                a start too many
 *                            a start or stop, as it is deaf (1) a byte, a fetch  the first 12 after the last start
 *     13  OSD_READING        fetches (6)                        a byte           BB where BA was meant; a start that was lost
 *     14  OSD_WRITING        the slave address, the high or low a fetch          BA where BB was meant; a start lost before BB, which
 *                            byte, or data (2, 3, 4, 5)                          was then taken for one of these; a fetch too early
 *
 * A start and a stop are acknowledged in every state. What osd_feed writes does not tell the four apart: play the events by osd_bus to
 * learn the number.
 */

/*
 * Formats. Bus addresses, and bytes in the columns kept, reset and high, are hexadecimal; all other numbers are decimal. Bit 7 is the
 * highest bit of a byte; a - is a bit that is not kept.
 *
 * Bus. To write: a start, OSD_SLAVE_WRITE, the high byte of the internal address (its two upper bits do not count), the low byte,
 * data bytes, a stop. To read: the same up to the low byte, a start, OSD_SLAVE_READ, fetches, a stop. Each data byte and each fetch
 * moves the address counter up by 1, after 3FFF to 0000. 0000 to 03FF is RAM, 3FF0 to 3FFF are registers; elsewhere a store is
 * acknowledged and dropped, and a fetch reads 0.
 *
 * Registers. Bits that are not kept read 0 (bytes of a record that were corrupted read as they are, until they are stored).
 *
 *     address      kept  reset  bits from 7 down              meaning
 *     3FF0         FF    3F     VSP, HSP, LD[5:0]             a line has W = 12 * (LD + 1) pixels; VSP and HSP are stored only
 *     3FF1         FF    08     DD[7:0]                       characters start at pixel 3 * (DD + 8); DD below 4 counts as 4
 *     3FF2         3F    12     -, -, CH[5:0]                 height of a strip of characters; 0 counts as 1
 *     3FF3         F7    00     OSD, FBK, FL[1:0], -, P[8:6]  display on; FBLK of plain pixels; flashing mode; page
 *     3FF4         F7    22     FR, AS[2:0], -, BS[2:0]       stored only
 *     3FF5         77    33     -, AF[2:0], -, BF[2:0]        stored only
 *     3FF6         FF    28     PP[7:0]                       stored only
 *     3FF7         0F    0A     -, -, -, -, FM[3:0]           stored only
 *     3FF8 - 3FFF  FF    00     PWM, eight of them            stored only
 *
 * A frame start takes P; a strip of characters takes CH at its first line; all else counts from the next line drawn.
 *
 * Descriptors. Two bytes at an even address, low byte first. A frame's first lies at cell 64 * P, each next one 2 cells on, after
 * cell 1022 at cell 0. One is read at the first line of its strip.
 *
 *     spacing      low:   SL, the lines of the strip; with SL 0 it is passed over, and the next is read at once, at the same line
 *                  high:  bit 7 is 0; the others do not count
 *     characters   low:   bits 7 to 0 of the code address; bit 0 counts as 0
 *                  high:  bit 7 is 1; bit 6 DE; bit 5 ZY; bits 4 to 2 do not count; bits 1, 0: bits 9, 8 of the code address
 *
 * If 512 descriptors in a row, read at one line, are passed over (a whole round of RAM), that line and the rest of the frame are plain, 0
 * with OSD 0, and nothing more is read, whatever is written meanwhile, until the next accepted frame start or a reset; LD, OSD and FBK
 * still count from line to line. So a page must close with spacing that lasts to the frame's end, several of up to 255 lines if need
 * be: behind the last strip of a page that does not, zeros are passed over, and the frame goes on in whatever lies behind them. A RAM
 * of zeros is plain; its first line reads all 1,024 cells.
 *
 * A strip of characters has CH lines, with ZY (zoom) twice as many. With DE 0 its lines are plain, and no code is read. Line j of
 * the strip, counted from 1, shows slice (36 * n + CH) / (2 * CH), rounded down, where n is j, or with ZY (j + 1) / 2 rounded down.
 * Where that is 0 (n is 1 and CH is 37 or more) it shows slice 1, so the slice is 1 to 18.
 *
 * Codes. Two bytes at an even address, low byte first; the next lies 2 cells on, after cell 1022 at cell 0. Every line of a strip
 * reads codes from the code address on, up to the end of line, while the next character's first pixel is below W. A character has 12
 * pixels; the last one of a line is cut at W.
 *
 *     low:   bit 7 FL, the character flashes; bits 6, 5, 4 RF, GF, BF, its foreground; bits 3 to 0 BK[3:0], its background
 *     high:  bit 7 SET; bits 6 to 0 the number:
 *
 *     SET  number    high     shows
 *     0    0 - 127   00 - 7F  a character of the font
 *     1    0 - 25    80 - 99  a user character
 *     1    26 - 126  9A - FE  all background; no slice is read
 *     1    127       FF       the end of line: plain from here on, whatever the low byte is
 *
 * Slices. Two bytes, a bit for each of twelve pixels, 1 foreground and 0 background: first PX7 to PX0, then PX11 to PX8 in bits 3 to
 * 0 (the upper four do not count). PX11 is leftmost.
 *
 *     user character k, 0 to 25   38 bytes at cell 38 * k, so cells 0 to 987; slice s, 1 to 18, at cell 38 * k + 2 * s; the first two
 *                                 bytes are never read as a slice: osd_cell says no for them, unless lines of the frame that are
 *                                 still to come read them as descriptors or codes
 *     font character k, 0 to 127  36 bytes at byte 36 * k; slice s, 1 to 18, at byte 36 * k + 2 * (s - 1)
 *
 * Pixels. One byte, 8 * FBLK + 4 * R + 2 * G + B.
 *
 *     with OSD 0                             0, on the whole line; descriptors are still read, codes and slices are not
 *     plain                                  8 * FBK
 *     foreground                             8 + 4 * RF + 2 * GF + BF
 *     background, BK3 0                      8 + BK[2:0]: BK2 red, BK1 green, BK0 blue
 *     background, BK3 1, BK1 0: transparent  plain, so black with FBLK 1 where FBK is 1
 *     background, BK3 1, BK1 1: shadow       8 where the pixel to its left is foreground, else plain
 *
 * With BK3 1, BK2 and BK0 do not count. Plain are spacing strips, strips with DE 0, the rest of a frame behind 512 descriptors that were
 * passed over, the pixels before the first character and those from the end of line on. In its hidden time a flashing character draws
 * foreground as background and casts no shadow; its slice is read all the same. By the frame number f, 0 to 63, mode FL of register
 * 3FF3 shows it: 0 always, 1 with f below 32, 2 with f below 16, 3 with f below 48.
 *
 * To the left of a character's leftmost column stands the last column of the character just to its left, whatever that one's
 * background, so that the shadow of a logo crosses the seams between its characters. To the left of the first character stands nothing.
 * A hidden character, or one of 26 to 126, gives no shadow; with BK3 1 and BK1 1 it takes one, and so does a cut character.
 *
 * Font file. Ten blocks of 512 bytes, one after the other, with the font's bytes in their order, 504 (14 characters) a block and the last
 * 72 (two characters) in block 9. Numbers of two bytes have their low byte first.
 *
 *     byte of a block  blocks 0 to 8       block 9
 *     0, 1             the block's number  9
 *     2, 3             used length: 504    72
 *     4 - 507          504 bytes of font   72 bytes of font (4 - 75), then unused bytes, all 0 (76 - 507)
 *     508, 509         check: the sum of bytes 0 to 507, modulo 65,536
 *     510, 511         check: the sum of each of bytes 0 to 507 times its position counted from 1, so byte 0 times 1 and byte 507
 *                      times 508, modulo 65,536
 *
 * Example, bytes in hexadecimal: where characters 42 to 55 of a font (bytes 1,512 to 2,015) are all 0, block 3 begins 03 00 F8 01 and
 * ends with the checks FC 00 EF 02 (252 and 751).
 */

/*
 * The device's record. Numbers of two bytes have their low byte first.
 *
 *     0       bus state: 0 idle, 1 deaf, 2 slave address next, 3 high byte next, 4 low byte next, 5 writing, 6 reading
 *     1       the high byte that state 4 holds, else 0
 *     2, 3    address counter
 *     4 - 19  registers 3FF0 to 3FFF
 *     20      next frame number
 *     21      frame number
 *     22, 23  lines of the frame left; 0: no frame, or all its lines drawn
 *     24, 25  address of the next descriptor
 *     26      strip on screen: bit 0 characters (else spacing), bit 1 ZY, bit 2 DE; bit 3: 512 descriptors in a row were passed over,
 *             no more are read, and the rest of the frame is plain (where the strip has a line left this bit is not read, and the
 *             strip's next line clears it)
 *     27      characters: height (CH as taken); spacing: lines left
 *     28, 29  characters: code address; spacing: 0
 *     30, 31  characters: scan line of the strip, from 1; spacing: 0
 *
 * Any bytes are some record: another bus state is idle; byte 1 is read in state 4 only, of byte 26 only bits 0 to 3, and bytes 28
 * to 31 (like bits 1 and 2 of byte 26) for characters only. Of any record an acknowledged bus event writes bytes 0 and 1 anew, the
 * counter where it is set or goes up (it counts modulo 4000 hexadecimal), and a register that is stored, in its own byte; an unknown
 * slave address writes byte 0 alone, and no other refused event writes any.
 *
 * A feed's record.
 *
 *     0       0 open, nothing held; 1 half an event is held; 2 shut
 *     1       the kind that state 1 holds, else 0
 *
 * Any bytes are some record: another state is shut; byte 1 is read in state 1 only.
 */

/* The record's length in the linked library. Compare it with OSD_DEVICE_LEN at start-up to find a header of another version. */
uint32_t osd_device_len(void);

/*
 * Makes a fresh device, whatever the bytes were. A new part's RAM is all zero: clear yours if you want that.
 * Refusal: OSD_NOT_TAKEN. Value 0.
 */
uint32_t osd_fresh(uint8_t *device, osd_len device_len);

/*
 * As osd_fresh: registers to their reset values, bus idle, counter 0, no frame, next frame number 0. The RAM stays.
 * Refusal: OSD_NOT_TAKEN. Value 0.
 */
uint32_t osd_reset(uint8_t *device, osd_len device_len);

/*
 * One event on the two-wire bus. `byte` is ignored unless kind is OSD_BYTE.
 * Refusals: OSD_NOT_TAKEN, OSD_RAM_LENGTH; then OSD_IDLE, OSD_NOT_ADDRESSED, OSD_READING or OSD_WRITING, of which never two fit.
 * Value: the byte that a fetch reads; 0 with other events, 255 where the event is not acknowledged.
 */
uint32_t osd_bus(uint8_t *device, osd_len device_len, uint8_t *ram, osd_len ram_len, uint8_t kind, uint8_t byte);

/* The length of a feed's record in the linked library, to be compared with OSD_FEED_LEN. */
uint32_t osd_feed_len(void);

/*
 * Makes a feed anew: open, with nothing held, whatever the bytes were.
 * Refusal: OSD_NOT_TAKEN. Value 0.
 */
uint32_t osd_feed_fresh(uint8_t *feed, osd_len feed_len);

/*
 * Feeds what has arrived of a logger's capture: two bytes an event, its kind (OSD_START to OSD_STOP) and a byte, ignored unless the
 * kind is OSD_BYTE. A chunk may end within an event, or be empty; the half is held for the next chunk. Each event that is complete does
 * what osd_bus does, and writes two bytes to `out`: 1 if it was acknowledged, else 0, and then osd_bus's value. However a capture is
 * cut, the outputs joined, the records and the RAM are the same, as long as no chunk is refused with OSD_NOT_TAKEN, OSD_RAM_LENGTH or
 * OSD_OUTPUT_ROOM; such a chunk is not taken, and may be fed again.
 * A kind above OSD_STOP is noticed when its event is complete: the answer is OSD_FEED_SHUT, the events before it stand and the value
 * counts their output, the rest of the chunk is dropped, and the feed is shut until osd_feed_fresh; the chunk after that begins with
 * an event's kind.
 * Use it to play a capture; where a live host waits for each answer, call osd_bus once an event.
 * Refusals: OSD_NOT_TAKEN, OSD_RAM_LENGTH, OSD_FEED_SHUT (already shut), OSD_OUTPUT_ROOM, OSD_FEED_SHUT (a bad kind). Value: how many
 * output bytes this chunk wrote.
 */
uint32_t osd_feed(uint8_t *device, osd_len device_len, uint8_t *feed, osd_len feed_len, uint8_t *ram, osd_len ram_len,
                  const uint8_t *chunk, osd_len chunk_len, uint8_t *out, osd_len out_len);

/*
 * Starts a frame of 1 to 2,048 lines, with the page that P names now and the next frame number (0 to 63 and round again; flashing
 * goes by it). A frame that still runs is abandoned. A refused start uses up no number.
 * Refusals: OSD_NOT_TAKEN, OSD_FRAME_LINES. Value 0.
 */
uint32_t osd_frame_start(uint8_t *device, osd_len device_len, uint32_t lines);

/*
 * Draws the frame's next line into `line`.
 * Refusals: OSD_NOT_TAKEN, OSD_RAM_LENGTH, OSD_FONT_LENGTH, OSD_NO_LINE, OSD_LINE_LENGTH. Value: how many RAM cells the line read, 1,268
 * at the most.
 */
uint32_t osd_draw(uint8_t *device, osd_len device_len, const uint8_t *ram, osd_len ram_len, const uint8_t *font, osd_len font_len,
                  uint8_t *line, osd_len line_len);

/*
 * Do the frame's remaining lines read this cell, with RAM and registers as they stand?
 * Refusals: OSD_NOT_TAKEN, OSD_RAM_LENGTH, OSD_CELL_RANGE. Value: 1 yes, 0 no (and without a running frame). A refused question has
 * value 0 too, and is no answer: a cell is free where osd_cell(..) == 0.
 */
uint32_t osd_cell(const uint8_t *device, osd_len device_len, const uint8_t *ram, osd_len ram_len, uint32_t cell);

/*
 * The pixel at column x of line y, both counted from 0, of a frame of 1 to 2,048 lines that starts with the page that P names now, has this
 * frame number (any number; it is taken modulo 64, and flashing goes by it) and is drawn with RAM, registers and font as they stand. Of the
 * record only the registers are looked at, so it matters neither whether a frame runs nor which, and no byte of any buffer changes.
 * It is the byte that osd_draw writes at line[x] for line y (the draw after y accepted ones) of a frame whose osd_frame_start took that
 * number, if RAM, registers and font stay as they are from that start on.
 * Use it at the bench, to hold single pixels against a recording. Each call walks from the frame's first descriptor and through the row,
 * so a line is drawn much faster by osd_draw.
 * Refusals: OSD_NOT_TAKEN, OSD_RAM_LENGTH, OSD_FONT_LENGTH, OSD_FRAME_LINES, OSD_PIXEL_RANGE. Value: the pixel, as osd_draw writes it.
 */
uint32_t osd_pixel(const uint8_t *device, osd_len device_len, const uint8_t *ram, osd_len ram_len, const uint8_t *font, osd_len font_len,
                   uint32_t lines, uint32_t frame, uint32_t x, uint32_t y);

/*
 * Writes `font` as a font file: all OSD_FONT_FILE_LEN bytes of `file`. Use it where fonts are made or saved.
 * Refusal: OSD_FILE_LENGTH. Value 0.
 */
uint32_t osd_font_write(const uint8_t *font, osd_len font_len, uint8_t *file, osd_len file_len);

/*
 * Reads a font file into `font`. Use it at start-up, or between frames, for a font that comes from a card. The blocks are tested in
 * turn, each for OSD_BLOCK_CHECKS and then for OSD_BLOCK_FORMAT, all of them before the first byte of `font` is written: a bad file
 * leaves it as it is.
 * A font that is written and read back is the same font, and a file that is accepted is, byte for byte, the one that osd_font_write gives
 * for the font read from it. A file from osd_font_write with any one byte changed is refused with OSD_BLOCK_CHECKS and that byte's block. So
 * is one with two unequal neighbouring bytes of font or padding (bytes 4 to 507 of a block) exchanged, also byte 507 of a block with byte 4
 * of the next; the first of the two blocks is named. Damage that goes further can by chance meet the checks again.
 * Do not read into the font that a running frame is drawn with, not even between two draws: the lines before and after would show letters
 * of two fonts.
 * Refusals: OSD_FILE_LENGTH; then, of the first bad block, OSD_BLOCK_CHECKS or OSD_BLOCK_FORMAT, with its place in the file, 0 to 9, as the
 * value. Value where it is accepted: 0.
 */
uint32_t osd_font_read(const uint8_t *file, osd_len file_len, uint8_t *font, osd_len font_len);

#ifdef __cplusplus
}
#endif

#endif
