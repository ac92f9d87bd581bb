/*
 * Makes the calls of a trace on the linked library, and compares every answer and every byte of every buffer that a call was lent,
 * with the bytes around it, with what the independent implementation answered and left. compare/runner/src/recorder.rs wrote the
 * trace and says what it holds. The buffers lie at all alignments, one after the other.
 */
#include "osd.h"
#include "print.h"

#define GUARD 24
#define SLOTS 13
#define ROOM 49152
#define FUNCTIONS 13
#define ARGUMENTS 7

/* The functions and their arguments, as the trace must have them. */
static const char *const functions[FUNCTIONS][2] = {
    {"osd_device_len", ""}, {"osd_fresh", "w"},     {"osd_reset", "w"}, {"osd_bus", "wwbb"},
    {"osd_frame_start", "wn"}, {"osd_draw", "wrrw"}, {"osd_cell", "rrn"},
    {"osd_feed_len", ""}, {"osd_feed_fresh", "w"}, {"osd_feed", "wwwrw"},
    {"osd_pixel", "rrrnnnn"}, {"osd_font_write", "rw"}, {"osd_font_read", "rw"},
};

/* A slot: bytes between guards, and what they must be. */
static struct slot {
    uint8_t *start;
    uint8_t *expected_start;
    uint32_t room;
    uint32_t before; /* the guard's length */
    uint32_t len;
} slots[SLOTS];

static _Alignas(8) uint8_t lent[ROOM], expected[ROOM];
static uint64_t seed;
static uint32_t calls;

/* ---- the trace */

static uint8_t block[4096];
static size_t block_at, block_len;
static int ended;

static uint8_t byte(void)
{
    if (block_at == block_len) {
        block_len = trace_bytes(block, sizeof block);
        block_at = 0;
        if (block_len == 0) {
            ended = 1;
            return 0;
        }
    }
    return block[block_at++];
}

static uint64_t number(int bytes)
{
    uint64_t n = 0;
    for (int i = 0; i < bytes; i++)
        n |= (uint64_t)byte() << (8 * i);
    return n;
}

static int says(const char *text, size_t n)
{
    int same = 1;
    for (size_t i = 0; i < n; i++)
        same &= byte() == (uint8_t)text[i];
    return same;
}

/* ---- what differs */

static int differs(const char *what)
{
    put("session ");
    put_number(seed, 10, 1);
    put(" call ");
    put_number(calls, 10, 1);
    put(": ");
    put(what);
    put("\n");
    return 1;
}

/* ---- buffers */

static uint8_t *bytes_of(const struct slot *slot)
{
    return slot->start + slot->before;
}

/* Random numbers (splitmix64), as compare/runner/src/random.rs has them. */
static uint8_t random_byte(uint64_t *state)
{
    *state += 0x9E3779B97F4A7C15;
    uint64_t z = *state;
    z = (z ^ (z >> 30)) * 0xBF58476D1CE4E5B9;
    z = (z ^ (z >> 27)) * 0x94D049BB133111EB;
    return (uint8_t)(z ^ (z >> 31));
}

static int lend(int random)
{
    static uint32_t times;
    uint8_t which = byte();
    uint32_t len = (uint32_t)number(4);
    uint64_t state = random ? number(8) : 0;
    if (which >= SLOTS || len > slots[which].room)
        return differs("the trace lends more than a slot holds");
    struct slot *slot = &slots[which];
    times++;
    slot->before = GUARD + times % 8;
    slot->len = len;
    memset(slot->start, (int)(times * 5 % 251), slot->before + len + GUARD);
    for (uint32_t i = 0; i < len; i++)
        bytes_of(slot)[i] = random ? random_byte(&state) : byte();
    memcpy(slot->expected_start, slot->start, slot->before + len + GUARD);
    return 0;
}

/* The bytes and the guards on both sides. */
static int as_expected(const struct slot *slot)
{
    return memcmp(slot->start, slot->expected_start, slot->before + slot->len + GUARD) == 0;
}

/* What a call on a made-up record left is taken as it is; the guards are not. */
static void take(const struct slot *slot)
{
    memcpy(slot->expected_start + slot->before, bytes_of(slot), slot->len);
}

/* ---- calls */

struct call {
    uint8_t function;
    struct slot *buffers[ARGUMENTS];
    uint8_t *at[ARGUMENTS]; /* NULL where a buffer has no byte */
    uint32_t numbers[ARGUMENTS];
};

static uint32_t make(const struct call *call)
{
    uint8_t *const *at = call->at;
    const uint32_t *numbers = call->numbers;
    osd_len len[ARGUMENTS] = {0};
    for (int i = 0; i < ARGUMENTS; i++)
        len[i] = call->buffers[i] ? call->buffers[i]->len : 0;
    switch (call->function) {
    case 0: return osd_device_len();
    case 1: return osd_fresh(at[0], len[0]);
    case 2: return osd_reset(at[0], len[0]);
    case 3: return osd_bus(at[0], len[0], at[1], len[1], (uint8_t)numbers[2], (uint8_t)numbers[3]);
    case 4: return osd_frame_start(at[0], len[0], numbers[1]);
    case 5: return osd_draw(at[0], len[0], at[1], len[1], at[2], len[2], at[3], len[3]);
    case 6: return osd_cell(at[0], len[0], at[1], len[1], numbers[2]);
    case 7: return osd_feed_len();
    case 8: return osd_feed_fresh(at[0], len[0]);
    case 9: return osd_feed(at[0], len[0], at[1], len[1], at[2], len[2], at[3], len[3], at[4], len[4]);
    case 10: return osd_pixel(at[0], len[0], at[1], len[1], at[2], len[2], numbers[3], numbers[4], numbers[5], numbers[6]);
    case 11: return osd_font_write(at[0], len[0], at[1], len[1]);
    default: return osd_font_read(at[0], len[0], at[1], len[1]);
    }
}

/* Bytes that change by a call; or by the lender, between calls: then they are in the slot too. */
static int expect_changes(int by_lender)
{
    for (uint8_t which = byte(); which != 255; which = byte()) {
        uint32_t first = (uint32_t)number(2), n = (uint32_t)number(2);
        if (which >= SLOTS || first + n > slots[which].len)
            return differs("the trace changes more than a slot holds");
        for (uint32_t i = 0; i < n; i++)
            slots[which].expected_start[slots[which].before + first + i] = byte();
        if (by_lender)
            memcpy(bytes_of(&slots[which]) + first, slots[which].expected_start + slots[which].before + first, n);
    }
    return 0;
}

static int compare_call(int made_up)
{
    struct call call = {.function = byte()};
    if (call.function >= FUNCTIONS)
        return differs("the trace calls no function");
    const char *name = functions[call.function][0], *arguments = functions[call.function][1];
    for (int i = 0; arguments[i]; i++) {
        if (arguments[i] == 'b' || arguments[i] == 'n') {
            call.numbers[i] = (uint32_t)number(arguments[i] == 'b' ? 1 : 4);
            continue;
        }
        uint8_t which = byte();
        if (which >= SLOTS)
            return differs("the trace lends no slot");
        call.buffers[i] = &slots[which];
        call.at[i] = slots[which].len > 0 ? bytes_of(&slots[which]) : NULL;
    }
    uint32_t answer = make(&call);
    calls++;
    if (!made_up) {
        if (answer != (uint32_t)number(4)) {
            put(name);
            put(" answers ");
            put_number(answer, 10, 1);
            put("\n");
            return differs("another answer");
        }
        if (expect_changes(0))
            return 1;
    }
    for (int i = 0; i < ARGUMENTS; i++) {
        if (call.buffers[i] == NULL)
            continue;
        if (made_up && arguments[i] == 'w')
            take(call.buffers[i]);
        if (!as_expected(call.buffers[i])) {
            put(name);
            put("\n");
            return differs("another byte in a buffer, or around it");
        }
    }
    return 0;
}

/* ---- the whole */

static int begin(void)
{
    if (!says("osd trace 2\n", 12) || byte() != FUNCTIONS)
        return differs("no trace, or of other functions");
    for (int i = 0; i < FUNCTIONS; i++)
        if (!says(functions[i][0], strlen(functions[i][0]) + 1) || !says(functions[i][1], strlen(functions[i][1]) + 1))
            return differs("a trace of other functions");
    if (byte() != SLOTS)
        return differs("a trace with other slots");
    uint32_t used = 0;
    for (int i = 0; i < SLOTS; i++) {
        slots[i].start = lent + used;
        slots[i].expected_start = expected + used;
        slots[i].room = (uint32_t)number(4);
        slots[i].before = GUARD;
        if (slots[i].room > ROOM || used + GUARD + 8 + slots[i].room + GUARD > ROOM)
            return differs("no room for the trace's slots");
        used += GUARD + 8 + slots[i].room + GUARD;
    }
    return 0;
}

int replay(void)
{
    if (begin())
        return 1;
    for (;;) {
        uint8_t record = byte();
        int bad = 0;
        if (ended)
            return differs("the trace has no end");
        switch (record) {
        case 0:
            if (number(4) != calls || calls == 0)
                return differs("not all calls of the trace were made");
            put_number(calls, 10, 1);
            put(" calls, 0 differences\n");
            return 0;
        case 1: seed = number(8); break;
        case 2: bad = lend(0); break;
        case 3: bad = lend(1); break;
        case 4: bad = compare_call(0); break;
        case 5: bad = compare_call(1); break;
        case 6: bad = expect_changes(1); break;
        default: bad = differs("no record of a trace");
        }
        if (bad)
            return 1;
    }
}
