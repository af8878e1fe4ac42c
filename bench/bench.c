/* The speed of the library beside the same eight calls by hand in C (baseline.c), by gcc and by clang: one program, one run, the same inputs.
 * First the three must agree on every case and on random changes of it; then they are timed in turns. See bench/run. */
#include "../c/leatgarnet.h"
#include "baseline.h"
#include <stdio.h>
#include <stdlib.h>
#include <string.h>
#include <time.h>
#include <ucontext.h>

enum { OURS, GCC, CLANG, EMPTY, LIBRARIES };
enum kind { START_UP, COMMAND, BATCH, SLOT, WRITE, READ, READ_PACKET, CHECK_DUMP, SINGLES }; /* SINGLES: the items of a batch by single calls */
enum { UNIT = 2, POOL_WORDS = 1 << 20, IMAGE_WORDS = POOL_WORDS + 65536, BUFFER_BYTES = 4096, ROUNDS = 41, SMOKE_ROUNDS = 3, MAX_CASES = 100,
       MAX_ITEMS = LG_BATCH_ITEMS + 2, SYMBOLS = 256 };
enum { S_POOLS = 49, S_PLACES = 54, S_LAST = 74 };

struct library {
    const char *name;
    uint32_t (*start_up)(const uint32_t *, size_t, uint32_t *, size_t);
    uint32_t (*command)(uint32_t *, size_t, const uint8_t *, size_t, const uint8_t *, size_t, uint32_t *, size_t, uint8_t *, size_t, uint32_t *);
    uint32_t (*commands)(uint32_t *, size_t, const uint8_t *, size_t, const uint32_t *, size_t, const uint32_t *, size_t, const uint8_t *, size_t,
                         uint32_t *, size_t, uint8_t *, size_t, struct lg_answer *, size_t);
    uint32_t (*slot)(uint32_t *, size_t, uint32_t, const uint32_t *, size_t, uint8_t *, size_t, uint32_t *);
    uint32_t (*write_command)(const uint32_t *, size_t, uint8_t *, size_t, uint32_t *);
    uint32_t (*read_command)(const uint8_t *, size_t, uint32_t *, size_t);
    uint32_t (*read_packet)(const uint8_t *, size_t, uint32_t *, size_t, uint32_t *);
    uint32_t (*check_dump)(const uint8_t *, size_t, const uint8_t *, size_t);
};

/* Calls that do nothing: the loop, the restored words and the call itself. Their time is taken off all three. */
#define NOTHING { __asm__ volatile(""); return 0; }
#define U __attribute__((unused))
static uint32_t no_start_up(U const uint32_t *t, U size_t n, U uint32_t *s, U size_t m) NOTHING
static uint32_t no_command(U uint32_t *s, U size_t n, U const uint8_t *p, U size_t b, U const uint8_t *y, U size_t z, U uint32_t *i, U size_t w,
                           U uint8_t *r, U size_t l, U uint32_t *x) NOTHING
static uint32_t no_commands(U uint32_t *s, U size_t n, U const uint8_t *p, U size_t b, U const uint32_t *f, U size_t c, U const uint32_t *g,
                            U size_t d, U const uint8_t *y, U size_t z, U uint32_t *i, U size_t w, U uint8_t *r, U size_t l,
                            U struct lg_answer *a, U size_t k) NOTHING
static uint32_t no_slot(U uint32_t *s, U size_t n, U uint32_t t, U const uint32_t *i, U size_t w, U uint8_t *b, U size_t l,
                        U uint32_t *x) NOTHING
static uint32_t no_write(U const uint32_t *c, U size_t n, U uint8_t *b, U size_t l, U uint32_t *x) NOTHING
static uint32_t no_read(U const uint8_t *p, U size_t b, U uint32_t *c, U size_t n) NOTHING
static uint32_t no_read_packet(U const uint8_t *p, U size_t b, U uint32_t *f, U size_t n, U uint32_t *x) NOTHING
static uint32_t no_check_dump(U const uint8_t *p, U size_t b, U const uint8_t *l, U size_t n) NOTHING

static const struct library libraries[LIBRARIES] = {
    { "ours", lg_start_up, lg_command, lg_commands, lg_slot, lg_write_command, lg_read_command, lg_read_packet,
      lg_check_dump },
    { "gcc", gcc_start_up, gcc_command, gcc_commands, gcc_slot, gcc_write_command, gcc_read_command, gcc_read_packet,
      gcc_check_dump },
    { "clang", clang_start_up, clang_command, clang_commands, clang_slot, clang_write_command, clang_read_command, clang_read_packet,
      clang_check_dump },
    { "empty", no_start_up, no_command, no_commands, no_slot, no_write, no_read, no_read_packet, no_check_dump },
};

/* What a case hands in. `words` is the table, command or field block of the calls that have one; `buffer` the reply or packet buffer; a batch's bytes
 * are in `packet`. A dump to check is in the image, and its list of lengths in `packet`. */
struct input {
    uint32_t state[LG_STATE_WORDS], words[LG_TABLE_WORDS], starts[MAX_ITEMS], lengths[MAX_ITEMS];
    uint8_t packet[BUFFER_BYTES], symbols[LG_SYMBOL_BYTES * SYMBOLS];
    size_t packet_bytes, symbols_bytes, image_words, buffer_bytes, starts_count, lengths_count, answers_count;
};

struct test {
    char name[80];
    enum kind kind;
    void (*image)(uint32_t); /* fills the image, given `parameter` */
    uint32_t parameter, number;
    double bound;            /* 0: only in a growth table */
    double units;            /* regions, words or blocks of a line of a growth table */
    double bytes, blocks;    /* moved or walked by one call, for the rate */
    double items;            /* of a batch, for the rate */
    double records;          /* of a symbol table, for the rate */
    struct input in;
    int changed;             /* words of the state that the call changes, restored before each call */
    uint32_t index[LG_STATE_WORDS], value[LG_STATE_WORDS];
    long calls;              /* in one round */
    double times[LIBRARIES][ROUNDS], median[LIBRARIES], best[LIBRARIES], ratio, best_ratio;
};

static struct test tests[MAX_CASES];
static int count, smoke, rounds;

/* Lent memory. Page offsets differ, so that no load seems to follow a store 4,096 bytes off. */
static uint32_t image[IMAGE_WORDS] __attribute__((aligned(4096)));
static uint32_t spare_image[IMAGE_WORDS];
static struct {
    uint8_t gap[2048 + 64], buffer[BUFFER_BYTES], gap_2[512];
    uint32_t state[LG_STATE_WORDS], words[LG_TABLE_WORDS], length;
    struct lg_answer answers[MAX_ITEMS];
} lent __attribute__((aligned(4096)));

static uint64_t seed = 1;

static uint32_t random_below(uint32_t n)
{
    seed = seed * 6364136223846793005u + 1442695040888963407u;
    return (uint32_t)((seed >> 33) % n);
}

/* ---- Inputs ---- */

static void plain_image(uint32_t parameter)
{
    for (uint32_t i = 0; i < IMAGE_WORDS; i++)
        image[i] = (i + parameter) * 2654435761u;
}

/* A pool of 2^20 words at the image's start, of blocks of sizes from low to high by chance, each used or free by chance. */
static void pool_blocks(uint32_t low, uint32_t high)
{
    uint32_t at = 0;
    seed = 7;
    while (at < POOL_WORDS) {
        uint32_t size = low + random_below(high - low + 1);
        if (size > POOL_WORDS - at)
            size = POOL_WORDS - at;
        image[at] = size | random_below(2) << 31;
        for (uint32_t i = 1; i < size; i++)
            image[at + i] = i;
        at += size;
    }
}

static void small_blocks(uint32_t parameter) { (void)parameter; pool_blocks(1, 8); }
static void middle_blocks(uint32_t parameter) { (void)parameter; pool_blocks(32, 256); }
static void equal_blocks(uint32_t parameter) { pool_blocks(POOL_WORDS / parameter, POOL_WORDS / parameter); }

static uint32_t walk(void)
{
    uint32_t blocks = 0;
    for (uint32_t at = 0; at < POOL_WORDS; at += image[at] & 0x7FFFFFFF)
        blocks++;
    return blocks;
}

static uint32_t region_start(uint32_t i) { return 0x10000000 + i * 0x1000000; }

/* A table of `regions` regions of `size` words each, both rights, no pools. */
static void table(uint32_t *words, uint32_t regions, uint32_t size)
{
    memset(words, 0, 4 * LG_TABLE_WORDS);
    words[0] = UNIT;
    words[1] = regions;
    for (uint32_t i = 0; i < regions; i++) {
        words[6 + 3 * i] = region_start(i);
        words[7 + 3 * i] = size;
        words[8 + 3 * i] = 3;
    }
}

static void fresh(struct input *in, uint32_t regions, uint32_t size)
{
    table(in->words, regions, size);
    in->image_words = regions * size;
    if (lg_start_up(in->words, LG_TABLE_WORDS, in->state, LG_STATE_WORDS) != 0)
        abort();
}

static void busy(struct input *in, uint32_t place, uint32_t transaction, uint32_t address, uint32_t words)
{
    const uint32_t dump[5] = { 1, transaction, address, words, 0 };
    memcpy(in->state + S_PLACES + 5 * place, dump, sizeof dump);
}

static void command(struct input *in, const uint32_t words[LG_COMMAND_WORDS])
{
    uint32_t length;
    if (lg_write_command(words, LG_COMMAND_WORDS, in->packet, BUFFER_BYTES, &length) != 0)
        abort();
    in->packet_bytes = length;
    memcpy(in->words, words, 4 * LG_COMMAND_WORDS);
}

static struct test *add(const char *name, enum kind kind, uint32_t number, double bound)
{
    struct test *t = &tests[count++];
    if (count > MAX_CASES)
        abort();
    snprintf(t->name, sizeof t->name, "%s", name);
    t->kind = kind;
    t->number = number;
    t->bound = bound;
    t->image = plain_image;
    t->in.buffer_bytes = kind == SLOT ? 4092 : kind == WRITE ? 60 : 32;
    return t;
}

/* A slot with one dump busy, of `words` words at the start of the last region. */
static struct test *slot_case(const char *name, uint32_t regions, uint32_t words, double bound)
{
    struct test *t = add(name, SLOT, 0, bound);
    fresh(&t->in, regions, 4096);
    busy(&t->in, 1, 0x123, region_start(regions - 1), words);
    t->bytes = 4.0 * (words < 1016 ? words : 1016);
    return t;
}

/* A command to a box of `regions` regions of 4,096 words, with one dump busy (transaction 123 hex). */
static struct test *command_case(const char *name, uint32_t regions, uint32_t number, const uint32_t words[LG_COMMAND_WORDS], double bound)
{
    struct test *t = add(name, COMMAND, number, bound);
    fresh(&t->in, regions, 4096);
    busy(&t->in, 1, 0x123, region_start(0), 3000);
    command(&t->in, words);
    return t;
}

/* 64 commands to such a box, all accepted: sixteen times a dump, a load of 11 words, a load of 5 and the cancel of that dump. */
static struct test *batch_case(const char *name, enum kind kind, double bound)
{
    struct test *t = add(name, kind, 0, bound);
    struct input *in = &t->in;
    fresh(in, 4, 4096);
    busy(in, 1, 0x123, region_start(0), 3000);
    for (uint32_t i = 0; i < LG_BATCH_ITEMS; i++) {
        static const uint32_t codes[4] = { 0, 4, 4, 1 }, sizes[4] = { 3000, 11, 5, 0 };
        const uint32_t words[LG_COMMAND_WORDS] = { codes[i % 4], i, UNIT, 0x321 + i / 4, sizes[i % 4], region_start(i / 4 % 4) + 64 * (i % 4), 0,
                                                   1, 2, 3, 4, 5, 6, 7, 8, 9, 10, 11 };
        if (lg_write_command(words, LG_COMMAND_WORDS, in->packet + in->packet_bytes, BUFFER_BYTES - in->packet_bytes, &in->lengths[i]) != 0)
            abort();
        in->starts[i] = (uint32_t)in->packet_bytes;
        in->packet_bytes += in->lengths[i];
    }
    in->starts_count = in->lengths_count = in->answers_count = LG_BATCH_ITEMS;
    in->buffer_bytes = 32 * LG_BATCH_ITEMS;
    t->items = LG_BATCH_ITEMS;
    return t;
}

static struct test *pool_case(const char *name, void (*fill)(uint32_t), uint32_t parameter, double bound)
{
    struct test *t = add(name, COMMAND, 0, bound);
    const uint32_t words[LG_COMMAND_WORDS] = { 7, 1, UNIT, 0x321 };
    fresh(&t->in, 1, POOL_WORDS);
    t->in.state[S_POOLS] = region_start(0);
    t->in.state[S_POOLS + 1] = POOL_WORDS;
    command(&t->in, words);
    t->image = fill;
    t->parameter = parameter;
    fill(parameter);
    t->blocks = walk();
    return t;
}

/* A name as the words of a command block, and its length. */
static void put_name(uint32_t words[LG_COMMAND_WORDS], const char *name)
{
    size_t length = strlen(name);
    for (size_t i = 0; i < length; i++)
        words[7 + i / 4] |= (uint32_t)(uint8_t)name[i] << (24 - 8 * (i % 4));
    words[19] = (uint32_t)length;
}

/* The name of record i: "s" and the number; or 48 bytes that differ in the last one alone, which is not 0 (in the one before it for record 255). */
static const char *symbol_name(uint32_t i, int wide)
{
    static char name[49];
    if (wide)
        snprintf(name, sizeof name, "%047d%c", 0, (int)(i % 255 + 1));
    else
        snprintf(name, sizeof name, "s%u", (unsigned)i);
    if (wide && i >= 255)
        name[46] = '1';
    return name;
}

/* `count` symbols: values from the start of region 1 on, 4 apart; the last one, if there are more, an alias of the first. */
static void lend_symbols(struct input *in, uint32_t count, int wide)
{
    in->symbols_bytes = LG_SYMBOL_BYTES * count;
    memset(in->symbols, 0, sizeof in->symbols);
    for (uint32_t i = 0; i < count; i++) {
        const char *name = symbol_name(i, wide);
        uint8_t *p = in->symbols + LG_SYMBOL_BYTES * i;
        uint32_t alias = i > 0 && i == count - 1, number = alias ? 0 : region_start(1) + 4 * i;
        p[0] = (uint8_t)alias;
        p[1] = (uint8_t)strlen(name);
        memcpy(p + 4, name, strlen(name));
        for (int k = 0; k < 4; k++)
            p[52 + k] = (uint8_t)(number >> (24 - 8 * k));
    }
}

/* The value of the last of `records` symbols, or a dump of 3,000 words from 16 bytes after it on. */
static struct test *symbol_case(const char *name, uint32_t code, uint32_t records, int wide, double bound)
{
    uint32_t words[LG_COMMAND_WORDS] = { code, 1, UNIT, 0x321, 3000 };
    struct test *t;
    put_name(words, symbol_name(records - 1, wide));
    words[20] = 16;
    t = command_case(name, 4, 0, words, bound);
    lend_symbols(&t->in, records, wide);
    t->records = records;
    return t;
}

/* The values of the last 64 of 256 symbols. */
static struct test *symbol_batch_case(const char *name, enum kind kind, double bound)
{
    struct test *t = batch_case(name, kind, bound);
    struct input *in = &t->in;
    lend_symbols(in, SYMBOLS, 1);
    t->records = SYMBOLS;
    for (uint32_t i = 0; i < LG_BATCH_ITEMS; i++) {
        uint32_t words[LG_COMMAND_WORDS] = { 8, i, UNIT, 0x321 };
        put_name(words, symbol_name(SYMBOLS - LG_BATCH_ITEMS + i, 1));
        in->starts[i] = 60 * i;
        if (lg_write_command(words, LG_COMMAND_WORDS, in->packet + in->starts[i], 60, &in->lengths[i]) != 0)
            abort();
    }
    in->packet_bytes = 60 * LG_BATCH_ITEMS;
    return t;
}

/* Two pools, and the first places busy: all in the last region. With sixteen regions and four dumps this is the fullest good state. */
static void fill_state(struct input *in, uint32_t regions, uint32_t dumps)
{
    for (uint32_t i = 0; i < dumps; i++)
        busy(in, i, 0x123 + i, region_start(regions - 1), 1016);
    for (uint32_t i = 0; i < 2; i++) {
        in->state[S_POOLS + 2 * i] = region_start(regions - 1) + 256 * i;
        in->state[S_POOLS + 2 * i + 1] = 64;
    }
}

/* A slot of one word, with two pools and four dumps: six ranges are looked up to test the state, and then the dump whose turn it is. */
static struct test *full_slot_case(const char *name, uint32_t regions, double bound)
{
    struct test *t = slot_case(name, regions, 1, bound);
    fill_state(&t->in, regions, 4);
    t->in.state[S_LAST] = 0;
    busy(&t->in, 1, 0x777, region_start(regions - 1), 1);
    return t;
}

static uint32_t get32(const uint8_t *p)
{
    return (uint32_t)p[0] << 24 | (uint32_t)p[1] << 16 | (uint32_t)p[2] << 8 | p[3];
}

static void put32(uint8_t *p, uint32_t v)
{
    for (int k = 0; k < 4; k++)
        p[k] = (uint8_t)(v >> (24 - 8 * k));
}

/* The packets of a dump of `words` words, back to back in the image, each `step` pieces after the one before, going round. */
static void put_packets(uint32_t words, uint32_t step)
{
    uint32_t pieces = (words + 1015) / 1016;
    uint8_t *p = (uint8_t *)image;
    for (uint32_t i = 0; i < pieces; i++) {
        uint32_t piece = i * step % pieces, left = words - 1016 * piece, n = left < 1016 ? left : 1016;
        const uint32_t fields[7] = { 0x0314C000 + i, (21 + 4 * n) << 16 | 0x2123, 100 + i, 0x1000, words, 0x1000 + 4064 * piece, n };
        for (int k = 0; k < 7; k++)
            put32(p + 4 * k, fields[k]);
        memset(p + 28, (int)i, 4 * n);
        p += 28 + 4 * n;
    }
}

static void packets_in_order(uint32_t words) { put_packets(words, 1); }
static void packets_mixed(uint32_t words) { put_packets(words, 27); } /* 27 has no divisor in common with 65 */

static struct test *check_case(const char *name, void (*fill)(uint32_t), uint32_t words, double bound)
{
    struct test *t = add(name, CHECK_DUMP, 0, bound);
    uint32_t pieces = (words + 1015) / 1016;
    const uint8_t *p = (const uint8_t *)image;
    t->image = fill;
    t->parameter = words;
    fill(words);
    for (uint32_t i = 0; i < pieces; i++) {
        uint32_t bytes = (uint32_t)p[4] << 8 | p[5];
        bytes += 7;
        t->in.packet[2 * i] = (uint8_t)(bytes >> 8);
        t->in.packet[2 * i + 1] = (uint8_t)bytes;
        p += bytes;
    }
    t->in.packet_bytes = 2 * pieces;
    t->in.image_words = pieces * 7 + words;
    t->items = pieces;
    return t;
}

static void cases(void)
{
    const uint32_t dump[LG_COMMAND_WORDS] = { 0, 1, UNIT, 0x321, 3000, region_start(1) };
    const uint32_t cancel[LG_COMMAND_WORDS] = { 1, 1, UNIT, 0x123 };
    const uint32_t load[LG_COMMAND_WORDS] = { 4, 1, UNIT, 0x321, 11, region_start(1) + 400, 0, 1, 2, 3, 4, 5, 6, 7, 8, 9, 10, 11 };
    const uint32_t far[LG_COMMAND_WORDS] = { 0, 1, UNIT, 0x321, 4097, region_start(1) };
    const uint32_t again[LG_COMMAND_WORDS] = { 0, 1, UNIT, 0x123, 3000, region_start(1) };
    const uint32_t nothing[LG_COMMAND_WORDS] = { 1, 1, UNIT, 0x124 };
    const uint32_t pool[LG_COMMAND_WORDS] = { 7, 1, UNIT, 0x321, 0, 0, 1 };
    const uint32_t elsewhere[LG_COMMAND_WORDS] = { 0, 1, UNIT + 1, 0x321, 3000, region_start(1) };
    uint32_t by_name[LG_COMMAND_WORDS] = { 9, 1, UNIT, 0x321, 3000 };
    struct test *t;

    put_name(by_name, "instrument_table");
    by_name[20] = (uint32_t)-64;
    slot_case("slot of 1,016 words", 4, 3000, 1.2);
    t = slot_case("slot of 1,016 words, fullest state", 16, 3000, 1.2);
    fill_state(&t->in, 16, 4);
    slot_case("slot of 1 word", 4, 1, 2);
    full_slot_case("slot of 1 word, fullest state", 16, 2);
    command_case("dump", 4, 0, dump, 2);
    t = command_case("dump, fullest state", 16, 0, dump, 2);
    fill_state(&t->in, 16, 3);
    command_case("cancel", 4, 0, cancel, 2);
    command_case("load of 11 words", 4, 0, load, 2);
    t = command_case("refused: wrong check byte (4)", 4, 4, dump, 2);
    t->in.packet[7] ^= 1;
    command_case("refused: another unit (8)", 4, 8, elsewhere, 2);
    command_case("refused: runs out of its region (19)", 4, 19, far, 2);
    command_case("refused: transaction busy (12)", 4, 12, again, 2);
    command_case("refused: no such dump (14)", 4, 14, nothing, 2);
    t = command_case("refused: pool damaged (15)", 16, 15, pool, 2);
    fill_state(&t->in, 16, 2);
    t = slot_case("refused: no dump busy, slot (16)", 4, 0, 2);
    memset(t->in.state + S_PLACES, 0, 4 * (S_LAST - S_PLACES));
    t->number = 16;
    batch_case("batch of 64: dumps, loads and cancels", BATCH, 2);
    batch_case("64 single calls: the same packets", SINGLES, 2);
    symbol_batch_case("batch of 64: values of 256 symbols", BATCH, 1.2);
    symbol_batch_case("64 single calls: the same values", SINGLES, 1.2);
    t = command_case("dump, 256 symbols lent", 4, 0, dump, 2);
    lend_symbols(&t->in, SYMBOLS, 1);
    symbol_case("value of a symbol, 1 symbol", 8, 1, 0, 2);
    symbol_case("dump by name, 1 symbol", 9, 1, 0, 2);
    symbol_case("value of a symbol, 256 short names", 8, SYMBOLS, 0, 1.2);
    symbol_case("value of a symbol, 256 names alike to the last of 48 bytes", 8, SYMBOLS, 1, 1.2);
    t = symbol_case("refused: no symbol table, the last of 256 is wrong (17)", 8, SYMBOLS, 1, 1.2);
    t->in.symbols[LG_SYMBOL_BYTES * (SYMBOLS - 1)] = 2;
    t->number = 17;
    t = symbol_case("refused: unknown name, 1 symbol (18)", 8, 1, 0, 2);
    t->in.symbols[4] = 't';
    t->number = 18;
    pool_case("pool of 2^20 words, blocks of 1 to 8", small_blocks, 0, 1.2);
    pool_case("pool of 2^20 words, blocks of 32 to 256", middle_blocks, 0, 1.2);
    t = add("command writer, dump", WRITE, 0, 2);
    command(&t->in, dump);
    t = add("command writer, load of 11", WRITE, 0, 2);
    command(&t->in, load);
    t = add("command writer, dump by name", WRITE, 0, 2);
    t->in.buffer_bytes = 68;
    command(&t->in, by_name);
    t = add("command reader, dump", READ, 0, 2);
    command(&t->in, dump);
    t = add("command reader, load of 11", READ, 0, 2);
    command(&t->in, load);
    t = add("command reader, dump by name", READ, 0, 2);
    command(&t->in, by_name);
    t = slot_case("dump packet reader, 4,092 bytes", 1, 3000, 2);
    t->kind = READ_PACKET;
    t->bytes = 0; /* it passes over no data */
    plain_image(0);
    if (lg_slot(t->in.state, LG_STATE_WORDS, 5, image, t->in.image_words, t->in.packet, BUFFER_BYTES, &lent.length) != 0)
        abort();
    t->in.packet_bytes = lent.length;
    check_case("check of a dump of 65 packets, in order", packets_in_order, 65535, 1.2);
    check_case("check of a dump of 65 packets, in another order", packets_mixed, 65535, 1.2);
    check_case("check of a dump of 1 packet", packets_in_order, 2, 2);
    t = check_case("refused: bytes left over after 64 of 65 packets (3)", packets_in_order, 65535, 2);
    t->in.packet_bytes = 128;
    t->number = 3;
    t = add("start-up, 1 region", START_UP, 0, 2);
    table(t->in.words, 1, 4096);
    t = add("start-up, 16 regions", START_UP, 0, 2);
    table(t->in.words, 16, 4096);
}

/* ---- Calls ---- */

static const uint8_t *symbols(const struct input *in) { return in->symbols_bytes ? in->symbols : NULL; }

static int inside(const struct input *in, uint32_t item)
{
    return (uint64_t)in->starts[item] + in->lengths[item] <= in->packet_bytes;
}

__attribute__((noinline)) static uint32_t singles(const struct library *l, const struct input *in, uint32_t *img)
{
    uint32_t all = 0;
    for (uint32_t i = 0; i < in->starts_count; i++) {
        int whole = inside(in, i);
        lent.answers[i].number = l->command(lent.state, LG_STATE_WORDS, whole ? in->packet + in->starts[i] : in->packet, whole ? in->lengths[i] : 0,
                                            symbols(in), in->symbols_bytes, img, in->image_words, lent.buffer + 32 * i, 32,
                                            &lent.answers[i].length);
        all |= lent.answers[i].number;
    }
    return all;
}

__attribute__((always_inline)) static inline uint32_t call(const struct library *l, const struct test *t, uint32_t *img)
{
    const struct input *in = &t->in;
    switch (t->kind) {
    case START_UP: return l->start_up(in->words, LG_TABLE_WORDS, lent.state, LG_STATE_WORDS);
    case COMMAND:
        return l->command(lent.state, LG_STATE_WORDS, in->packet, in->packet_bytes, symbols(in), in->symbols_bytes, img, in->image_words, lent.buffer,
                          in->buffer_bytes, &lent.length);
    case BATCH:
        return l->commands(lent.state, LG_STATE_WORDS, in->packet, in->packet_bytes, in->starts, in->starts_count, in->lengths, in->lengths_count,
                           symbols(in), in->symbols_bytes, img, in->image_words, lent.buffer, in->buffer_bytes, lent.answers, in->answers_count);
    case SINGLES: return singles(l, in, img);
    case SLOT: return l->slot(lent.state, LG_STATE_WORDS, 5, img, in->image_words, lent.buffer, in->buffer_bytes, &lent.length);
    case WRITE: return l->write_command(in->words, LG_COMMAND_WORDS, lent.buffer, in->buffer_bytes, &lent.length);
    case READ: return l->read_command(in->packet, in->packet_bytes, lent.words, LG_COMMAND_WORDS);
    case CHECK_DUMP: return l->check_dump((const uint8_t *)img, 4 * in->image_words, in->packet, in->packet_bytes);
    default: return l->read_packet(in->packet, in->packet_bytes, lent.words, LG_PACKET_WORDS, &lent.length);
    }
}

static void lend(const struct test *t)
{
    memcpy(lent.state, t->in.state, sizeof lent.state);
    memset(lent.buffer, 0xA5, sizeof lent.buffer);
    memset(lent.words, 0xA5, sizeof lent.words);
    memset(lent.answers, 0xA5, sizeof lent.answers);
    lent.length = 0xA5A5A5A5;
}

static int is_batch(const struct test *t) { return t->kind == BATCH || t->kind == SINGLES; }
static int may_load(const struct test *t) { return t->kind == COMMAND || is_batch(t); }

/* Whether all three leave the same: number, state, image, buffer, blocks, length and answer records. The number of ours. */
static uint32_t agree(const struct test *t)
{
    static struct {
        uint8_t buffer[BUFFER_BYTES];
        uint32_t state[LG_STATE_WORDS], words[LG_TABLE_WORDS], length;
        struct lg_answer answers[MAX_ITEMS];
    } first;
    static uint32_t first_image[IMAGE_WORDS];
    size_t bytes = 4 * (may_load(t) ? t->in.image_words : 0);
    uint32_t number = 0, got;
    for (int l = OURS; l <= CLANG; l++) {
        lend(t);
        memcpy(spare_image, image, bytes);
        got = call(&libraries[l], t, may_load(t) ? spare_image : image);
        if (l == OURS) {
            number = got;
            memcpy(first.buffer, lent.buffer, sizeof first.buffer);
            memcpy(first.state, lent.state, sizeof first.state);
            memcpy(first.words, lent.words, sizeof first.words);
            memcpy(first.answers, lent.answers, sizeof first.answers);
            first.length = lent.length;
            memcpy(first_image, spare_image, bytes);
        } else if (got != number || memcmp(first.buffer, lent.buffer, sizeof first.buffer) || memcmp(first.state, lent.state, sizeof first.state)
                   || memcmp(first.words, lent.words, sizeof first.words) || memcmp(first.answers, lent.answers, sizeof first.answers)
                   || first.length != lent.length || memcmp(first_image, spare_image, bytes)) {
            printf("DIFFERENT: %s: ours answers %u, %s %u\n", t->name, (unsigned)number, libraries[l].name, (unsigned)got);
            exit(1);
        }
    }
    return number;
}

static void right_check_byte(uint8_t *packet, size_t bytes)
{
    uint8_t all = 0;
    for (size_t b = 0; b < bytes; b++)
        all ^= packet[b];
    if (bytes >= 8)
        packet[7] ^= (uint8_t)~all;
}

/* One random change of a batch's starts, lengths or counts. */
static void change_lists(struct input *in, uint32_t value)
{
    uint32_t i = random_below(LG_BATCH_ITEMS), other = random_below(LG_BATCH_ITEMS);
    switch (random_below(8)) {
    case 0: in->starts[i] = random_below(2) ? value : in->starts[i] + value; break;
    case 1: in->lengths[i] = random_below(2) ? value : in->lengths[i] + value; break;
    case 2: in->starts[i] = in->starts[other], in->lengths[i] = in->lengths[other]; break;
    case 3: in->starts[i] = 0u - random_below(64), in->lengths[i] = random_below(128); break;
    case 4: in->starts[i] = (uint32_t)in->packet_bytes - random_below(62), in->lengths[i] = random_below(62); break;
    case 5: in->starts_count = in->lengths_count = in->answers_count = random_below(MAX_ITEMS + 1); break;
    case 6: *(random_below(2) ? &in->starts_count : &in->lengths_count) = random_below(4) ? LG_BATCH_ITEMS - 1 : random_below(MAX_ITEMS + 1); break;
    default: in->answers_count = random_below(2) ? LG_BATCH_ITEMS - 1 : random_below(MAX_ITEMS + 1); break;
    }
}

/* One random change of the symbols: a byte of a record, most often one of those that are not the name, a record's name, or the length. */
static void change_symbols(struct input *in)
{
    uint32_t records = (uint32_t)(in->symbols_bytes / LG_SYMBOL_BYTES), from = random_below(records), to = random_below(records);
    static const uint8_t fields[] = { 0, 1, 2, 3, 4, 50, 51, 52, 53, 54, 55, 55 };
    uint8_t *p = in->symbols + LG_SYMBOL_BYTES * to;
    switch (random_below(6)) {
    case 0: memcpy(p + 1, in->symbols + LG_SYMBOL_BYTES * from + 1, 51); break;
    case 1: p[0] = 1, p[52] = p[53] = p[54] = 0, p[55] = (uint8_t)from; break;
    case 2: p[random_below(LG_SYMBOL_BYTES)] ^= (uint8_t)(1u << random_below(8)); break;
    case 3: in->symbols_bytes = random_below(2) ? in->symbols_bytes - 1 - random_below(56) : LG_SYMBOL_BYTES * random_below(records + 1); break;
    default: p[fields[random_below(sizeof fields)]] = (uint8_t)(random_below(2) ? random_below(4) : 46 + random_below(4)); break;
    }
}

/* One random change of a dump to check: a byte of a packet's header, or of the list of lengths, or how long the list is or how many bytes there are. */
static void change_dump(struct input *in)
{
    uint32_t count = (uint32_t)(in->packet_bytes / 2), packet = random_below(count), before = 0;
    for (uint32_t i = 0; i < packet; i++)
        before += (uint32_t)in->packet[2 * i] << 8 | in->packet[2 * i + 1];
    uint8_t *header = (uint8_t *)image + before % (4 * (IMAGE_WORDS - 8));
    switch (random_below(8)) {
    case 0: in->packet[random_below(2 * count)] ^= (uint8_t)(1u << random_below(8)); break;
    case 1: in->packet_bytes = random_below(2) ? in->packet_bytes - 1 - random_below(2) : in->packet_bytes + 1 + random_below(4); break;
    case 2: in->image_words = random_below(2) ? in->image_words - 1 : in->image_words + 1; break;
    case 3: header[6 + random_below(22)] = (uint8_t)random_below(256); break;
    case 4: put32(header + 20, get32(header + 12) + 4064 * random_below(count + 1)); break;
    default: header[random_below(28)] ^= (uint8_t)(1u << random_below(8)); break;
    }
}

/* The case as it is, and then with one to three random changes of the state, the packet, the block, the symbols, a batch's lists or a dump; half of the
 * packets get a right check byte. How many of these were tried. */
static int check(struct test *t, int tries)
{
    static const uint32_t values[] = { 0, 1, 2, 3, 4, 10, 11, 12, 15, 16, 255, 256, 1016, 2032, 4095, 4096, 16383, 16384, 65535, 65536, 1 << 20,
                                       (1 << 20) + 1, 0x10000000, 0x11000000, 0x1F000000, 0xFFFFFFFC, 0xFFFFFFFF };
    static struct test other;
    uint32_t number, random = (uint32_t)(t - tests) + 1;
    t->image(t->parameter);
    number = agree(t);
    if (number != t->number) {
        printf("DIFFERENT: %s: number %u, not %u\n", t->name, (unsigned)number, (unsigned)t->number);
        exit(1);
    }
    t->changed = 0;
    for (uint32_t i = 0; i < LG_STATE_WORDS; i++)
        if (t->kind != START_UP && lent.state[i] != t->in.state[i]) {
            t->index[t->changed] = i;
            t->value[t->changed++] = t->in.state[i];
        }
    if (t->in.image_words > 65536 && t->kind != CHECK_DUMP)
        return 0;
    if (is_batch(t) && t->records > 0) /* these take long */
        tries /= 20;
    seed = random;
    for (int i = 0; i < tries; i++) {
        other = *t;
        if (t->kind == CHECK_DUMP)
            t->image(t->parameter);
        for (uint32_t changes = 1 + random_below(3); changes > 0; changes--) {
            if (t->kind == CHECK_DUMP) {
                if (other.in.packet_bytes >= 2)
                    change_dump(&other.in);
                continue;
            }
            int has_state = may_load(t) || t->kind == SLOT;
            uint32_t *words = has_state ? other.in.state : other.in.words;
            uint32_t bound = has_state ? LG_STATE_WORDS : t->kind == START_UP ? LG_TABLE_WORDS : LG_COMMAND_WORDS;
            uint32_t *word = words + random_below(bound), v = values[random_below(sizeof values / sizeof values[0])];
            if (is_batch(t) && random_below(2))
                change_lists(&other.in, v);
            else if (other.in.symbols_bytes >= LG_SYMBOL_BYTES && random_below(2))
                change_symbols(&other.in);
            else if (other.in.packet_bytes > 0 && random_below(2)) {
                size_t early = other.in.packet_bytes < 28 || is_batch(t) || random_below(9) == 0 ? other.in.packet_bytes : 28;
                uint8_t *byte = other.in.packet + random_below((uint32_t)early);
                *byte = (uint8_t)(random_below(2) ? *byte ^ 1u << random_below(8) : random_below(256));
                if (random_below(20) == 0)
                    other.in.packet_bytes = random_below(is_batch(t) ? (uint32_t)other.in.packet_bytes : 70);
            } else
                *word = random_below(2) ? v : random_below(2) ? *word + v : *word - v;
        }
        if (random_below(2) && !is_batch(t) && t->kind != CHECK_DUMP)
            right_check_byte(other.in.packet, other.in.packet_bytes);
        else if (random_below(2) && is_batch(t))
            for (uint32_t k = 0; k < LG_BATCH_ITEMS; k++)
                if (inside(&other.in, k))
                    right_check_byte(other.in.packet + other.in.starts[k], other.in.lengths[k]);
        if (random_below(20) == 0)
            other.in.buffer_bytes -= 1 + random_below(20);
        if (is_batch(t) && random_below(20) == 0)
            other.in.image_words--;
        agree(&other);
    }
    return tries;
}

/* ---- Time ---- */

static volatile uint32_t sink;

static double run(const struct library *l, const struct test *t, long calls)
{
    struct timespec from, to;
    uint32_t all = 0;
    clock_gettime(CLOCK_MONOTONIC, &from);
    for (long i = 0; i < calls; i++) {
        for (int j = 0; j < t->changed; j++)
            lent.state[t->index[j]] = t->value[j];
        all += call(l, t, image);
    }
    clock_gettime(CLOCK_MONOTONIC, &to);
    sink = all;
    return ((double)(to.tv_sec - from.tv_sec) * 1e9 + (double)(to.tv_nsec - from.tv_nsec)) / (double)calls;
}

static int ascending(const void *a, const void *b)
{
    double x = *(const double *)a, y = *(const double *)b;
    return (x > y) - (x < y);
}

static double above(double x) { return x > 0.1 ? x : 0.1; }
static double less(double a, double b) { return a < b ? a : b; }

static void own_image(const struct test *t)
{
    static void (*filled)(uint32_t);
    static uint32_t parameter;
    if (filled != t->image || parameter != t->parameter)
        t->image(t->parameter);
    filled = t->image;
    parameter = t->parameter;
}

static void calibrate(struct test *t)
{
    double one;
    own_image(t);
    lend(t);
    one = run(&libraries[OURS], t, 1);
    one = run(&libraries[OURS], t, one > 1e6 ? 1 : 200);
    t->calls = (long)((smoke ? 2e4 : 2e6) / one) + 1;
}

/* Each library once, in turns, each after calls of its own to warm up; the empty loop last, or the one after it would start a round twice as often. */
static void measure(struct test *t, int round)
{
    own_image(t);
    lend(t);
    for (int k = 0; k < LIBRARIES; k++) {
        int l = k == EMPTY ? EMPTY : (round + k) % EMPTY;
        run(&libraries[l], t, t->calls / 50 + 1);
        t->times[l][round] = run(&libraries[l], t, t->calls);
    }
}

/* The ratio is the median of the rounds' own ratios, so that a slow spell of the machine counts little. */
static void settle(struct test *t)
{
    double sorted[ROUNDS];
    int better;
    for (int l = 0; l < LIBRARIES; l++) {
        memcpy(sorted, t->times[l], sizeof sorted);
        qsort(sorted, (size_t)rounds, sizeof sorted[0], ascending);
        t->median[l] = sorted[rounds / 2];
        t->best[l] = sorted[0];
    }
    for (int l = 0; l < EMPTY; l++) {
        t->median[l] = above(t->median[l] - t->median[EMPTY]);
        t->best[l] = above(t->best[l] - t->best[EMPTY]);
    }
    better = t->median[GCC] < t->median[CLANG] ? GCC : CLANG;
    for (int r = 0; r < rounds; r++)
        sorted[r] = above(t->times[OURS][r] - t->median[EMPTY]) / above(t->times[better][r] - t->median[EMPTY]);
    qsort(sorted, (size_t)rounds, sizeof sorted[0], ascending);
    t->ratio = sorted[rounds / 2];
    t->best_ratio = t->best[OURS] / less(t->best[GCC], t->best[CLANG]);
}

static double c_median(const struct test *t) { return less(t->median[GCC], t->median[CLANG]); }

static void rate(char *text, size_t size, const struct test *t, double ns)
{
    if (t->blocks > 0)
        snprintf(text, size, "%.2f ns/block", ns / t->blocks);
    else if (t->items > 0)
        snprintf(text, size, "%.2f ns/item", ns / t->items);
    else if (t->records > 1)
        snprintf(text, size, "%.2f ns/record", ns / t->records);
    else if (t->bytes >= 1024)
        snprintf(text, size, "%.2f GB/s", t->bytes / ns);
    else
        snprintf(text, size, "-");
}

static void report(const struct test *t)
{
    char ours[32], theirs[32];
    rate(ours, sizeof ours, t, t->median[OURS]);
    rate(theirs, sizeof theirs, t, c_median(t));
    printf("| %s | %.1f (%.1f) | %.1f (%.1f) | %.1f (%.1f) | %.1f | %s | %s | %.2f | %.2f | %.1f%s |\n", t->name, t->median[OURS], t->best[OURS],
           t->median[GCC], t->best[GCC], t->median[CLANG], t->best[CLANG], t->median[EMPTY], ours, theirs, t->ratio, t->best_ratio, t->bound,
           t->ratio <= t->bound ? "" : " missed");
}

/* Prints the lines of a growth table: the times, and what each unit costs, all of them or those that the line before has not. */
static void growth(const char *title, const char *unit, int all, const struct test *t, int lines)
{
    const char *how = all ? "for each" : "for each more";
    double last_units = 0, last_ours = 0, last_c = 0;
    printf("\n%s (best of the rounds)\n\n| %s | ours, ns | better C, ns | ratio | ours, ns %s | better C, ns %s |\n", title, unit, how, how);
    printf("|---|---|---|---|---|---|\n");
    for (int i = 0; i < lines; i++, t++) {
        double ours = t->best[OURS], c = less(t->best[GCC], t->best[CLANG]);
        printf("| %.0f | %.1f | %.1f | %.2f |", t->units, ours, c, ours / c);
        if (i > 0 || all)
            printf(" %.2f | %.2f |\n", (ours - last_ours) / (t->units - last_units), (c - last_c) / (t->units - last_units));
        else
            printf(" - | - |\n");
        if (!all) {
            last_units = t->units;
            last_ours = ours;
            last_c = c;
        }
    }
}

/* What a batch costs beside its items by single calls; the case after a batch is that of its items. */
static void batch_table(int listed)
{
    printf("\nA batch beside the single calls of its items (best of the rounds)\n\n");
    printf("| Library | Case | batch, ns | single calls, ns | batch to single calls |\n|---|---|---|---|---|\n");
    for (const struct test *t = tests; t + 1 < tests + listed; t++)
        for (int l = 0; l < EMPTY && t->kind == BATCH; l++)
            printf("| %s | %s | %.1f | %.1f | %.2f |\n", libraries[l].name, t->name, t->best[l], t[1].best[l], t->best[l] / t[1].best[l]);
}

/* ---- Stack ---- */

static ucontext_t here, there;
static uint8_t stack[1 << 16];
static const struct library *stack_library;
static const struct test *stack_test;

/* The call begins below all that entering and leaving this stack writes to. */
static void on_stack(void)
{
    volatile uint8_t room[1024] = { 0 };
    sink = call(stack_library, stack_test, image) + room[0];
}

/* Bytes of a stack of its own that one call writes to. */
static long stack_bytes(const struct library *l, const struct test *t)
{
    long untouched = 0;
    stack_library = l;
    stack_test = t;
    own_image(t);
    lend(t);
    memset(stack, 0xA5, sizeof stack);
    getcontext(&there);
    there.uc_stack.ss_sp = stack;
    there.uc_stack.ss_size = sizeof stack;
    there.uc_link = &here;
    makecontext(&there, on_stack, 0);
    swapcontext(&here, &there);
    while (stack[untouched] == 0xA5)
        untouched++;
    return (long)sizeof stack - untouched;
}

static void stack_table(int listed)
{
    static const char *const names[] = { "start-up", "command", "batch", "slot", "command writer", "command reader", "dump packet reader",
                                         "check of a dump" };
    printf("\nStack: the most bytes that a call of a case wrote to, beyond the empty call's\n\n| Call | ours | gcc | clang |\n|---|---|---|---|\n");
    for (int kind = START_UP; kind <= CHECK_DUMP; kind++) {
        long most[EMPTY] = { 0 };
        for (int i = 0; i < listed; i++)
            for (int l = 0; l < EMPTY && (int)tests[i].kind == kind; l++) {
                long bytes = stack_bytes(&libraries[l], &tests[i]) - stack_bytes(&libraries[EMPTY], &tests[i]);
                most[l] = bytes > most[l] ? bytes : most[l];
            }
        printf("| %s | %ld | %ld | %ld |\n", names[kind], most[OURS], most[GCC], most[CLANG]);
    }
}

/* The cases of the growth tables, after the others. */
static void growth_cases(void)
{
    static const uint32_t regions[] = { 1, 2, 4, 8, 16 }, words[] = { 1, 16, 64, 256, 512, 1016 };
    static const uint32_t blocks[] = { 1, 16, 256, 4096, 65536, 1 << 20 }, records[] = { 1, 16, 64, 128, 256 };
    static const uint32_t packets[] = { 1, 2, 8, 16, 33, 65 };
    for (int i = 0; i < 5; i++)
        slot_case("slot of 1,016 words by regions", regions[i], 3000, 0)->units = regions[i];
    for (int i = 0; i < 5; i++)
        slot_case("slot of 1 word by regions", regions[i], 1, 0)->units = regions[i];
    for (int i = 0; i < 5; i++)
        full_slot_case("seven lookups by regions", regions[i], 0)->units = regions[i];
    for (int i = 0; i < 6; i++)
        slot_case("slot by words", 4, words[i], 0)->units = words[i];
    for (int i = 0; i < 6; i++)
        pool_case("pool by blocks", equal_blocks, blocks[i], 0)->units = blocks[i];
    for (int i = 0; i < 5; i++) {
        const uint32_t dump[LG_COMMAND_WORDS] = { 0, 1, UNIT, 0x321, 3000, region_start(regions[i] - 1) };
        command_case("dump by regions", regions[i], 0, dump, 0)->units = regions[i];
    }
    for (int i = 0; i < 5; i++)
        symbol_case("value by records", 8, records[i], 1, 0)->units = records[i];
    for (int i = 0; i < 6; i++)
        check_case("check by packets", packets_in_order, 1016 * packets[i] - 505, 0)->units = packets[i];
}

int main(int argc, char **argv)
{
    int tried = 0, within = 0, missed = 0, listed;
    smoke = argc > 1 && strcmp(argv[1], "--smoke") == 0;
    rounds = smoke ? SMOKE_ROUNDS : ROUNDS;
    cases();
    listed = count;
    growth_cases();
    if (argc == 5 && strcmp(argv[1], "--one") == 0) { /* --one CASE LIBRARY CALLS: one case (from 0), for a profiler */
        struct test *t = &tests[atoi(argv[2]) % count];
        check(t, 0);
        lend(t);
        run(&libraries[atoi(argv[3]) % LIBRARIES], t, atol(argv[4]));
        return 0;
    }
    for (int i = 0; i < count; i++)
        tried += check(&tests[i], i >= listed ? 0 : smoke ? 200 : 3000);
    printf("\nThe three agree on %d cases and %d random changes of them.\n\n", count, tried);
    fflush(stdout);
    for (int i = 0; i < count; i++)
        calibrate(&tests[i]);
    for (int r = 0; r < rounds; r++) /* every case in every round, so that a slow spell falls on all */
        for (int i = 0; i < count; i++)
            measure(&tests[i], r);
    for (int i = 0; i < count; i++)
        settle(&tests[i]);
    printf("Nanoseconds per call: median (best) of %d rounds, the libraries in turns; the empty loop is taken off all three.\n", rounds);
    printf("Ratio: ours to the better C, the median of the rounds.\n\n");
    printf("| Case | ours | gcc | clang | loop | ours, rate | better C, rate | ratio | ratio of bests | bound |\n");
    printf("|---|---|---|---|---|---|---|---|---|---|\n");
    for (int i = 0; i < listed; i++) {
        report(&tests[i]);
        within += tests[i].ratio <= tests[i].bound;
    }
    batch_table(listed);
    growth("Slot of 1,016 words against regions, the dump in the last", "Regions", 0, &tests[listed], 5);
    growth("Slot of 1 word against regions, the dump in the last", "Regions", 0, &tests[listed + 5], 5);
    growth("Lookup against regions: a slot of 1 word that looks up seven ranges, all in the last", "Regions", 0, &tests[listed + 10], 5);
    growth("Slot against words, four regions", "Words", 0, &tests[listed + 15], 6);
    growth("Pool of 2^20 words against blocks of equal size, used or free by chance", "Blocks", 1, &tests[listed + 21], 6);
    growth("Dump command against regions, the range in the last", "Regions", 0, &tests[listed + 27], 5);
    growth("Value of the last symbol against records, names alike to the last of 48 bytes", "Records", 0, &tests[listed + 32], 5);
    growth("Check of a dump against packets, in order", "Packets", 0, &tests[listed + 37], 6);
    stack_table(listed);
    printf("\n%d of %d cases are within their bounds (1.2 for slots of 1,016 words, pools, tables of 256 symbols and dumps of 65 packets, 2 for short calls).%s", within,
           listed, within < listed ? " Not within:" : "");
    for (int i = 0; i < listed; i++)
        if (tests[i].ratio > tests[i].bound)
            printf("%s %s (%.2f)", missed++ ? ";" : "", tests[i].name, tests[i].ratio);
    printf("\n");
    return 0;
}
