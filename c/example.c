/* A pass through the C interface: start-up, a dump, a load, pool statistics, slots until the dump is whole, the ground desk's check of its packets, a
 * batch, a symbol's value and dumps by its name, refusals, and blocks that are none.
 * It prints what it does, and exits 0 only if all is as expected. With a file's name, the dump's packets go there, back to back (see desk.c).
 *   rt staticlib capi && gcc -O2 -Wall -Wextra -o example c/example.c target/staticlib/libcapi.a && ./example */
#include "leatgarnet.h"
#include <stdio.h>
#include <string.h>

enum { UNIT = 3, IMAGE_WORDS = 2048, FIRST = 0x1000, SECOND = 0x8000, DUMP_WORDS = 1500 };

static int failed = 0;

static void expect(const char *what, uint32_t got, uint32_t want)
{
    printf("%s: %u%s\n", what, (unsigned)got, got == want ? "" : "   NOT AS EXPECTED");
    failed |= got != want;
}

static uint32_t state[LG_STATE_WORDS];
static uint32_t image[IMAGE_WORDS];
static uint8_t packet[68], reply[32], telemetry[4092];
static uint8_t symbols[4 * LG_SYMBOL_BYTES];
static size_t symbols_bytes;
static uint8_t downlink[2 * sizeof telemetry]; /* the dump's packets, and their lengths */
static size_t downlink_bytes, packets;
static uint8_t lengths[4];

/* A command written, read back, and sent. */
static uint32_t send(const char *name, const uint32_t command[LG_COMMAND_WORDS])
{
    uint32_t bytes = 99, again[LG_COMMAND_WORDS], reply_bytes = 99, number;
    printf("-- %s\n", name);
    expect("write", lg_write_command(command, LG_COMMAND_WORDS, packet, sizeof packet, &bytes), 0);
    expect("read", lg_read_command(packet, bytes, again, LG_COMMAND_WORDS), 0);
    expect("read back as written", memcmp(again, command, sizeof again) == 0, 1);
    number = lg_command(state, LG_STATE_WORDS, packet, bytes, symbols, symbols_bytes, image, IMAGE_WORDS, reply, sizeof reply, &reply_bytes);
    expect("reply bytes", reply_bytes, number != 0 ? 0 : command[0] == 7 ? 32 : command[0] == 8 ? 12 : 0);
    return number;
}

static uint32_t big_endian(const uint8_t *p)
{
    return (uint32_t)p[0] << 24 | (uint32_t)p[1] << 16 | (uint32_t)p[2] << 8 | p[3];
}

static void start(void)
{
    uint32_t table[LG_TABLE_WORDS] = {
        UNIT, 2,
        SECOND, 8, 0, 0,                       /* pool 0 in the second region, and no pool 1 */
        FIRST, 2000, 2, SECOND, 48, 3,         /* the first region may be dumped, the second loaded and dumped */
    };
    printf("-- start-up\n");
    table[8] = 4;
    expect("rights out of bounds", lg_start_up(table, LG_TABLE_WORDS, state, LG_STATE_WORDS), 17);
    expect("regions then", state[0], 0);
    table[8] = 2;
    expect("start-up", lg_start_up(table, LG_TABLE_WORDS, state, LG_STATE_WORDS), 0);
    expect("state of another length", lg_start_up(table, LG_TABLE_WORDS, state, LG_STATE_WORDS - 1), 17);
    expect("regions as before", state[0], 2);
    expect("table of another length", lg_start_up(table, 53, state, LG_STATE_WORDS), 17);
    expect("regions then", state[0], 0);
    table[53] = 4; /* the rights of an entry that is not in use */
    expect("start-up again", lg_start_up(table, LG_TABLE_WORDS, state, LG_STATE_WORDS), 0);
    expect("zeros in an entry that is not in use", state[48], 0);
    state[48] = 4;
    expect("regions", state[0], 2);
    expect("unit", state[53], UNIT);
    expect("last place served", state[74], 3);
}

static void dump(void)
{
    const uint32_t command[LG_COMMAND_WORDS] = { 0, 1, UNIT, 77, DUMP_WORDS, FIRST };
    expect("dump", send("dump of 1,500 words", command), 0);
    expect("busy", state[54], 1);
    expect("transaction", state[55], 77);
    expect("words asked for", state[57], DUMP_WORDS);
    expect("same transaction again", send("the same dump", command), 12);
}

static void load(void)
{
    const uint32_t command[LG_COMMAND_WORDS] = { 4, 2, UNIT, 78, 3, SECOND + 40, 0, 0xCAFE, 0xBEEF, 0xF00D };
    expect("load", send("load of three words", command), 0);
    expect("first word", image[2010], 0xCAFE);
    expect("third word", image[2012], 0xF00D);
    expect("word after", image[2013], 2013);
}

static void pool(void)
{
    const uint32_t command[LG_COMMAND_WORDS] = { 7, 3, UNIT, 79 };
    image[2000] = 8;                            /* one free block of eight words, seven of them usable */
    expect("pool statistics", send("pool statistics", command), 0);
    expect("free words", big_endian(reply + 12), 8);
    expect("free blocks", big_endian(reply + 16), 1);
    expect("usable in the largest free block", big_endian(reply + 20), 7);
    expect("used words", big_endian(reply + 24), 0);
    expect("used blocks", big_endian(reply + 28), 0);
    image[2000] = 9;                            /* a block that runs past the pool */
    expect("damaged pool", send("pool statistics, damaged", command), 15);
}

static void slots(void)
{
    uint32_t sent = 0, tick = 5, length, fields[LG_PACKET_WORDS], data_bytes;
    printf("-- slots\n");
    while (lg_slot(state, LG_STATE_WORDS, tick, image, IMAGE_WORDS, telemetry, sizeof telemetry, &length) == 0) {
        expect("packet", lg_read_packet(telemetry, length, fields, LG_PACKET_WORDS, &data_bytes), 0);
        expect("tick", fields[3], tick);
        expect("address", fields[6], FIRST + 4 * sent);
        expect("bytes", data_bytes, 4 * fields[7]);
        expect("first word", big_endian(telemetry + 28), image[sent]);
        expect("last word", big_endian(telemetry + length - 4), image[sent + fields[7] - 1]);
        sent += fields[7];
        tick++;
        memcpy(downlink + downlink_bytes, telemetry, length);
        downlink_bytes += length;
        lengths[2 * packets] = (uint8_t)(length >> 8), lengths[2 * packets + 1] = (uint8_t)length;
        packets++;
    }
    expect("words sent", sent, DUMP_WORDS);
    expect("slots with nothing to send", lg_slot(state, LG_STATE_WORDS, tick, image, IMAGE_WORDS, telemetry, sizeof telemetry, &length), 16);
    expect("its length", length, 0);
    expect("place idle", state[54], 0);
}

/* The ground desk's check of the two packets: whole, in both orders, and what is wrong with others. */
static void check(void)
{
    size_t first = (size_t)lengths[0] << 8 | lengths[1], second = downlink_bytes - first;
    uint8_t other[sizeof downlink], other_lengths[4] = { lengths[2], lengths[3], lengths[0], lengths[1] };
    printf("-- check of the dump\n");
    expect("packets", (uint32_t)packets, 2);
    expect("whole", lg_check_dump(downlink, downlink_bytes, lengths, 4), 0);
    memcpy(other, downlink + first, second);
    memcpy(other + second, downlink, first);
    expect("in the other order", lg_check_dump(other, downlink_bytes, other_lengths, 4), 0);
    expect("the second piece missing", lg_check_dump(downlink, first, lengths, 2), LG_MISSING_PIECE + 1);
    expect("the first piece missing", lg_check_dump(other, second, other_lengths, 2), LG_MISSING_PIECE);
    expect("no packets", lg_check_dump(NULL, 0, NULL, 0), LG_MISSING_PIECE);
    expect("cut short by a byte", lg_check_dump(downlink, downlink_bytes - 1, lengths, 4), LG_BAD_PACKET + 1);
    expect("a packet left over", lg_check_dump(downlink, downlink_bytes, lengths, 2), 3);
    expect("odd list", lg_check_dump(downlink, downlink_bytes, lengths, 3), 3);
    other[second + 7] ^= 1;
    expect("another transaction", lg_check_dump(other, downlink_bytes, other_lengths, 4), LG_BAD_PACKET + 1);
    memcpy(other + second, other, second);
    other_lengths[2] = lengths[2], other_lengths[3] = lengths[3];
    expect("the same piece twice", lg_check_dump(other, 2 * second, other_lengths, 4), LG_BAD_PACKET + 1);
}

/* A load, pool statistics, a damaged packet, an item past the end, and pool statistics again, in one call; then two that are refused. */
static void batch(void)
{
    enum { ITEMS = 5, RECORDS = 6 };
    static const struct lg_answer untouched = { 98, 99 };
    const uint32_t load[LG_COMMAND_WORDS] = { 4, 5, UNIT, 90, 1, SECOND, 0, 0x80000008 }; /* the pool becomes one used block of eight words */
    const uint32_t pool[LG_COMMAND_WORDS] = { 7, 6, UNIT, 91 };
    uint8_t bytes[84], replies[32 * ITEMS + 1], clean[sizeof replies];
    uint32_t load_bytes, pool_bytes, starts[ITEMS + 1] = { 0 }, lengths[ITEMS + 1] = { 0 }, before[LG_STATE_WORDS];
    uint32_t accepted = state[77], refused = state[78];
    struct lg_answer answers[RECORDS];

    printf("-- batch\n");
    expect("write", lg_write_command(load, LG_COMMAND_WORDS, bytes, sizeof bytes, &load_bytes), 0);
    expect("write", lg_write_command(pool, LG_COMMAND_WORDS, bytes + load_bytes, sizeof bytes - load_bytes, &pool_bytes), 0);
    memcpy(bytes + load_bytes + pool_bytes, bytes + load_bytes, pool_bytes);
    bytes[sizeof bytes - 1] ^= 1;                                          /* the second one's check byte is wrong now */
    starts[0] = 0, lengths[0] = load_bytes;
    starts[1] = load_bytes, lengths[1] = pool_bytes;
    starts[2] = load_bytes + pool_bytes, lengths[2] = pool_bytes;
    starts[3] = load_bytes + pool_bytes + 1, lengths[3] = pool_bytes;      /* one byte past the end */
    starts[4] = starts[1], lengths[4] = lengths[1];                        /* the same bytes a second time */
    memset(replies, 0xA5, sizeof replies), memset(clean, 0xA5, sizeof clean);
    for (int i = 0; i < RECORDS; i++)
        answers[i] = untouched;

    expect("bytes", load_bytes + 2 * pool_bytes, sizeof bytes);
    expect("batch", lg_commands(state, LG_STATE_WORDS, bytes, sizeof bytes, starts, ITEMS, lengths, ITEMS, NULL, 0, image, IMAGE_WORDS,
                                replies, sizeof replies, answers, RECORDS), 0);
    expect("load", answers[0].number, 0);
    expect("its reply", answers[0].length, 0);
    expect("its word", image[2000], 0x80000008);
    expect("pool statistics", answers[1].number, 0);
    expect("its reply", answers[1].length, 32);
    expect("usable in the largest free block", big_endian(replies + 32 + 20), 0);     /* as the load before it left the pool: no block is free */
    expect("used words", big_endian(replies + 32 + 24), 8);
    expect("damaged packet", answers[2].number, 4);
    expect("its reply", answers[2].length, 0);
    expect("item past the end", answers[3].number, 4);
    expect("its reply", answers[3].length, 0);
    expect("pool statistics again", answers[4].number, 0);
    expect("its reply", answers[4].length, 32);
    expect("its packet count", big_endian(replies + 128), big_endian(replies + 32) + 1);
    expect("record beyond stays", memcmp(&answers[ITEMS], &untouched, sizeof untouched) == 0, 1);
    expect("reply bytes of no reply stay", memcmp(replies, clean, 32) == 0 && memcmp(replies + 64, clean, 64) == 0 && replies[160] == 0xA5, 1);
    expect("accepted count", state[77], accepted + 3);
    expect("refused count", state[78], refused + 2);

    memcpy(before, state, sizeof before);
    for (int i = 0; i < RECORDS; i++)
        answers[i] = untouched;
    expect("lists of unequal length", lg_commands(state, LG_STATE_WORDS, bytes, sizeof bytes, starts, ITEMS, lengths, ITEMS - 1, NULL, 0, image,
                                                  IMAGE_WORDS, replies, sizeof replies, answers, RECORDS), 3);
    expect("six items, replies for five", lg_commands(state, LG_STATE_WORDS, bytes, sizeof bytes, starts, ITEMS + 1, lengths, ITEMS + 1, NULL, 0,
                                                      image, IMAGE_WORDS, replies, sizeof replies, answers, RECORDS), 3);
    expect("state left as it was", memcmp(before, state, sizeof before) == 0, 1);
    expect("records left as they were", memcmp(&answers[0], &untouched, sizeof untouched) == 0, 1);
}

/* A name of up to 48 characters in the words of a command block: four to a word, the first in the top bits; and its length. */
static void put_name(uint32_t command[LG_COMMAND_WORDS], const char *name)
{
    size_t length = strlen(name);
    for (size_t i = 0; i < length; i++)
        command[7 + i / 4] |= (uint32_t)(unsigned char)name[i] << (24 - 8 * (i % 4));
    command[19] = (uint32_t)length;
}

/* One more record of the symbol table: kind 0 and a value, or kind 1 and the number of an earlier record. */
static void put_symbol(uint8_t kind, const char *name, uint32_t number)
{
    uint8_t *record = symbols + symbols_bytes;
    size_t length = strlen(name);
    memset(record, 0, LG_SYMBOL_BYTES);
    record[0] = kind, record[1] = (uint8_t)length;
    memcpy(record + 4, name, length);
    for (int i = 0; i < 4; i++)
        record[52 + i] = (uint8_t)(number >> (24 - 8 * i));
    symbols_bytes += LG_SYMBOL_BYTES;
}

static void by_name(void)
{
    uint32_t value[LG_COMMAND_WORDS] = { 8, 7, UNIT, 92 }, dump[LG_COMMAND_WORDS] = { 9, 8, UNIT, 93, 2 };
    uint32_t unknown[LG_COMMAND_WORDS] = { 8, 9, UNIT, 94 }, refused = state[78], length;
    put_symbol(0, "orbit_table", FIRST + 400);
    put_symbol(0, "orbit_table_end", FIRST + 440);
    put_symbol(1, "end", 1);                                               /* of the record before it */
    put_symbol(1, "table_end", 2);                                         /* of an alias */
    put_name(value, "orbit_table");
    put_name(dump, "table_end");
    dump[20] = (uint32_t)-8;                                               /* the two words before it */
    put_name(unknown, "orbit_tab");

    expect("value", send("value of a symbol", value), 0);
    expect("APID", (reply[0] & 7u) << 8 | reply[1], 786);
    expect("its count", state[79], 1);
    expect("value", big_endian(reply + 8), FIRST + 400);
    expect("dump", send("dump by name, through two aliases", dump), 0);
    expect("address", state[56], FIRST + 432);
    expect("slot", lg_slot(state, LG_STATE_WORDS, 9, image, IMAGE_WORDS, telemetry, sizeof telemetry, &length), 0);
    expect("bytes", length, 28 + 8);
    expect("first word", big_endian(telemetry + 28), image[108]);
    expect("unknown name", send("the beginning of a name", unknown), 18);
    symbols[3 * LG_SYMBOL_BYTES + 55] = 3;
    expect("alias of itself", send("a table that is none", value), 17);
    symbols_bytes--;
    expect("a byte too few", send("another one", dump), 17);
    expect("refused count", state[78], refused + 3);
}

static void refusals(void)
{
    const uint32_t no_right[LG_COMMAND_WORDS] = { 4, 4, UNIT, 80, 1, FIRST, 0, 1 };
    const uint32_t runs_out[LG_COMMAND_WORDS] = { 0, 4, UNIT, 80, 2, FIRST + 4 * 1999 };  /* the first region's last word, and one more */
    const uint32_t outside[LG_COMMAND_WORDS] = { 0, 4, UNIT, 80, 1, FIRST + 4 * 2000 };   /* the word after it */
    const uint32_t no_pool[LG_COMMAND_WORDS] = { 7, 4, UNIT, 80, 0, 0, 1 };
    const uint32_t other_code[LG_COMMAND_WORDS] = { 2, 4, UNIT, 80 };
    const uint32_t wide_size[LG_COMMAND_WORDS] = { 0, 4, UNIT, 80, 65536, FIRST };
    uint32_t length = 99, data_bytes = 99, fields[LG_PACKET_WORDS] = { 0 }, refused = state[78], before[LG_STATE_WORDS];
    expect("load without the right", send("refusals", no_right), 11);
    expect("dump that runs out of its region", send("past a region's end", runs_out), 19);
    expect("dump that starts in no region", send("at a region's end", outside), 10);
    expect("no such pool", send("pool 1", no_pool), 10);
    expect("refused count", state[78], refused + 4);
    expect("function code 2", lg_write_command(other_code, LG_COMMAND_WORDS, packet, sizeof packet, &length), 6);
    expect("size of 17 bits", lg_write_command(wide_size, LG_COMMAND_WORDS, packet, sizeof packet, &length), 9);
    expect("command block of 20 words", lg_write_command(no_right, 20, packet, sizeof packet, &length), 3);
    expect("its length", length, 0);
    expect("no packet", lg_read_packet(packet, 0, fields, LG_PACKET_WORDS, &data_bytes), 4);
    expect("its bytes", data_bytes, 0);
    expect("packet block of 7 words", lg_read_packet(packet, 0, fields, 7, &data_bytes), 3);
    state[53] = 256;
    memcpy(before, state, sizeof before);
    expect("unit out of bounds", lg_slot(state, LG_STATE_WORDS, 0, image, IMAGE_WORDS, telemetry, sizeof telemetry, &length), 1);
    expect("state left as it was", memcmp(before, state, sizeof before) == 0, 1);
    state[53] = UNIT;
    expect("state block of 79 words", lg_slot(state, 79, 0, image, IMAGE_WORDS, telemetry, sizeof telemetry, &length), 1);
}

static void write_file(const char *name)
{
    FILE *file = fopen(name, "wb");
    size_t written = file ? fwrite(downlink, 1, downlink_bytes, file) : 0;
    if (!file || fclose(file) != 0 || written != downlink_bytes) {
        perror(name);
        failed = 1;
    }
}

int main(int argc, char **argv)
{
    for (uint32_t i = 0; i < IMAGE_WORDS; i++)
        image[i] = i;
    start();
    dump();
    load();
    pool();
    slots();
    if (argc > 1)
        write_file(argv[1]);
    check();
    batch();
    by_name();
    refusals();
    printf(failed ? "FAILED\n" : "all as expected\n");
    return failed;
}
