/* Packets for tests/dissector: commands from the writer, dump packets from the slot call, replies from pool statistics and from the value of a
 * symbol, alone and in a batch, and the first two with damaged headers. Each goes to the capture file PCAP, and a line 'kind number bytes count'
 * for each to standard output. As written: 0, its bytes and the sequence count that was put in. Damaged: what our reader answers, its bytes and
 * the sequence count that our reader gives. */
#include "../c/leatgarnet.h"
#include <stdio.h>
#include <stdlib.h>
#include <string.h>

enum { ROUNDS = 500, UNIT = 7, START = 0x4000, WORDS = 2100 };

static uint64_t seed = 0x1A2B3C4D5E6F7081;
static FILE *pcap;

static uint32_t below(uint32_t n)
{
    seed ^= seed << 13, seed ^= seed >> 7, seed ^= seed << 17;
    return (uint32_t)((seed >> 32) % n);
}

static void need(int holds, const char *what)
{
    if (!holds) {
        fprintf(stderr, "headers: %s\n", what);
        exit(1);
    }
}

static void put(const void *bytes, size_t n)
{
    need(fwrite(bytes, 1, n, pcap) == n, "the capture file cannot be written");
}

static void entry(const char *kind, uint32_t number, const uint8_t *packet, uint32_t bytes, uint32_t count)
{
    const uint32_t head[4] = { 0, 0, bytes, bytes };
    put(head, sizeof head);
    put(packet, bytes);
    printf("%s %u %u %u\n", kind, (unsigned)number, (unsigned)bytes, (unsigned)count);
}

/* A damaged packet, with what our reader says of it. */
static void command_read(const uint8_t *packet, uint32_t bytes)
{
    uint32_t fields[LG_COMMAND_WORDS] = { 0 };
    uint32_t number = lg_read_command(packet, bytes, fields, LG_COMMAND_WORDS);
    entry("command", number, packet, bytes, fields[1]);
}

static void dump_read(const uint8_t *packet, uint32_t bytes)
{
    uint32_t fields[LG_PACKET_WORDS] = { 0 }, data_bytes;
    uint32_t number = lg_read_packet(packet, bytes, fields, LG_PACKET_WORDS, &data_bytes);
    entry("dump", number, packet, bytes, fields[0]);
}

/* One bit of the primary header turned over, or one of its six bytes replaced, or a byte added at the end. */
static uint32_t damage(uint8_t *packet, uint32_t bytes)
{
    switch (below(4)) {
    case 0:
        packet[bytes] = 0;
        return bytes + 1;
    case 1:
        packet[below(6)] = (uint8_t)below(256);
        return bytes;
    default:
        packet[below(6)] ^= (uint8_t)(1 << below(8));
        return bytes;
    }
}

/* The check byte of a command made right again, so that only the header is wrong. */
static void check_again(uint8_t *packet, uint32_t bytes)
{
    uint8_t all = 0xFF;
    packet[7] = 0;
    for (uint32_t i = 0; i < bytes; i++)
        all ^= packet[i];
    packet[7] = all;
}

static uint32_t state[LG_STATE_WORDS], image[WORDS];
static uint8_t packet[69], reply[32], telemetry[4093];

/* One symbol, named "it": the region's start. */
static const uint8_t symbols[LG_SYMBOL_BYTES] = { 0, 2, 0, 0, 'i', 't', [54] = START >> 8, [55] = START & 0xFF };

static uint32_t command(uint32_t code, uint32_t size, uint32_t count)
{
    const uint32_t named = (uint32_t)'i' << 24 | 't' << 16;
    const uint32_t block[LG_COMMAND_WORDS] = { code, count, UNIT, below(4096), size, START, 0, code >= 8 ? named : 1, 2, 3, 4, [19] = 2 };
    uint32_t bytes;
    need(lg_write_command(block, LG_COMMAND_WORDS, packet, sizeof packet, &bytes) == 0, "a command is not written");
    return bytes;
}

static uint32_t answer(uint32_t bytes)
{
    uint32_t length;
    need(lg_command(state, LG_STATE_WORDS, packet, bytes, symbols, sizeof symbols, image, WORDS, reply, sizeof reply, &length) == 0,
         "a command is refused");
    return length;
}

static void commands(void)
{
    static const uint32_t codes[6] = { 0, 1, 4, 7, 8, 9 };
    for (int i = 0; i < 6; i++) {
        uint32_t count = below(16384), bytes = command(codes[i], 1 + below(11), count);
        entry("command", 0, packet, bytes, count);
        bytes = damage(packet, bytes);
        check_again(packet, bytes);
        command_read(packet, bytes);
    }
}

static void dumps(void)
{
    uint32_t length, count = state[76] = below(16384);
    answer(command(below(2) ? 0 : 9, 1 + below(WORDS), 0));
    while (lg_slot(state, LG_STATE_WORDS, below(65536), image, WORDS, telemetry, sizeof telemetry, &length) == 0) {
        entry("dump", 0, telemetry, length, count);
        count = (count + 1) % 16384;
        dump_read(telemetry, damage(telemetry, length));
    }
}

static void replies(void)
{
    uint32_t count = state[75] = below(16384);
    image[0] = 0x80000000u | 4, image[4] = WORDS - 4;
    need(answer(command(7, 0, 0)) == 32, "a reply has not 32 bytes");
    entry("reply", 0, reply, 32, count);
}

static void values(void)
{
    uint32_t count = state[79] = below(16384);
    need(answer(command(8, 0, 0)) == 12, "a symbol's reply has not 12 bytes");
    entry("value", 0, reply, 12, count);
}

/* Pool statistics or the value of a symbol in a batch of two, which share their bytes. */
static void batch_replies(const char *kind, uint32_t code, uint32_t length, uint32_t *counts)
{
    uint8_t both[64];
    struct lg_answer answers[2];
    uint32_t count = *counts = below(16384), bytes = command(code, 0, 0);
    const uint32_t starts[2] = { 0, 0 }, lengths[2] = { bytes, bytes };
    need(lg_commands(state, LG_STATE_WORDS, packet, bytes, starts, 2, lengths, 2, symbols, sizeof symbols, image, WORDS, both, sizeof both, answers,
                     2) == 0,
         "a batch is refused");
    for (int i = 0; i < 2; i++) {
        need(answers[i].number == 0 && answers[i].length == length, "an item of a batch has no reply");
        entry(kind, 0, both + 32 * i, length, (count + (uint32_t)i) % 16384);
    }
}

int main(int n, char **words)
{
    const uint32_t table[LG_TABLE_WORDS] = { UNIT, 1, START, WORDS, 0, 0, START, WORDS, 3 };
    const uint32_t magic[6] = { 0xA1B2C3D4, 2 | 4 << 16, 0, 0, 65535, 147 };
    need(n == 2 && (pcap = fopen(words[1], "wb")), "give the capture file's name");
    put(magic, sizeof magic);
    need(lg_start_up(table, LG_TABLE_WORDS, state, LG_STATE_WORDS) == 0, "start-up is refused");
    for (int i = 0; i < ROUNDS; i++) {
        commands(), dumps(), replies(), values();
        batch_replies("reply", 7, 32, &state[75]), batch_replies("value", 8, 12, &state[79]);
    }
    need(fclose(pcap) == 0, "the capture file cannot be written");
    return 0;
}
