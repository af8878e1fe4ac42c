/* The eight calls of leatgarnet.h by hand, from papers 01 and 02 (A1 to A6) and the header: the yardstick for speed. It does every check that they
 * ask for, and works on the lent block as it stands. Compiled twice, with -DPREFIX=gcc_ and -DPREFIX=clang_. For little-endian machines. */
#include "baseline.h"
#include <string.h>

#define PASTE(a, b) a##b
#define NAME(prefix, name) PASTE(prefix, name)
#define CALL(name) NAME(PREFIX, name)

enum { STATE_WORDS = 80, TABLE_WORDS = 54, COMMAND_WORDS = 21, PACKET_WORDS = 8 };
enum { REGIONS = 1, POOLS = 49, UNIT = 53, PLACES = 54, LAST = 74, COUNT_785 = 75, COUNT_788 = 76, ACCEPTED = 77, REFUSED = 78,
       COUNT_786 = 79 };
enum { BUSY, TRANSACTION, START, WORDS, SENT, PLACE_WORDS };
enum { LOAD_RIGHT = 1, DUMP_RIGHT = 2, CUT = 1016, LOAD_WORDS = 11, REPLY_BYTES = 32, HEADER_BYTES = 28, SLOT_BYTES = 4092, ITEMS = 64, PACKETS = 65 };
enum { SYMBOLS = 256, SYMBOL_BYTES = 56, NAME_BYTES = 48, NAME_WORDS = 12, VALUE_BYTES = 12 };
enum { CODE_DUMP = 0, CODE_CANCEL = 1, CODE_LOAD = 4, CODE_POOL = 7, CODE_VALUE = 8, CODE_BY_NAME = 9 };

static inline uint32_t get16(const uint8_t *p)
{
    uint16_t v;
    memcpy(&v, p, 2);
    return __builtin_bswap16(v);
}

static inline uint32_t get32(const uint8_t *p)
{
    uint32_t v;
    memcpy(&v, p, 4);
    return __builtin_bswap32(v);
}

static inline void put16(uint8_t *p, uint32_t v)
{
    uint16_t w = __builtin_bswap16((uint16_t)v);
    memcpy(p, &w, 2);
}

static inline void put32(uint8_t *p, uint32_t v)
{
    v = __builtin_bswap32(v);
    memcpy(p, &v, 4);
}

/* The number of the region of a good table that holds the range whole, by halving: the last region whose start is not above the range's, and then its
 * end. Or -10 if the first word is in no region, -19 if the range runs out of its region. `start` is a multiple of 4. A start below the region's gives
 * a distance beyond its size. */
static inline int find(const uint32_t *regions, uint32_t count, uint32_t start, uint32_t words)
{
    uint32_t first = 0;
    for (uint32_t left = count, half; left > 1; left -= half) {
        half = left / 2;
        first += regions[3 * (first + half)] <= start ? half : 0;
    }
    uint32_t distance = (start - regions[3 * first]) >> 2, size = regions[3 * first + 1];
    return distance >= size ? -10 : words > size - distance ? -19 : (int)first;
}

/* The place in the image of a range that begins at `start` in this region. */
static inline uint32_t image_place(const uint32_t *regions, int region, uint32_t start)
{
    uint32_t at = (start - regions[3 * region]) >> 2;
    for (int i = 0; i < region; i++)
        at += regions[3 * i + 1];
    return at;
}

/* Whether it lies whole in a region with dump right; which one. */
static inline int can_dump(const uint32_t *regions, uint32_t count, const uint32_t *range, int *region)
{
    *region = find(regions, count, range[0], range[1]);
    return *region >= 0 && regions[3 * *region + 2] & DUMP_RIGHT;
}

/* The sum of the sizes of a table that keeps the rules, or 0. */
static inline uint32_t table_sum(const uint32_t *regions, uint32_t count)
{
    uint64_t end = 0;
    uint32_t sum = 0;
    if (count - 1 > 15)
        return 0;
    for (uint32_t i = 0; i < count; i++, regions += 3) {
        if (regions[0] % 4 != 0 || regions[0] < end || regions[1] - 1 >= 1u << 20)
            return 0;
        end = regions[0] + 4 * (uint64_t)regions[1];
        sum += regions[1];
    }
    return end <= (uint64_t)1 << 32 ? sum : 0; /* an end past 2^32 before the last region fails at the next start */
}

static inline int pools_good(const uint32_t *pools, const uint32_t *regions, uint32_t count, int in[2])
{
    for (int i = 0; i < 2; i++, pools += 2) {
        if (pools[1] == 0) {
            if (pools[0] != 0)
                return 0;
            continue;
        }
        if (pools[0] % 4 != 0 || !can_dump(regions, count, pools, &in[i]))
            return 0;
    }
    return 1;
}

/* The regions that the busy dumps and the pools lie in. */
struct places {
    int dump[4], pool[2];
};

/* The image's length if the block is a state and a good one, or 0. */
static inline uint32_t good(const uint32_t *s, struct places *in)
{
    const uint32_t *regions = s + REGIONS, count = s[0];
    uint32_t rights = 0, sum;
    for (uint32_t i = 0; i < 16 && i < count; i++) /* of the entries in use: a block with other rights is no state */
        rights |= regions[3 * i + 2];
    if (rights > 3 || s[UNIT] > 15 || s[LAST] > 3 || (s[COUNT_785] | s[COUNT_786] | s[COUNT_788]) > 16383 || (s[ACCEPTED] | s[REFUSED]) > 65535)
        return 0;
    sum = table_sum(regions, count);
    if (sum == 0 || !pools_good(s + POOLS, regions, count, in->pool))
        return 0;
    for (int i = 0; i < 4; i++) {
        const uint32_t *p = s + PLACES + PLACE_WORDS * i;
        if (p[BUSY] == 0) {
            if (p[TRANSACTION] | p[START] | p[WORDS] | p[SENT])
                return 0;
            continue;
        }
        if (p[BUSY] != 1 || p[TRANSACTION] > 4095 || p[WORDS] - 1 >= 65535 || p[START] % 4 != 0 || p[SENT] >= p[WORDS] || p[SENT] % CUT != 0)
            return 0;
        if (!can_dump(regions, count, p + START, &in->dump[i]))
            return 0;
        for (const uint32_t *q = s + PLACES; q < p; q += PLACE_WORDS)
            if (q[BUSY] && q[TRANSACTION] == p[TRANSACTION])
                return 0;
    }
    return sum;
}

static inline uint32_t exclusive_or(const uint8_t *p, size_t bytes)
{
    uint64_t all = 0, part;
    for (; bytes >= 8; bytes -= 8, p += 8) {
        memcpy(&part, p, 8);
        all ^= part;
    }
    while (bytes-- > 0)
        all ^= *p++;
    all ^= all >> 32;
    all ^= all >> 16;
    return (uint32_t)((all ^ all >> 8) & 0xFF);
}

/* The packet bytes of a code, 0 if it is unknown. */
static inline uint32_t code_bytes(uint32_t code)
{
    switch (code) {
    case CODE_DUMP: return 16;
    case CODE_CANCEL: return 10;
    case CODE_LOAD: return 60;
    case CODE_POOL: return 12;
    case CODE_VALUE: return 60;
    case CODE_BY_NAME: return 68;
    default: return 0;
    }
}

/* Numbers 4 to 7 of a command packet, or 0. */
static inline uint32_t form(const uint8_t *packet, size_t bytes)
{
    if (bytes < 8)
        return 4;
    uint32_t first = get16(packet), expected;
    if (first >> 11 != 3 || packet[2] >> 6 != 3 || get16(packet + 4) != bytes - 7 || packet[6] > 127 || exclusive_or(packet, bytes) != 0xFF)
        return 4;
    if ((first & 0x7FF) != 1604)
        return 5;
    expected = code_bytes(packet[6]);
    return expected == 0 ? 6 : expected != bytes ? 7 : 0;
}

/* Whether number 9 names a field. */
static inline int bad_request(uint32_t code, uint32_t size, uint32_t address)
{
    return address % 4 != 0 || size - 1 >= (code == CODE_LOAD ? LOAD_WORDS : 65535u);
}

/* Whether number 9 names the name field or the zero bits of a packet of code 8 or 9. */
static inline int bad_name(const uint8_t *packet)
{
    return packet[10] - 1u >= NAME_BYTES || packet[11] != 0 || (packet[6] == CODE_BY_NAME && get16(packet + 66) != 0);
}

/* Whether two records have one name; their padding is right. Here, since a call of memcmp for each pair costs more than the pair. */
static inline int same_name(const uint8_t *p, const uint8_t *q)
{
    uint64_t a, b, differ = p[1] ^ q[1];
    memcpy(&a, p + 4, 8);
    memcpy(&b, q + 4, 8);
    if (a != b)
        return 0;
    for (int i = 12; i < 52; i += 8) {
        memcpy(&a, p + i, 8);
        memcpy(&b, q + i, 8);
        differ |= a ^ b;
    }
    return differ == 0;
}

/* Whether the bytes are a symbol table. */
static int table_good(const uint8_t *symbols, size_t bytes)
{
    static const uint8_t zeros[NAME_BYTES];
    const uint8_t *end = symbols + bytes;
    if (bytes % SYMBOL_BYTES != 0 || bytes > SYMBOLS * SYMBOL_BYTES)
        return 0;
    uint32_t number = 0;
    for (const uint8_t *p = symbols; p < end; p += SYMBOL_BYTES, number++) {
        if (p[0] > 1 || p[1] - 1u >= NAME_BYTES || (p[2] | p[3]) != 0 || (p[0] == 1 && get32(p + 52) >= number))
            return 0;
        if (memcmp(p + 4 + p[1], zeros, NAME_BYTES - p[1]) != 0)
            return 0;
        for (const uint8_t *q = symbols; q < p; q += SYMBOL_BYTES)
            if (same_name(p, q))
                return 0;
    }
    return 1;
}

/* The record of a good table that holds the value of a name, or NULL. */
static inline const uint8_t *look_up(const uint8_t *symbols, size_t bytes, const uint8_t *name, uint32_t length)
{
    for (const uint8_t *p = symbols, *end = symbols + bytes; p < end; p += SYMBOL_BYTES)
        if (p[1] == length && p[3 + length] == name[length - 1] && memcmp(p + 4, name, length) == 0) {
            while (p[0] == 1)
                p = symbols + SYMBOL_BYTES * get32(p + 52);
            return p;
        }
    return NULL;
}

/* The pool's figures in the reply, and 0; or 15. */
static inline uint32_t pool_figures(const uint32_t *restrict block, uint32_t words, uint8_t *restrict reply)
{
    uint32_t left = words, blocks = 0, free_words = 0, free_blocks = 0, largest = 0;
    while (left > 0) {
        uint32_t size = *block & 0x7FFFFFFF, used = (uint32_t)((int32_t)*block >> 31), free = size & ~used;
        if (size - 1 >= left)
            return 15;
        free_words += free;
        free_blocks += 1 + used;
        largest = free > largest ? free : largest;
        blocks++;
        block += size;
        left -= size;
    }
    put32(reply + 12, free_words);
    put32(reply + 16, free_blocks);
    put32(reply + 20, largest - (largest > 0));
    put32(reply + 24, words - free_words);
    put32(reply + 28, blocks - free_blocks);
    return 0;
}

static uint32_t refuse(uint32_t *state, uint32_t number)
{
    state[REFUSED] = (state[REFUSED] + 1) & 0xFFFF;
    return number;
}

uint32_t CALL(start_up)(const uint32_t *restrict table, size_t table_words, uint32_t *restrict state, size_t state_words)
{
    const uint32_t *regions;
    uint32_t rights = 0;
    int pool_in[2];
    if (state_words != STATE_WORDS)
        return 17;
    memset(state, 0, 4 * STATE_WORDS);
    state[LAST] = 3;
    if (table_words != TABLE_WORDS)
        return 17;
    regions = table + 6;
    for (uint32_t i = 0; i < 16 && i < table[1]; i++)
        rights |= regions[3 * i + 2];
    if (rights > 3 || table[0] > 15 || !table_sum(regions, table[1]) || !pools_good(table + 2, regions, table[1], pool_in))
        return 17;
    state[0] = table[1];
    memcpy(state + REGIONS, regions, 12 * (size_t)table[1]);
    memcpy(state + POOLS, table + 2, 16);
    state[UNIT] = table[0];
    return 0;
}

/* The symbols lent, and whether they are a table: tested when a command first asks. */
struct symbols {
    const uint8_t *records;
    size_t bytes;
    enum { UNTESTED, TABLE, NONE } is;
};

/* The lowest idle place gets the dump; or 12 or 13. */
static inline uint32_t make_busy(uint32_t *s, uint32_t transaction, uint32_t address, uint32_t size)
{
    uint32_t *idle = NULL;
    for (uint32_t *p = s + LAST - PLACE_WORDS; p >= s + PLACES; p -= PLACE_WORDS) {
        if (p[BUSY] == 0)
            idle = p;
        else if (p[TRANSACTION] == transaction)
            return 12;
    }
    if (idle == NULL)
        return 13;
    idle[BUSY] = 1;
    idle[TRANSACTION] = transaction;
    idle[START] = address;
    idle[WORDS] = size;
    return 0;
}

/* A packet to a good state, with an image that fits and a reply buffer. In the caller's code, as if written there. */
__attribute__((always_inline)) static inline uint32_t carry_out(uint32_t *restrict s, const int *restrict pool_in, const uint8_t *restrict packet,
                                                                size_t packet_bytes, struct symbols *restrict symbols, uint32_t *restrict image,
                                                                uint8_t *restrict reply, uint32_t *restrict reply_length)
{
    uint32_t number, transaction, *p;
    number = form(packet, packet_bytes);
    if (number == 5)
        return 5;
    if (number != 0)
        return refuse(s, number);
    if (packet[8] >> 4 != s[UNIT])
        return 8;
    transaction = get16(packet + 8) & 0xFFF;
    switch (packet[6]) {
    case CODE_DUMP:
    case CODE_LOAD: {
        uint32_t code = packet[6], size = get16(packet + 10), address = get32(packet + 12);
        if (bad_request(code, size, address))
            return refuse(s, 9);
        int region = find(s + REGIONS, s[0], address, size);
        if (region < 0)
            return refuse(s, (uint32_t)-region);
        if (!(s[REGIONS + 3 * region + 2] & (code == CODE_LOAD ? LOAD_RIGHT : DUMP_RIGHT)))
            return refuse(s, 11);
        if (code == CODE_LOAD) {
            uint32_t place = image_place(s + REGIONS, region, address);
            for (uint32_t i = 0; i < size; i++)
                image[place + i] = get32(packet + 16 + 4 * i);
            break;
        }
        number = make_busy(s, transaction, address, size);
        if (number != 0)
            return refuse(s, number);
        break;
    }
    case CODE_CANCEL:
        for (p = s + PLACES; p < s + LAST; p += PLACE_WORDS)
            if (p[BUSY] && p[TRANSACTION] == transaction)
                break;
        if (p == s + LAST)
            return refuse(s, 14);
        memset(p, 0, 4 * PLACE_WORDS);
        break;
    case CODE_VALUE:
    case CODE_BY_NAME: {
        if (symbols->is == UNTESTED)
            symbols->is = table_good(symbols->records, symbols->bytes) ? TABLE : NONE;
        if (symbols->is == NONE)
            return refuse(s, 17);
        if (bad_name(packet))
            return refuse(s, 9);
        const uint8_t *record = look_up(symbols->records, symbols->bytes, packet + 12, packet[10]);
        if (record == NULL)
            return refuse(s, 18);
        if (packet[6] == CODE_VALUE) {
            put32(reply, 786u << 16 | 3u << 14 | s[COUNT_786]);
            put16(reply + 4, VALUE_BYTES - 7);
            memcpy(reply + 6, packet + 8, 2);
            memcpy(reply + 8, record + 52, 4);
            s[COUNT_786] = (s[COUNT_786] + 1) & 0x3FFF;
            *reply_length = VALUE_BYTES;
            break;
        }
        uint32_t size = get16(packet + 64);
        int64_t address = get32(record + 52) + (int64_t)(int32_t)get32(packet + 60);
        if (address < 0 || address >> 32 != 0 || bad_request(CODE_DUMP, size, (uint32_t)address))
            return refuse(s, 9);
        int region = find(s + REGIONS, s[0], (uint32_t)address, size);
        if (region < 0)
            return refuse(s, (uint32_t)-region);
        if (!(s[REGIONS + 3 * region + 2] & DUMP_RIGHT))
            return refuse(s, 11);
        number = make_busy(s, transaction, (uint32_t)address, size);
        if (number != 0)
            return refuse(s, number);
        break;
    }
    default: { /* CODE_POOL */
        uint32_t pool = get16(packet + 10);
        if (pool > 1)
            return refuse(s, 9);
        if (s[POOLS + 2 * pool + 1] == 0)
            return refuse(s, 10);
        if (pool_figures(image + image_place(s + REGIONS, pool_in[pool], s[POOLS + 2 * pool]), s[POOLS + 2 * pool + 1], reply) != 0)
            return refuse(s, 15);
        put32(reply, 785u << 16 | 3u << 14 | s[COUNT_785]);
        put16(reply + 4, REPLY_BYTES - 7);
        memcpy(reply + 6, packet + 8, 2);
        put32(reply + 8, pool << 16);
        s[COUNT_785] = (s[COUNT_785] + 1) & 0x3FFF;
        *reply_length = REPLY_BYTES;
    }
    }
    s[ACCEPTED] = (s[ACCEPTED] + 1) & 0xFFFF;
    return 0;
}

uint32_t CALL(command)(uint32_t *restrict s, size_t state_words, const uint8_t *restrict packet, size_t packet_bytes,
                       const uint8_t *restrict symbols, size_t symbols_bytes, uint32_t *restrict image, size_t image_words, uint8_t *restrict reply,
                       size_t reply_bytes, uint32_t *restrict reply_length)
{
    struct symbols lent = { symbols, symbols_bytes, UNTESTED };
    struct places in;
    uint32_t sum;
    *reply_length = 0;
    if (state_words != STATE_WORDS || (sum = good(s, &in)) == 0)
        return 1;
    if (image_words != sum)
        return 2;
    if (reply_bytes < REPLY_BYTES)
        return 3;
    return carry_out(s, in.pool, packet, packet_bytes, &lent, image, reply, reply_length);
}

/* A good state stays good, and its table and pools and the symbols stay as they are: one test will do for all items. */
uint32_t CALL(commands)(uint32_t *restrict s, size_t state_words, const uint8_t *restrict bytes, size_t bytes_length,
                        const uint32_t *restrict starts, size_t starts_count, const uint32_t *restrict lengths, size_t lengths_count,
                        const uint8_t *restrict symbols, size_t symbols_bytes, uint32_t *restrict image, size_t image_words,
                        uint8_t *restrict replies, size_t replies_bytes, struct lg_answer *restrict answers, size_t answers_count)
{
    struct symbols lent = { symbols, symbols_bytes, UNTESTED };
    struct places in;
    uint32_t sum, each;
    if (starts_count > ITEMS || lengths_count != starts_count || answers_count < starts_count || replies_bytes < REPLY_BYTES * starts_count)
        return 3;
    each = state_words != STATE_WORDS || (sum = good(s, &in)) == 0 ? 1 : image_words != sum ? 2 : 0;
    for (size_t i = 0; i < starts_count; i++) {
        int inside = (uint64_t)starts[i] + lengths[i] <= bytes_length;
        answers[i].number = each;
        answers[i].length = 0;
        if (each == 0)
            answers[i].number = carry_out(s, in.pool, inside ? bytes + starts[i] : bytes, inside ? lengths[i] : 0, &lent, image,
                                          replies + REPLY_BYTES * i, &answers[i].length);
    }
    return 0;
}

uint32_t CALL(slot)(uint32_t *restrict s, size_t state_words, uint32_t tick, const uint32_t *restrict image, size_t image_words,
                    uint8_t *restrict buffer, size_t buffer_bytes, uint32_t *restrict length)
{
    struct places in;
    uint32_t sum, place, words, bytes, *p;
    *length = 0;
    if (state_words != STATE_WORDS || (sum = good(s, &in)) == 0)
        return 1;
    if (image_words != sum)
        return 2;
    if (buffer_bytes < SLOT_BYTES)
        return 3;
    for (uint32_t i = 1;; i++) {
        place = (s[LAST] + i) & 3;
        p = s + PLACES + PLACE_WORDS * place;
        if (p[BUSY])
            break;
        if (i == 4)
            return 16;
    }
    words = p[WORDS] - p[SENT] < CUT ? p[WORDS] - p[SENT] : CUT;
    bytes = HEADER_BYTES + 4 * words;
    put32(buffer, 788u << 16 | 3u << 14 | s[COUNT_788]);
    put16(buffer + 4, bytes - 7);
    put16(buffer + 6, s[UNIT] << 12 | p[TRANSACTION]);
    put32(buffer + 8, tick);
    put32(buffer + 12, p[START]);
    put32(buffer + 16, p[WORDS]);
    put32(buffer + 20, p[START] + 4 * p[SENT]);
    put32(buffer + 24, words);
    image += image_place(s + REGIONS, in.dump[place], p[START]) + p[SENT];
    for (uint32_t i = 0; i < words; i++)
        put32(buffer + HEADER_BYTES + 4 * i, image[i]);
    p[SENT] += words;
    if (p[SENT] == p[WORDS])
        memset(p, 0, 4 * PLACE_WORDS);
    s[LAST] = place;
    s[COUNT_788] = (s[COUNT_788] + 1) & 0x3FFF;
    *length = bytes;
    return 0;
}

uint32_t CALL(write_command)(const uint32_t *restrict command, size_t command_words, uint8_t *restrict buffer, size_t buffer_bytes,
                             uint32_t *restrict length)
{
    *length = 0;
    if (command_words != COMMAND_WORDS)
        return 3;
    uint32_t code = command[0], bytes = code_bytes(code), size = command[4], address = command[5], pool = command[6];
    if (bytes == 0)
        return 6;
    if (buffer_bytes < bytes)
        return 3;
    if (command[1] > 16383 || command[2] > 15 || command[3] > 4095 || (code == CODE_POOL && pool > 1))
        return 9;
    if ((code == CODE_DUMP || code == CODE_LOAD) && bad_request(code, size, address))
        return 9;
    if (code >= CODE_VALUE && (command[19] - 1 >= NAME_BYTES || (code == CODE_BY_NAME && size - 1 >= 65535)))
        return 9;
    /* the packet as words, so that the check byte is made from registers */
    uint32_t w0 = 0x1E44C000 | command[1], w1 = (bytes - 7) << 16 | code << 8, w2 = (command[2] << 12 | command[3]) << 16, all = w0 ^ w1;
    if (code == CODE_DUMP || code == CODE_LOAD) {
        w2 |= size;
        all ^= address;
        put32(buffer + 12, address);
    } else if (code == CODE_POOL)
        w2 |= pool;
    else if (code >= CODE_VALUE) {
        uint32_t length = command[19];
        w2 |= length << 8;
        for (uint32_t i = 0; i < NAME_WORDS; i++) {
            uint32_t used = length > 4 * i ? length - 4 * i : 0; /* bytes of the word that are the name's */
            uint32_t word = used >= 4 ? command[7 + i] : used > 0 ? command[7 + i] & ~(0xFFFFFFFFu >> 8 * used) : 0;
            all ^= word;
            put32(buffer + 12 + 4 * i, word);
        }
        if (code == CODE_BY_NAME) {
            all ^= command[20] ^ size;
            put32(buffer + 60, command[20]);
            put32(buffer + 64, size << 16);
        }
    }
    if (code == CODE_LOAD)
        for (uint32_t i = 0; i < LOAD_WORDS; i++) {
            uint32_t word = i < size ? command[7 + i] : 0;
            all ^= word;
            put32(buffer + 16 + 4 * i, word);
        }
    all ^= w2;
    all ^= all >> 16;
    put32(buffer, w0);
    put32(buffer + 4, w1 | (~(all ^ all >> 8) & 0xFF));
    put16(buffer + 8, w2 >> 16);
    if (code != CODE_CANCEL)
        put16(buffer + 10, w2);
    *length = bytes;
    return 0;
}

uint32_t CALL(read_command)(const uint8_t *restrict packet, size_t packet_bytes, uint32_t *restrict command, size_t command_words)
{
    uint32_t number, code, size = 0, address = 0, pool = 0;
    if (command_words != COMMAND_WORDS)
        return 3;
    number = form(packet, packet_bytes);
    if (number != 0)
        return number;
    code = packet[6];
    if (code == CODE_DUMP || code == CODE_LOAD) {
        size = get16(packet + 10);
        address = get32(packet + 12);
        if (bad_request(code, size, address))
            return 9;
    } else if (code == CODE_POOL) {
        pool = get16(packet + 10);
        if (pool > 1)
            return 9;
    } else if (code >= CODE_VALUE) {
        size = code == CODE_BY_NAME ? get16(packet + 64) : 0;
        if (bad_name(packet) || (code == CODE_BY_NAME && size == 0))
            return 9;
    }
    command[0] = code;
    command[1] = get16(packet + 2) & 0x3FFF;
    command[2] = packet[8] >> 4;
    command[3] = get16(packet + 8) & 0xFFF;
    command[4] = size;
    command[5] = address;
    command[6] = pool;
    memset(command + 7, 0, 4 * (COMMAND_WORDS - 7));
    if (code == CODE_LOAD)
        for (uint32_t i = 0; i < LOAD_WORDS; i++)
            command[7 + i] = get32(packet + 16 + 4 * i);
    else if (code >= CODE_VALUE) {
        for (uint32_t i = 0; i < NAME_WORDS; i++)
            command[7 + i] = get32(packet + 12 + 4 * i);
        command[19] = packet[10];
        if (code == CODE_BY_NAME)
            command[20] = get32(packet + 60);
    }
    return 0;
}

/* The number that the dump packet reader gives a packet. */
static inline uint32_t packet_number(const uint8_t *packet, size_t packet_bytes)
{
    if (packet_bytes < HEADER_BYTES)
        return 4;
    uint32_t first = get16(packet), start = get32(packet + 12), asked = get32(packet + 16), here = get32(packet + 20);
    uint32_t words = get32(packet + 24);
    uint32_t sent = (here - start) / 4; /* `here` below `start` gives a number beyond those that can be asked for */
    if (first >> 11 != 0 || packet[2] >> 6 != 3 || get16(packet + 4) != packet_bytes - 7)
        return 4;
    if (first != 788)
        return 5;
    if (words - 1 >= CUT || packet_bytes != HEADER_BYTES + 4 * words)
        return 7;
    if (start % 4 != 0 || here % 4 != 0 || asked - 1 >= 65535 || start + 4 * (uint64_t)asked > (uint64_t)1 << 32)
        return 9;
    if (sent >= asked || sent % CUT != 0 || words != (asked - sent < CUT ? asked - sent : CUT))
        return 9;
    return 0;
}

uint32_t CALL(read_packet)(const uint8_t *restrict packet, size_t packet_bytes, uint32_t *restrict fields, size_t fields_words,
                           uint32_t *restrict data_bytes)
{
    *data_bytes = 0;
    if (fields_words != PACKET_WORDS)
        return 3;
    uint32_t number = packet_number(packet, packet_bytes);
    if (number != 0)
        return number;
    fields[0] = get16(packet + 2) & 0x3FFF;
    fields[1] = packet[6] >> 4;
    fields[2] = get16(packet + 6) & 0xFFF;
    for (uint32_t i = 3; i < PACKET_WORDS; i++)
        fields[i] = get32(packet + 4 * i - 4);
    *data_bytes = (uint32_t)packet_bytes - HEADER_BYTES;
    return 0;
}

/* A bit for each piece that a packet before had. */
uint32_t CALL(check_dump)(const uint8_t *restrict bytes, size_t bytes_length, const uint8_t *restrict lengths, size_t lengths_bytes)
{
    uint64_t seen[(PACKETS + 63) / 64] = { 0 };
    size_t count = lengths_bytes / 2;
    uint32_t all = 0;
    if (lengths_bytes % 2 != 0 || count > PACKETS)
        return 3;
    for (size_t i = 0; i < count; i++)
        all += get16(lengths + 2 * i);
    if (all < bytes_length)
        return 3;
    if (count == 0)
        return 131072;
    const uint8_t *packet = bytes;
    for (size_t i = 0; i < count; i++) {
        size_t length = get16(lengths + 2 * i), left = bytes_length - (size_t)(packet - bytes);
        if (length > left || packet_number(packet, length) != 0)
            return 65536 + (uint32_t)i;
        if (memcmp(packet + 6, bytes + 6, 2) != 0 || memcmp(packet + 12, bytes + 12, 8) != 0)
            return 65536 + (uint32_t)i;
        uint32_t piece = (get32(packet + 20) - get32(packet + 12)) / (4 * CUT);
        if (seen[piece / 64] >> piece % 64 & 1)
            return 65536 + (uint32_t)i;
        seen[piece / 64] |= (uint64_t)1 << piece % 64;
        packet += length;
    }
    uint32_t pieces = (get32(bytes + 16) + CUT - 1) / CUT;
    for (uint32_t k = 0; k < pieces; k++)
        if (!(seen[k / 64] >> k % 64 & 1))
            return 131072 + k;
    return 0;
}
