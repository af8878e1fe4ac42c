/* Hostile input for the exported calls. An input is a list of steps on one state block, one image and one symbol table; each step is a byte that
 * names it, then what it takes. Every lent buffer is a heap block of its own, just as long as is said to the call, so that AddressSanitizer has
 * red zones at both ends; the library's own code is instrumented too (fuzz/run). Beside that, each call's refusals are held to the header: the
 * number is one of the call's, and a refusal leaves every lent buffer as it was; and so are a batch, the packet of a slot, a pool's figures and the
 * check of a dump, beside the packet reader. */
#include "../c/leatgarnet.h"
#include <stdlib.h>
#include <string.h>

static const uint8_t *in;
static size_t left;

static uint32_t byte(void)
{
    return left ? left--, *in++ : 0;
}

static uint32_t half(void)
{
    uint32_t high = byte();
    return high << 8 | byte();
}

static uint32_t word(void)
{
    uint32_t high = half();
    return high << 16 | half();
}

static void must(int holds)
{
    if (!holds)
        abort();
}

/* A lent buffer, and what it held before the call. */
struct lent {
    void *now, *before;
    size_t bytes;
};

static struct lent lend(size_t bytes)
{
    struct lent b = { malloc(bytes), malloc(bytes), bytes };
    must(b.now && b.before);
    memset(b.now, 0xA5, bytes);
    return b;
}

static void give_back(struct lent b)
{
    free(b.now), free(b.before);
}

static void keep(struct lent b)
{
    memcpy(b.before, b.now, b.bytes);
}

static int same(struct lent b)
{
    return memcmp(b.before, b.now, b.bytes) == 0;
}

/* The length that fits, or one near it: the input says how far off. */
static size_t near(size_t fits)
{
    long n = (long)fits + (int8_t)byte();
    return n < 0 ? 0 : (size_t)n;
}

static struct lent words(size_t n)
{
    struct lent b = lend(4 * n);
    for (size_t i = 0; i < n; i++)
        ((uint32_t *)b.now)[i] = word();
    return b;
}

static struct lent bytes(size_t n)
{
    struct lent b = lend(n);
    for (size_t i = 0; i < n; i++)
        ((uint8_t *)b.now)[i] = (uint8_t)byte();
    return b;
}

static struct lent state, image, symbols;

static void start(void)
{
    struct lent table = words(near(LG_TABLE_WORDS));
    keep(table), keep(state);
    uint32_t number = lg_start_up(table.now, table.bytes / 4, state.now, state.bytes / 4);
    must(number == 0 || number == 17);
    must(same(table));
    if (state.bytes != 4 * LG_STATE_WORDS)
        must(number == 17 && same(state));
    else if (number == 17) /* the state of zero regions: zeros, but for the last place served */
        for (size_t i = 0; i < LG_STATE_WORDS; i++)
            must(((uint32_t *)state.now)[i] == (i == 74 ? 3 : 0));
    give_back(table);
}

/* A header, a length field and a check byte that are right, around what the input has. */
static void make_right(struct lent packet)
{
    uint8_t *p = packet.now, all = 0xFF;
    if (packet.bytes < 8)
        return;
    p[0] = 0x1E, p[1] = 0x44, p[2] |= 0xC0, p[4] = (uint8_t)((packet.bytes - 7) >> 8), p[5] = (uint8_t)(packet.bytes - 7), p[6] &= 0x7F, p[7] = 0;
    for (size_t i = 0; i < packet.bytes; i++)
        all ^= p[i];
    p[7] = all;
}

/* Whether a packet can get a number and a reply length: 17 and 18 are for codes 8 and 9 alone, 19 for those that name a range (0, 4 and 9), and each
 * code that replies has its length. */
static int can_get(const uint8_t *packet, size_t bytes, uint32_t number, uint32_t length)
{
    uint32_t code = bytes >= 8 ? packet[6] : 128;
    if (number == 0)
        return length == (code == 7 ? 32 : code == 8 ? 12 : 0);
    if (number == 19)
        return length == 0 && (code == 0 || code == 4 || code == 9);
    return length == 0 && (number <= 15 || ((number == 17 || number == 18) && (code == 8 || code == 9)));
}

static uint64_t number_at(const uint8_t *p)
{
    return (uint64_t)p[0] << 24 | (uint64_t)p[1] << 16 | (uint64_t)p[2] << 8 | p[3];
}

/* Whether a pool can have the figures of a reply: free and used words are the pool; the largest free block has its usable words and one more, and
 * each other free block at least one word and no more than the largest; where no block is free or used, no word is. */
static int figures_can_be(const uint8_t *reply, const uint32_t *s)
{
    uint64_t free_words = number_at(reply + 12), free_blocks = number_at(reply + 16), usable = number_at(reply + 20);
    uint64_t used_words = number_at(reply + 24), used_blocks = number_at(reply + 28);
    uint32_t pool = reply[9];
    int by_free = free_blocks == 0 ? free_words + usable == 0 : free_blocks + usable <= free_words && free_words <= free_blocks * (usable + 1);
    int by_used = used_blocks <= used_words && (used_blocks == 0) == (used_words == 0);
    return pool <= 1 && free_words + used_words == s[50 + 2 * pool] && by_free && by_used;
}

static void command(int right)
{
    struct lent packet = bytes(byte()), reply = lend(near(32));
    uint32_t length = 99;
    if (right)
        make_right(packet);
    keep(packet), keep(reply), keep(state), keep(image), keep(symbols);
    uint32_t number = lg_command(state.now, state.bytes / 4, packet.now, packet.bytes, symbols.now, symbols.bytes, image.now, image.bytes / 4,
                                 reply.now, reply.bytes, &length);
    must(can_get(packet.now, packet.bytes, number, length));
    must(same(packet) && same(symbols));
    must(length != 32 || figures_can_be(reply.now, state.now));
    must(length <= reply.bytes && memcmp((uint8_t *)reply.before + length, (uint8_t *)reply.now + length, reply.bytes - length) == 0);
    must(number == 0 || same(image));
    if (number != 0 && state.bytes == 4 * LG_STATE_WORDS) {
        int counted = !(number <= 3 || number == 5 || number == 8);
        uint32_t *before = state.before;
        before[78] = counted ? (before[78] + 1) % 65536 : before[78];
        must(same(state));
    }
    give_back(packet), give_back(reply);
}

static struct lent copy(const void *from, size_t bytes)
{
    struct lent b = lend(bytes);
    memcpy(b.now, from, bytes);
    return b;
}

/* The answer and what is left must be those of the items' single calls, made in order on copies of what the batch found. */
static void one_by_one(size_t n, struct lent all, const uint32_t *starts, const uint32_t *lengths, struct lent replies,
                       const struct lg_answer *answers)
{
    struct lent s = copy(state.before, state.bytes), i = copy(image.before, image.bytes), r = copy(replies.before, replies.bytes);
    for (size_t k = 0; k < n; k++) {
        int inside = (uint64_t)starts[k] + lengths[k] <= all.bytes;
        struct lent packet = inside ? copy((uint8_t *)all.now + starts[k], lengths[k]) : lend(0), reply = copy((uint8_t *)r.now + 32 * k, 32);
        uint32_t length = 99, number = lg_command(s.now, s.bytes / 4, packet.now, packet.bytes, symbols.now, symbols.bytes, i.now, i.bytes / 4,
                                                  reply.now, 32, &length);
        must(can_get(packet.now, packet.bytes, number, length));
        must(answers[k].number == number && answers[k].length == length);
        memcpy((uint8_t *)r.now + 32 * k, reply.now, 32);
        give_back(packet), give_back(reply);
    }
    must(memcmp(s.now, state.now, s.bytes) == 0 && memcmp(i.now, image.now, i.bytes) == 0 && memcmp(r.now, replies.now, r.bytes) == 0);
    give_back(s), give_back(i), give_back(r);
}

/* Packets as `command` takes them, one behind the other. An item is where its packet is, or where an earlier item is, or it goes past its packet's
 * end, or its start and length are from the input. */
static void commands(int right)
{
    static uint8_t all[66 * 255];
    uint32_t start[66], length[66];
    size_t n = byte() % 67, used = 0;
    for (size_t i = 0; i < n; i++) {
        struct lent packet = { all + used, NULL, byte() };
        for (size_t k = 0; k < packet.bytes; k++)
            all[used + k] = (uint8_t)byte();
        if (right)
            make_right(packet);
        uint32_t where = byte();
        start[i] = (uint32_t)used, length[i] = (uint32_t)packet.bytes;
        used += packet.bytes;
        if (where >= 240)
            start[i] = word(), length[i] = word();
        else if (where >= 224)
            length[i] += byte();
        else if (where >= 208 && i > 0) {
            size_t other = byte() % i;
            start[i] = start[other], length[i] = length[other];
        }
    }
    struct lent buffer = copy(all, used), starts = lend(4 * near(n)), lengths = lend(4 * near(n));
    struct lent answers = lend(sizeof(struct lg_answer) * near(n)), replies = lend(near(32 * n));
    size_t starts_count = starts.bytes / 4, lengths_count = lengths.bytes / 4, answers_count = answers.bytes / sizeof(struct lg_answer);
    for (size_t i = 0; i < n; i++) {
        if (i < starts_count)
            ((uint32_t *)starts.now)[i] = start[i];
        if (i < lengths_count)
            ((uint32_t *)lengths.now)[i] = length[i];
    }
    keep(buffer), keep(starts), keep(lengths), keep(answers), keep(replies), keep(state), keep(image), keep(symbols);
    uint32_t number = lg_commands(state.now, state.bytes / 4, buffer.now, buffer.bytes, starts.now, starts_count, lengths.now, lengths_count,
                                  symbols.now, symbols.bytes, image.now, image.bytes / 4, replies.now, replies.bytes, answers.now, answers_count);
    size_t items = starts_count;
    int fits = items <= LG_BATCH_ITEMS && lengths_count == items && answers_count >= items && replies.bytes >= 32 * items;
    must(number == (fits ? 0 : 3));
    must(same(buffer) && same(starts) && same(lengths) && same(symbols));
    must(fits || (same(answers) && same(replies) && same(state) && same(image)));
    if (fits) {
        const struct lg_answer *a = answers.now, *before = answers.before;
        for (size_t i = 0; i < items; i++)
            must(a[i].number != 3);
        must(memcmp(a + items, before + items, answers.bytes - sizeof *a * items) == 0);
        must(memcmp((uint8_t *)replies.now + 32 * items, (uint8_t *)replies.before + 32 * items, replies.bytes - 32 * items) == 0);
        one_by_one(items, buffer, starts.now, lengths.now, replies, a);
    }
    give_back(buffer), give_back(starts), give_back(lengths), give_back(answers), give_back(replies);
}

static void slot(void)
{
    struct lent buffer = lend(near(4092));
    uint32_t length = 99, tick = word();
    keep(buffer), keep(state), keep(image);
    uint32_t number = lg_slot(state.now, state.bytes / 4, tick, image.now, image.bytes / 4, buffer.now, buffer.bytes, &length);
    must(number <= 3 || number == 16);
    must(same(image));
    must(number == 0 ? length >= 32 && length <= 4092 : length == 0 && same(buffer) && same(state));
    if (number == 0) {
        uint32_t fields[LG_PACKET_WORDS], data_bytes;
        must(lg_read_packet(buffer.now, length, fields, LG_PACKET_WORDS, &data_bytes) == 0 && fields[3] == tick && data_bytes == length - 28);
    }
    give_back(buffer);
}

/* The block of codes 8 and 9 has three words more, which are from the input for those codes alone. */
static void write_command(void)
{
    struct lent first = words(near(LG_COMMAND_WORDS - 3)), block = lend(first.bytes + 12);
    memcpy(block.now, first.now, first.bytes);
    if (first.bytes && (*(uint32_t *)first.now == 8 || *(uint32_t *)first.now == 9))
        for (size_t i = first.bytes / 4; i < block.bytes / 4; i++)
            ((uint32_t *)block.now)[i] = word();
    give_back(first);
    struct lent buffer = lend(byte());
    uint32_t length = 99;
    keep(block), keep(buffer);
    uint32_t number = lg_write_command(block.now, block.bytes / 4, buffer.now, buffer.bytes, &length);
    must(number == 0 || number == 3 || number == 6 || number == 9);
    must(same(block));
    must(number == 0 ? length <= buffer.bytes : length == 0 && same(buffer));
    if (number == 0) {
        uint32_t again[LG_COMMAND_WORDS], *given = block.now;
        must(lg_read_command(buffer.now, length, again, LG_COMMAND_WORDS) == 0 && memcmp(again, given, 16) == 0);
        must(given[0] < 8 || again[19] == given[19]);
        must(given[0] != 9 || (again[4] == given[4] && again[20] == given[20]));
    }
    give_back(block), give_back(buffer);
}

static void read_command(int right)
{
    struct lent packet = bytes(byte()), block = lend(4 * near(LG_COMMAND_WORDS));
    if (right)
        make_right(packet);
    keep(packet), keep(block);
    uint32_t number = lg_read_command(packet.now, packet.bytes, block.now, block.bytes / 4);
    must(number == 0 || (number >= 3 && number <= 7) || number == 9);
    must(same(packet));
    must(number == 0 || same(block));
    give_back(packet), give_back(block);
}

static void read_packet(void)
{
    struct lent packet = bytes(half() % 4200), block = lend(4 * near(LG_PACKET_WORDS));
    uint32_t data_bytes = 99;
    keep(packet), keep(block);
    uint32_t number = lg_read_packet(packet.now, packet.bytes, block.now, block.bytes / 4, &data_bytes);
    must(number == 0 || number == 3 || number == 4 || number == 5 || number == 7 || number == 9);
    must(same(packet));
    must(number == 0 ? data_bytes == packet.bytes - 28 : data_bytes == 0 && same(block));
    give_back(packet), give_back(block);
}

static void put(uint8_t *p, uint32_t v)
{
    p[0] = (uint8_t)(v >> 24), p[1] = (uint8_t)(v >> 16), p[2] = (uint8_t)(v >> 8), p[3] = (uint8_t)v;
}

/* Of the packets before packet n: each is accepted and agrees with the first, and no two have the same data address. Their data bytes. */
static size_t sound(const uint8_t *packet, const uint8_t *lengths, size_t n)
{
    uint32_t here[LG_CHECK_PACKETS], first[LG_PACKET_WORDS], fields[LG_PACKET_WORDS], data_bytes;
    size_t all = 0;
    for (size_t i = 0; i < n; i++) {
        size_t length = (size_t)lengths[2 * i] << 8 | lengths[2 * i + 1];
        must(lg_read_packet(packet, length, fields, LG_PACKET_WORDS, &data_bytes) == 0);
        if (i == 0)
            memcpy(first, fields, sizeof first);
        must(fields[1] == first[1] && fields[2] == first[2] && fields[4] == first[4] && fields[5] == first[5]);
        for (size_t k = 0; k < i; k++)
            must(here[k] != fields[6]);
        here[i] = fields[6], all += data_bytes, packet += length;
    }
    return all;
}

/* Bytes and a list from the input. Or so many packets of a dump, its pieces at some step from each other, with a few bytes of headers and of the list
 * changed, and bytes and list of about the length that fits. */
static void check_dump(int right)
{
    static uint8_t all[70 * 4092], list[140];
    size_t used = 0, count = 0;
    if (right) {
        uint32_t words = 1 + half() % 65535, pieces = (words + 1015) / 1016, start = word(), first = byte(), step = byte(), changes = byte() % 4;
        count = near(pieces) % 70;
        for (size_t i = 0; i < count; i++) {
            uint32_t piece = (first + step * (uint32_t)i) % pieces, n = words - 1016 * piece < 1016 ? words - 1016 * piece : 1016, bytes = 28 + 4 * n;
            uint8_t *p = all + used;
            put(p, 0x0314C000 | (uint32_t)i), put(p + 4, (bytes - 7) << 16 | 0x2123), put(p + 8, (uint32_t)i), put(p + 12, start), put(p + 16, words);
            put(p + 20, start + 4064 * piece), put(p + 24, n);
            memset(p + 28, (int)i, 4 * n);
            list[2 * i] = (uint8_t)(bytes >> 8), list[2 * i + 1] = (uint8_t)bytes;
            used += bytes;
        }
        while (changes-- > 0 && count > 0) {
            uint32_t packet = byte() % (uint32_t)count, at = byte(), value = byte();
            size_t from = 0;
            for (size_t i = 0; i < packet; i++)
                from += (size_t)list[2 * i] << 8 | list[2 * i + 1];
            if (at < 28 && from + at < used)
                all[from + at] = (uint8_t)value;
            else
                list[2 * packet + at % 2] = (uint8_t)value;
        }
    }
    struct lent bytes_lent = right ? copy(all, near(used) % sizeof all) : bytes(half() % 4200);
    struct lent lengths = right ? copy(list, near(2 * count) % sizeof list) : bytes(byte() % 140);
    keep(bytes_lent), keep(lengths);
    uint32_t number = lg_check_dump(bytes_lent.now, bytes_lent.bytes, lengths.now, lengths.bytes);
    must(same(bytes_lent) && same(lengths));
    const uint8_t *l = lengths.now;
    size_t n = lengths.bytes / 2, sum = 0;
    for (size_t i = 0; i < n; i++)
        sum += (size_t)l[2 * i] << 8 | l[2 * i + 1];
    must((number == 3) == (lengths.bytes % 2 == 1 || n > LG_CHECK_PACKETS || sum < bytes_lent.bytes));
    if (number >= LG_MISSING_PIECE) {
        must(number - LG_MISSING_PIECE < LG_CHECK_PACKETS && (n > 0 || number == LG_MISSING_PIECE));
        sound(bytes_lent.now, l, n);
    } else if (number >= LG_BAD_PACKET) {
        must(number - LG_BAD_PACKET < n);
        sound(bytes_lent.now, l, number - LG_BAD_PACKET);
    } else if (number == 0)
        must(n > 0 && sound(bytes_lent.now, l, n) == 4 * number_at((const uint8_t *)bytes_lent.now + 16));
    else
        must(number == 3);
    give_back(bytes_lent), give_back(lengths);
}

/* Another state block, of any length and content; its last word is 0. */
static void other_state(void)
{
    struct lent first = words(near(LG_STATE_WORDS - 1));
    give_back(state);
    state = lend(first.bytes + 4);
    memcpy(state.now, first.now, first.bytes);
    ((uint32_t *)state.now)[first.bytes / 4] = 0;
    give_back(first);
}

/* One word of the state block. */
static void poke(void)
{
    uint32_t at = byte(), value = word();
    if (at < state.bytes / 4)
        ((uint32_t *)state.now)[at] = value;
}

/* Another image: so many words, the first of them from the input. */
static void other_image(void)
{
    size_t n = half(), given = byte();
    give_back(image);
    image = lend(4 * n);
    for (size_t i = 0; i < n; i++)
        ((uint32_t *)image.now)[i] = i < given ? word() : (uint32_t)i;
}

/* Another symbol table: up to seven records from the input as they are. Or up to 258 by rule, the names alike but for their last two bytes (or the
 * only one), which are the record's number; values, or aliases of the record before, or of that of half the number; then a few bytes changed. */
static void other_symbols(int right)
{
    give_back(symbols);
    if (!right) {
        symbols = bytes(near(LG_SYMBOL_BYTES * (byte() % 8)));
        return;
    }
    size_t n = half() % 259, size = 1 + byte() % 48, aliases = byte() % 4;
    uint32_t first = word(), changes = byte() % 8;
    struct lent table = lend(LG_SYMBOL_BYTES * n);
    memset(table.now, 0, table.bytes);
    for (size_t i = 0; i < n; i++) {
        uint8_t *p = (uint8_t *)table.now + LG_SYMBOL_BYTES * i;
        int alias = i > 0 && (aliases == 1 || (aliases == 2 && i % 3 != 0));
        uint32_t number = alias ? (uint32_t)(aliases == 1 ? i - 1 : i / 2) : first + 4 * (uint32_t)i;
        p[0] = (uint8_t)alias, p[1] = (uint8_t)size;
        memset(p + 4, 'a', size);
        if (size > 1)
            p[size + 2] = (uint8_t)(i >> 8);
        p[size + 3] = (uint8_t)i;
        p[52] = (uint8_t)(number >> 24), p[53] = (uint8_t)(number >> 16), p[54] = (uint8_t)(number >> 8), p[55] = (uint8_t)number;
    }
    while (changes-- > 0) {
        size_t at = half(), value = byte();
        if (at < table.bytes)
            ((uint8_t *)table.now)[at] = (uint8_t)value;
    }
    symbols = lend(near(table.bytes));
    memcpy(symbols.now, table.now, symbols.bytes < table.bytes ? symbols.bytes : table.bytes);
    give_back(table);
}

int LLVMFuzzerTestOneInput(const uint8_t *data, size_t size)
{
    in = data, left = size;
    state = lend(4 * LG_STATE_WORDS), image = lend(0), symbols = lend(0);
    for (int steps = 0; left && steps < 64; steps++) {
        uint32_t step = byte();
        if (step >= 242 && step <= 252) { /* a round of eleven */
            commands(step % 2 == 0);
            continue;
        }
        if (step >= 231 && step <= 241) { /* a round of eleven */
            other_symbols(step % 2 == 0);
            continue;
        }
        if (step >= 220 && step <= 230) { /* a round of eleven */
            check_dump(step % 2 == 0);
            continue;
        }
        switch (step % 11) {
        case 0: start(); break;
        case 1: command(0); break;
        case 2: command(1); break;
        case 3: slot(); break;
        case 4: write_command(); break;
        case 5: read_command(0); break;
        case 6: read_command(1); break;
        case 7: read_packet(); break;
        case 8: other_state(); break;
        case 9: poke(); break;
        case 10: other_image(); break;
        }
    }
    give_back(state), give_back(image), give_back(symbols);
    return 0;
}
