/* The C interface of the memory service (paper 01; paper 02, A1 to A6), for x86-64. Nothing is allocated and nothing is kept between calls: all state
 * is in the block that the caller lends, so that calls on blocks of their own may run at the same time. The library needs `memset` and nothing else.
 * Stack, as measured on x86-64: start-up 112 bytes, a command 400, a batch 560, a slot 180, the command writer 60, the command reader 32, the dump packet
 * reader 49, the check of a dump 145; a symbol takes as much whether it is resolved through no alias or through the longest chain, of 255.
 * Each call returns a result number of the papers. What a call asks of its caller:
 *   - a pointer and its length say what is lent; a length of 0 lends nothing, and its pointer may be anything;
 *   - words and answer records are aligned to 4 bytes;
 *   - the pointer to a length that a call sets points to a word;
 *   - no two of all these overlap, the word of a length included.
 * All else is the call's to test: any content, any length. A refusal changes nothing but that length, which becomes 0, a refused count where the
 * paper says so, and the state that start-up gives with 17. */
#ifndef LEATGARNET_H
#define LEATGARNET_H
#include <stddef.h>
#include <stdint.h>
#ifdef __cplusplus
extern "C" {
#endif

/* THE STATE BLOCK: 80 words of 32 bits, in the machine's byte order.
 *   0        number of regions in use
 *   1..48    sixteen regions, three words each: start address, size in words, rights (0 none, 1 load, 2 dump, 3 both)
 *   49..52   pools 0 and 1, two words each: start address, size in words
 *   53       unit
 *   54..73   four dump places, five words each: 0 idle or 1 busy, transaction, start address, requested words, words sent
 *            (an idle place is five zeros)
 *   74       last place served
 *   75, 76   packet counts of APID 785 and of APID 788
 *   77, 78   accepted and refused counts
 *   79       packet count of APID 786
 * An entry that is not in use may hold anything, and no call but start-up writes it.
 * lg_command and lg_slot answer 1 to a block that is no good state: of another length, with a word that its field can't hold (rights over 3 of a region
 * in use; busy over 1; an idle place that is not five zeros; unit or last over 255; transaction or a count over 65,535), or with a state that breaks a
 * rule of the paper. lg_commands answers 1 so to each of its items. */
#define LG_STATE_WORDS 80

/* THE TABLE BLOCK, for start-up: 54 words.
 *   0 unit; 1 number of regions; 2..5 pools 0 and 1: start, size; 6..53 sixteen regions: start, size, rights, as in the state. */
#define LG_TABLE_WORDS 54

/* 0 and the fresh state in `state`, with zeros in the entries that are not in use; or 17 and the state of zero regions, which is zeros but for 3 in
 * word 74, which every later call answers with 1. A table of another length, or with a word that its field can't hold (rights over 3 of a region in use; unit
 * over 255), gives 17 so too; an entry that is not in use may hold anything. If the state block has another length: 17, and nothing is written. */
uint32_t lg_start_up(const uint32_t *table, size_t table_words, uint32_t *state, size_t state_words);

/* THE SYMBOL TABLE, for codes 8 and 9: up to 256 records of 56 bytes, numbered from 0; none is a table too. Numbers are big-endian.
 *   0        kind: 0 a value, 1 an alias
 *   1        bytes of the name, 1 to 48
 *   2, 3     zero
 *   4..51    the name, and zeros after it; no two records have one name
 *   52..55   the value, or of an alias the number of a lower-numbered record, through which it is resolved
 * Other commands never look at it. */
#define LG_SYMBOL_BYTES 56

/* Numbers 0 to 15 and 17 to 19. A load, a dump and a dump by name get 10 if the first word of their range is in no region, and 19, in 10's place, after
 * 9 and before 11, if the range starts inside a region and runs out of it, into a touching region too. Pool statistics get 10 if there is no such pool.
 * For codes 8 and 9 the order of the tests is 1 to 8; 17 if `symbols` is no table; 9 for the name's size, the pad and the zero bits; 18 if the table has
 * no such name; and for code 9 then 9 for the address and size, 10, 19, and 11 to 13. `reply` has at least 32 bytes for every command, else 3.
 * `reply_length` is set to the bytes written to it: 32 after pool statistics, 12 after the value of a symbol, else 0.
 *
 * Both replies are telemetry packets: 6 bytes of primary header, then unit and transaction in bytes 6 and 7. Numbers are big-endian.
 * Pool statistics, APID 785:
 *   8, 9     pool; 10 and 11 are zero
 *   12..15   free words, the first words of blocks included
 *   16..19   free blocks
 *   20..23   usable words of the largest free block: its size minus one, since its first word isn't usable; 0 if no block is free,
 *            and also if each free block has one word
 *   24..27   used words, first words included; free and used words add up to the pool's size
 *   28..31   used blocks
 * Value of a symbol, APID 786:
 *   8..11    the value */
uint32_t lg_command(uint32_t *state, size_t state_words, const uint8_t *packet, size_t packet_bytes, const uint8_t *symbols, size_t symbols_bytes,
                    uint32_t *image, size_t image_words, uint8_t *reply, size_t reply_bytes, uint32_t *reply_length);

/* What one item of a batch got: its number, as lg_command gives it but never 3, and the bytes of its reply: 32 after pool statistics, 12 after the
 * value of a symbol, else 0. */
struct lg_answer {
    uint32_t number, length;
};

/* The most items of a batch. */
#define LG_BATCH_ITEMS 64

/* A batch: up to 64 commands in one call, as that many calls of lg_command in their order, refused ones included; each finds the state and the
 * image as the one before left them. The packet of item i is `lengths[i]` bytes of `bytes` from byte `starts[i]` on; items may overlap. One that
 * leaves the buffer (start plus length past its end; the sum does not wrap) is an empty packet, not a shortened one. All items are lent the one
 * symbol table. The reply buffer of item i is bytes 32 i to 32 i + 31 of `replies`, and record i of `answers`, an array of `answers_count` records, gets
 * its number and reply length.
 * 3 for over 64 items, `starts_count` other than `lengths_count`, fewer records than items, or `replies` shorter than 32 bytes for each item: before
 * any other test, and nothing changes. Else 0, whatever the items got; with a block that is no good state each gets 1. Records beyond the items
 * stay, and so does each byte of `replies` that no item writes. */
uint32_t lg_commands(uint32_t *state, size_t state_words, const uint8_t *bytes, size_t bytes_length, const uint32_t *starts, size_t starts_count,
                     const uint32_t *lengths, size_t lengths_count, const uint8_t *symbols, size_t symbols_bytes, uint32_t *image, size_t image_words,
                     uint8_t *replies, size_t replies_bytes, struct lg_answer *answers, size_t answers_count);

/* Numbers 0, 1, 2, 3 and 16. `buffer` has at least 4,092 bytes, else 3. `length` is set to the bytes of the packet in it, 0 if refused. */
uint32_t lg_slot(uint32_t *state, size_t state_words, uint32_t tick, const uint32_t *image, size_t image_words, uint8_t *buffer,
                 size_t buffer_bytes, uint32_t *length);

/* THE COMMAND BLOCK: 21 words.
 *   0..3     function code, sequence count, unit, transaction
 *   4, 5, 6  size in words (codes 0, 4 and 9), address (0 and 4), pool (7)
 *   7..17    eleven data words (4)
 *   7..18    the 48 bytes that hold a symbol's name, four to a word, the first in the top bits (8 and 9)
 *   19       how many of them the name has (8 and 9)
 *   20       offset in bytes from the symbol's value, two's complement (9)
 * Words that the code does not use are not read when writing, and 0 when read. A load's data words beyond its size, and the bytes beyond a name's,
 * are written as 0, and read as they stand in the packet. */
#define LG_COMMAND_WORDS 21

/* 0 and the packet at the start of `buffer`, its bytes in `length`. Else, in this order: 3 if the block has another length; 6 for another code than
 * 0, 1, 4, 7, 8 or 9; 3 if the buffer is shorter than the packet; 9 for a field out of its bounds (a size or pool over 65,535 too). */
uint32_t lg_write_command(const uint32_t *command, size_t command_words, uint8_t *buffer, size_t buffer_bytes, uint32_t *length);

/* 0 and the fields in `command`; 3 if the block has another length, before all else; 4, 5, 6, 7 or 9, and `command` unchanged. For codes 8 and 9 the
 * 9 is what can be seen without a symbol table: the name's size, the pad, the zero bits, and in code 9 a size of 0. */
uint32_t lg_read_command(const uint8_t *packet, size_t packet_bytes, uint32_t *command, size_t command_words);

/* THE DUMP PACKET BLOCK: 8 words: sequence count, unit, transaction, tick, requested address, requested words, address of this packet's data,
 * words in this packet. The data part is the packet from byte 28 on: `data_bytes` bytes, 0 if refused. */
#define LG_PACKET_WORDS 8

/* 0 and the fields in `fields`; 3 if the block has another length, before all else; 4, 5, 7 or 9, and `fields` unchanged. */
uint32_t lg_read_packet(const uint8_t *packet, size_t packet_bytes, uint32_t *fields, size_t fields_words, uint32_t *data_bytes);

/* THE CHECK OF A WHOLE DUMP, for the ground desk: are these packets, whoever sent them, back to back in `bytes` and in any order, one whole dump?
 * `lengths` has two bytes, big-endian, for each packet: its length. Packets and pieces are numbered from 0. In this order:
 *   3               the list has an odd number of bytes or over 65 lengths, or bytes are left over after the last packet
 *   65,536 + i      packet i is the first bad one: refused by the dump packet reader, past the end of `bytes`, of another unit, transaction, requested
 *                   address or requested words than packet 0, or with a piece that an earlier packet has
 *   131,072 + k     piece k, words 1,016 k and on of the requested range, is the lowest missing one; 131,072 if there are no packets
 *   0               each piece of the range is there once
 * Sequence counts and ticks are not compared, and the data are not read. */
#define LG_CHECK_PACKETS 65
#define LG_BAD_PACKET 65536
#define LG_MISSING_PIECE 131072
uint32_t lg_check_dump(const uint8_t *bytes, size_t bytes_length, const uint8_t *lengths, size_t lengths_bytes);

#ifdef __cplusplus
}
#endif
#endif
