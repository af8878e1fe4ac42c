/* The ground desk's check: reads a file of dump packets, back to back and in any order, and says whether they are one whole dump, or what is wrong.
 *   desk FILE          exit 0: one whole dump; 1: not; 2: the file can't be read
 *   gcc -O2 -Wall -Wextra -o desk c/desk.c target/staticlib/libcapi.a */
#include "leatgarnet.h"
#include <stdio.h>

enum { LONGEST = 4092 };

static uint8_t bytes[LG_CHECK_PACKETS * LONGEST + 1]; /* a byte more than a whole dump can have */
static uint8_t lengths[2 * (LG_CHECK_PACKETS + 1)];
static size_t starts[LG_CHECK_PACKETS + 1];

/* A packet's own length: its header's length field and 7. Of a last one with no whole header, what is there. */
static size_t own_length(const uint8_t *packet, size_t left)
{
    return left < 6 ? left : ((size_t)packet[4] << 8 | packet[5]) + 7;
}

/* Why packet i is bad, where none before it is. */
static void say_bad(uint32_t i, size_t left)
{
    uint32_t first[LG_PACKET_WORDS], fields[LG_PACKET_WORDS], data_bytes, number;
    size_t length = (size_t)lengths[2 * i] << 8 | lengths[2 * i + 1];
    printf("packet %u, from byte %zu on: ", (unsigned)i, starts[i]);
    if (length > left) {
        printf("has %zu bytes of %zu, the file ends\n", left, length);
        return;
    }
    number = lg_read_packet(bytes + starts[i], length, fields, LG_PACKET_WORDS, &data_bytes);
    if (number != 0) {
        printf("refused by the packet reader with number %u\n", (unsigned)number);
        return;
    }
    lg_read_packet(bytes, (size_t)lengths[0] << 8 | lengths[1], first, LG_PACKET_WORDS, &data_bytes);
    if (fields[1] != first[1] || fields[2] != first[2])
        printf("is of unit %u, transaction %03X; packet 0 is of unit %u, transaction %03X\n", (unsigned)fields[1], (unsigned)fields[2],
               (unsigned)first[1], (unsigned)first[2]);
    else if (fields[4] != first[4] || fields[5] != first[5])
        printf("is of a request of %u words from %08X; packet 0 is of %u words from %08X\n", (unsigned)fields[5], (unsigned)fields[4],
               (unsigned)first[5], (unsigned)first[4]);
    else
        printf("has the words from %08X, which an earlier packet has\n", (unsigned)fields[6]);
}

int main(int argc, char **argv)
{
    FILE *file = argc == 2 ? fopen(argv[1], "rb") : NULL;
    size_t size, at = 0, count = 0;
    uint32_t number, fields[LG_PACKET_WORDS], data_bytes;
    if (argc != 2) {
        fprintf(stderr, "usage: desk FILE\n");
        return 2;
    }
    if (!file) {
        perror(argv[1]);
        return 2;
    }
    size = fread(bytes, 1, sizeof bytes, file);
    if (ferror(file)) {
        perror(argv[1]);
        return 2;
    }
    fclose(file);
    while (at < size && count <= LG_CHECK_PACKETS) {
        size_t length = own_length(bytes + at, size - at);
        if (length > 65535)
            length = 65535; /* the most that a list of lengths can say; it is refused as such */
        starts[count] = at;
        lengths[2 * count] = (uint8_t)(length >> 8);
        lengths[2 * count + 1] = (uint8_t)length;
        at += length;
        count++;
    }

    number = lg_check_dump(bytes, size, lengths, 2 * count);

    if (number == 0) {
        lg_read_packet(bytes, (size_t)lengths[0] << 8 | lengths[1], fields, LG_PACKET_WORDS, &data_bytes);
        printf("whole: %u words from %08X, unit %u, transaction %03X, in %zu packets\n", (unsigned)fields[5], (unsigned)fields[4],
               (unsigned)fields[1], (unsigned)fields[2], count);
    } else if (count == 0) {
        printf("no packets: piece 0 is missing\n");
    } else if (number >= LG_MISSING_PIECE) {
        printf("piece %u is missing: words %u and on of the range\n", (unsigned)(number - LG_MISSING_PIECE),
               (unsigned)(1016 * (number - LG_MISSING_PIECE)));
    } else if (number >= LG_BAD_PACKET) {
        say_bad(number - LG_BAD_PACKET, size - starts[number - LG_BAD_PACKET]);
    } else {
        printf("over %d packets\n", LG_CHECK_PACKETS);
    }
    return number != 0;
}
