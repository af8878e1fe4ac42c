/* The yardstick: the eight calls of leatgarnet.h by hand in C, with the same arguments and answers, once by gcc and once by clang. */
#ifndef BASELINE_H
#define BASELINE_H
#include "../c/leatgarnet.h" /* for struct lg_answer */
#include <stddef.h>
#include <stdint.h>

#define BASELINE(P) \
    uint32_t P##start_up(const uint32_t *restrict table, size_t table_words, uint32_t *restrict state, size_t state_words); \
    uint32_t P##command(uint32_t *restrict state, size_t state_words, const uint8_t *restrict packet, size_t packet_bytes, \
                        const uint8_t *restrict symbols, size_t symbols_bytes, uint32_t *restrict image, size_t image_words, uint8_t *restrict reply, \
                        size_t reply_bytes, uint32_t *restrict reply_length); \
    uint32_t P##commands(uint32_t *restrict state, size_t state_words, const uint8_t *restrict bytes, size_t bytes_length, \
                         const uint32_t *restrict starts, size_t starts_count, const uint32_t *restrict lengths, size_t lengths_count, \
                         const uint8_t *restrict symbols, size_t symbols_bytes, uint32_t *restrict image, size_t image_words, \
                         uint8_t *restrict replies, size_t replies_bytes, \
                         struct lg_answer *restrict answers, size_t answers_count); \
    uint32_t P##slot(uint32_t *restrict state, size_t state_words, uint32_t tick, const uint32_t *restrict image, size_t image_words, \
                     uint8_t *restrict buffer, size_t buffer_bytes, uint32_t *restrict length); \
    uint32_t P##write_command(const uint32_t *restrict command, size_t command_words, uint8_t *restrict buffer, size_t buffer_bytes, \
                              uint32_t *restrict length); \
    uint32_t P##read_command(const uint8_t *restrict packet, size_t packet_bytes, uint32_t *restrict command, size_t command_words); \
    uint32_t P##read_packet(const uint8_t *restrict packet, size_t packet_bytes, uint32_t *restrict fields, size_t fields_words, \
                            uint32_t *restrict data_bytes); \
    uint32_t P##check_dump(const uint8_t *restrict bytes, size_t bytes_length, const uint8_t *restrict lengths, size_t lengths_bytes);

BASELINE(gcc_)
BASELINE(clang_)
#endif
