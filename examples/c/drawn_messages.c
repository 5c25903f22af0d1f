/* Sends 100000 drawn messages to a device, with ticks, cuts and boots between them, and tests that each has a reply of the right form.
 * Type, in the folder examples:
 *
 *     cc -I../crates/sof_c c/drawn_messages.c ../crates/sof_c/out/libsof_c.a "$KIT/c/liblibc_c.a" -o drawn_messages
 *     ./drawn_messages 1
 *
 * where 1 is the seed. A message is one of a stream's, of a graph's or of bytes alone, with some of its words drawn anew. */
#include <stdio.h>
#include <stdlib.h>
#include <string.h>

#include "sof_c.h"

#define WORDS 96

/* Commands that the firmware knows, and one that it does not: docs/FORMATS.md, part 2. */
static const uint32_t commands[] = {0x30010000, 0x30020000, 0x30030000, 0x30100000, 0x30110000, 0x30130000, 0x30200000, 0x30210000,
                                    0x40010000, 0x50010000, 0x50020000, 0x50030000, 0x50040000, 0x60010000, 0x60030000, 0x60040000,
                                    0x60050000, 0x60060000, 0x60070000, 0x12345678};

static uint64_t seed;

static uint32_t drawn(uint32_t below) {
    seed ^= seed << 13;
    seed ^= seed >> 7;
    seed ^= seed << 17;
    return (uint32_t)(seed >> 32) % below;
}

/* Draws a message, and answers its size in bytes. Mostly its first word is this size, and its fields are small. */
static size_t draw(uint32_t *words) {
    size_t size = drawn(8) ? 4 * (3 + drawn(25)) : drawn(4 * WORDS + 1);
    for (size_t i = 0; i < WORDS; i++) words[i] = drawn(4) ? drawn(4) : drawn(8) ? 1u << drawn(32) : drawn(0xffffffff);
    words[1] = drawn(16) ? commands[drawn(sizeof commands / sizeof *commands)] : drawn(0xffffffff);
    if (drawn(16)) words[0] = (uint32_t)size;
    /* The sizes and formats that a component's config, a buffer or a stream's parameters have. */
    if (drawn(2)) words[7] = words[1] == 0x30200000 ? 768 : words[1] == 0x60010000 ? 28 : 36;
    if (words[1] == 0x60010000 && drawn(2)) words[6] = 84, words[17] = 48000, words[18] = 0x20000, words[19] = 0x20002;
    if (words[1] == 0x30100000 && drawn(2)) words[6] = 1000;
    return size;
}

int main(int count, char **arguments) {
    struct sof_c_device device = SOF_C_CLOSED;
    uint8_t reply[SOF_C_REPLY_BYTES], out[SOF_C_TURN_BYTES], request[4 * WORDS];
    uint32_t words[WORDS];
    unsigned long wrong = 0, taken = 0;
    seed = count > 1 ? strtoull(arguments[1], NULL, 10) : 1;
    seed = seed * 0x9e3779b97f4a7c15u + 1;
    if (sof_c_new(&device, 65536) || sof_c_add_input(&device, 0) || sof_c_add_output(&device, 2) || sof_c_boot(&device, 65536)) {
        fprintf(stderr, "no device\n");
        return 1;
    }
    for (int i = 0; i < 100000; i++) {
        size_t size = draw(words), bytes = 0;
        uint32_t frame[3] = {0, 0, 0};
        memcpy(request, words, sizeof request);
        memset(reply, 0xa5, sizeof reply);
        wrong += sof_c_exchange(&device, request, size, reply, sizeof reply, &bytes) != SOF_C_DONE;
        /* A reply begins with its own size, the reply's command and an error, and nothing is written after it. */
        memcpy(frame, reply, sizeof frame);
        wrong += bytes < 12 || bytes > sizeof reply || frame[0] != bytes || frame[1] != 0x10000000 || (int32_t)frame[2] > 0;
        for (size_t k = bytes; k < sizeof reply; k++) wrong += reply[k] != 0xa5;
        taken += frame[2] == 0;
        if (drawn(16) == 0) {
            wrong += sof_c_fill(&device, 0, request, drawn(sizeof request)) > SOF_C_DONE && sof_c_held(&device, 0) < 1048000;
            wrong += sof_c_tick(&device) != SOF_C_DONE;
            wrong += sof_c_read(&device, 2, out, sizeof out, &bytes) != SOF_C_DONE || bytes > sizeof out;
        }
        wrong += sof_c_used(&device) > 65536;
        if (drawn(256) == 0) wrong += sof_c_cut(&device) != SOF_C_DONE || sof_c_boot(&device, drawn(65537)) != SOF_C_DONE;
    }
    printf("100000 messages, %lu done, %lu wrong\n", taken, wrong);
    sof_c_free(&device);
    return wrong != 0;
}
