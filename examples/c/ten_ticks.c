/* Plays ten milliseconds through the graph of examples/base.tplg, message by message, and compares each sample with the one that came in.
 * Type, in the folder examples:
 *
 *     cc -I../crates/sof_c c/ten_ticks.c ../crates/sof_c/out/libsof_c.a "$KIT/c/liblibc_c.a" -o ten_ticks
 *     ./ten_ticks in.raw out.raw
 *
 * where KIT is the folder of the toolchain's first page, which `rt doc` prints. out.raw then has the bytes that examples/ten_ticks.txt
 * gives, 384 for each tick: 960 samples of 32 bits. */
#include <stdio.h>
#include <string.h>

#include "sof_c.h"

#define MESSAGES 9
#define SIZE 27

/* The messages, as words of 32 bits, the least byte first: the size in bytes, the command, and its fields. What is not written is 0.
 * docs/FORMATS.md, part 2, says what each field is. */
static const uint32_t messages[MESSAGES][SIZE] = {
    {76, 0x30010000, 0, 1, 1, [7] = 36, [12] = 2},                                   /* COMP_NEW 0: a host that plays */
    {44, 0x30200000, 1, 12, 1, [7] = 768},                                           /* BUFFER_NEW 1: 768 bytes */
    {80, 0x30010000, 2, 2, 1, [7] = 36, [12] = 2},                                   /* COMP_NEW 2: a DAI of 32 bits that plays */
    {48, 0x30100000, 3, 1, 2, [6] = 1000},                                           /* PIPE_NEW 3: each 1000 us, by the DAI */
    {16, 0x30030000, 0, 1},                                                          /* CONNECT 0 to 1 */
    {16, 0x30030000, 1, 2},                                                          /* CONNECT 1 to 2 */
    {12, 0x30130000, 3},                                                             /* PIPE_COMPLETE 3 */
    {108, 0x60010000, [6] = 84, 28, [17] = 48000, 0x20000, 0x20002, 192, [23] = 0x10000}, /* PCM_PARAMS 0: two channels, 16 bits */
    {12, 0x60040000, 0},                                                             /* TRIG_START 0 */
};
static const char *const names[MESSAGES] = {"host",      "buffer",    "DAI",        "pipeline", "host to buffer", "buffer to DAI",
                                            "completed", "parameters", "start"};

/* Sends a message, and says what it is answered. */
static int32_t send_message(struct sof_c_device *device, const uint32_t *words, const char *name) {
    uint8_t request[4 * SIZE], reply[SOF_C_REPLY_BYTES];
    size_t count = 0;
    int32_t error = -1;
    memcpy(request, words, sizeof request);
    uint32_t status = sof_c_exchange(device, request, words[0], reply, sizeof reply, &count);
    if (status == SOF_C_DONE && count >= 12) memcpy(&error, reply + 8, sizeof error);
    printf("%s: status %u, error %d\n", name, status, error);
    return error;
}

/* A tick with 192 bytes of the input. Answers how many of its 96 samples are not those that came in, in the upper half of 32 bits. */
static int play_tick(struct sof_c_device *device, const uint8_t *piece, FILE *out) {
    uint8_t given[SOF_C_TURN_BYTES];
    size_t count = 0;
    int wrong = sof_c_fill(device, 0, piece, 192) || sof_c_tick(device) || sof_c_read(device, 2, given, sizeof given, &count);
    if (wrong || count != 384) return 96;
    for (size_t i = 0; i < 96; i++) {
        uint32_t sample;
        memcpy(&sample, given + 4 * i, sizeof sample);
        wrong += sample != ((uint32_t)piece[2 * i] << 16 | (uint32_t)piece[2 * i + 1] << 24);
    }
    fwrite(given, 1, count, out);
    return wrong;
}

int main(int count, char **words) {
    static uint8_t in[1920];
    struct sof_c_device device = SOF_C_CLOSED;
    int wrong = 0;
    FILE *file = count == 3 ? fopen(words[1], "rb") : NULL, *out = count == 3 ? fopen(words[2], "wb") : NULL;
    if (!file || !out || fread(in, 1, sizeof in, file) != sizeof in) {
        fprintf(stderr, "usage: ten_ticks IN OUT, where IN has 1920 bytes\n");
        return 2;
    }
    fclose(file);
    if (sof_c_new(&device, 992) || sof_c_add_input(&device, 0) || sof_c_add_output(&device, 2) || sof_c_boot(&device, 992)) {
        fprintf(stderr, "no device\n");
        return 1;
    }
    for (int i = 0; i < MESSAGES; i++) wrong += send_message(&device, messages[i], names[i]) != 0;
    for (int tick = 0; tick < 10; tick++) wrong += play_tick(&device, in + 192 * tick, out);
    printf("%llu ticks, %u bytes of heap carved, %d wrong\n", (unsigned long long)sof_c_ticks(&device), sof_c_used(&device), wrong);
    sof_c_free(&device);
    return fclose(out) != 0 || wrong;
}
