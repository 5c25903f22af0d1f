/* Tests of the library for C, through its header alone. Each expected number stands in docs/FORMATS.md, docs/BEHAVIOUR.md, the
 * header or a case of tests/cases. Says each check that fails, and ends with the line 'N passed, M failed'. */
#include <stdio.h>
#include <stdlib.h>
#include <string.h>

#include "sof_c.h"

#include "small_graph.h"

static int passed, failed;

static void check(int holds, const char *what, int line) {
    if (holds) {
        passed++;
    } else {
        failed++;
        printf("FAILED line %d: %s\n", line, what);
    }
}
#define CHECK(holds) check(holds, #holds, __LINE__)

static size_t bytes_of(const char *hex, uint8_t *out) {
    size_t n = strlen(hex) / 2;
    for (size_t i = 0; i < n; i++) {
        unsigned byte;
        sscanf(hex + 2 * i, "%2x", &byte);
        out[i] = (uint8_t)byte;
    }
    return n;
}

static int32_t word_at(const uint8_t *bytes, size_t at) {
    return (int32_t)(bytes[at] | (uint32_t)bytes[at + 1] << 8 | (uint32_t)bytes[at + 2] << 16 | (uint32_t)bytes[at + 3] << 24);
}

/* The error word of a reply without a body; 1 for another one. */
static int32_t error_of(const uint8_t *reply, size_t count) {
    return count == 12 && word_at(reply, 0) == 12 && word_at(reply, 4) == 0x10000000 ? word_at(reply, 8) : 1;
}

/* What a message is answered: its error word, and 2 where the call is not done. */
static int32_t error_to(struct sof_c_device *device, const uint8_t *request, size_t size) {
    uint8_t reply[SOF_C_REPLY_BYTES];
    size_t count = 7;
    if (sof_c_exchange(device, request, size, reply, sizeof reply, &count) != SOF_C_DONE) return 2;
    return error_of(reply, count);
}

static int32_t error_to_hex(struct sof_c_device *device, const char *hex) {
    uint8_t request[SOF_C_REPLY_BYTES];
    return error_to(device, request, bytes_of(hex, request));
}

static int loads(struct sof_c_device *device) {
    for (size_t i = 0; i < sizeof LOAD / sizeof *LOAD; i++) {
        if (error_to_hex(device, LOAD[i]) != 0) return 0;
    }
    return 1;
}

/* Handles: closed ones refuse each call, and a free may come twice. */
static void handles(void) {
    struct sof_c_device device = SOF_C_CLOSED;
    uint8_t request[12] = {0}, reply[SOF_C_REPLY_BYTES];
    size_t count = 7;
    memset(reply, 0xa5, sizeof reply);
    CHECK(sof_c_boot(&device, 992) == SOF_C_CLOSED_HANDLE);
    CHECK(sof_c_cut(&device) == SOF_C_CLOSED_HANDLE);
    CHECK(sof_c_tick(&device) == SOF_C_CLOSED_HANDLE);
    CHECK(sof_c_exchange(&device, request, 12, reply, sizeof reply, &count) == SOF_C_CLOSED_HANDLE);
    CHECK(count == 0 && reply[0] == 0xa5);
    CHECK(sof_c_add_input(&device, 0) == SOF_C_CLOSED_HANDLE);
    CHECK(sof_c_add_output(&device, 0) == SOF_C_CLOSED_HANDLE);
    CHECK(sof_c_fill(&device, 0, request, 12) == SOF_C_CLOSED_HANDLE);
    CHECK(sof_c_read(&device, 0, reply, sizeof reply, &count) == SOF_C_CLOSED_HANDLE);
    CHECK(sof_c_is_on(&device) == 0 && sof_c_ticks(&device) == 0 && sof_c_used(&device) == 0 && sof_c_held(&device, 0) == 0);
    sof_c_free(&device);
    CHECK(!device.held);
    CHECK(sof_c_new(&device, 4096) == SOF_C_DONE);
    CHECK(device.held);
    CHECK(sof_c_new(&device, 4096) == SOF_C_OPEN);
    sof_c_free(&device);
    CHECK(!device.held);
    sof_c_free(&device);
    CHECK(!device.held);
}

/* NULL, and lengths that no memory has: each call has a number, and an open device stays as it was. */
static void nulls(void) {
    struct sof_c_device device = SOF_C_CLOSED;
    uint8_t bytes[SOF_C_REPLY_BYTES] = {0};
    size_t count = 7, huge = (size_t)PTRDIFF_MAX + 1;
    CHECK(sof_c_new(NULL, 992) == SOF_C_NULL && sof_c_boot(NULL, 992) == SOF_C_NULL && sof_c_cut(NULL) == SOF_C_NULL);
    CHECK(sof_c_tick(NULL) == SOF_C_NULL && sof_c_add_input(NULL, 0) == SOF_C_NULL && sof_c_add_output(NULL, 0) == SOF_C_NULL);
    CHECK(sof_c_is_on(NULL) == 0 && sof_c_ticks(NULL) == 0 && sof_c_used(NULL) == 0 && sof_c_held(NULL, 0) == 0);
    sof_c_free(NULL);
    CHECK(sof_c_new(&device, 992) == SOF_C_DONE && sof_c_boot(&device, 992) == SOF_C_DONE);
    CHECK(sof_c_add_input(&device, 0) == SOF_C_DONE && sof_c_add_output(&device, 2) == SOF_C_DONE);
    CHECK(sof_c_exchange(NULL, bytes, 12, bytes, sizeof bytes, &count) == SOF_C_NULL && count == 0);
    CHECK(sof_c_exchange(&device, NULL, 12, bytes, sizeof bytes, &count) == SOF_C_NULL);
    CHECK(sof_c_exchange(&device, bytes, 12, NULL, sizeof bytes, &count) == SOF_C_NULL);
    CHECK(sof_c_exchange(&device, bytes, 12, NULL, 0, &count) == SOF_C_NULL);
    CHECK(sof_c_exchange(&device, bytes, 12, bytes, sizeof bytes, NULL) == SOF_C_NULL);
    CHECK(sof_c_exchange(&device, bytes, huge, bytes, sizeof bytes, &count) == SOF_C_TOO_LARGE);
    CHECK(sof_c_exchange(&device, bytes, 12, bytes, huge, &count) == SOF_C_TOO_LARGE && count == 0);
    CHECK(sof_c_exchange(&device, NULL, 0, bytes, sizeof bytes, &count) == SOF_C_DONE && count == 12 && error_of(bytes, count) == -22);
    CHECK(sof_c_fill(NULL, 0, bytes, 1) == SOF_C_NULL && sof_c_fill(&device, 0, NULL, 1) == SOF_C_NULL);
    CHECK(sof_c_fill(&device, 0, bytes, huge) == SOF_C_TOO_LARGE && sof_c_held(&device, 0) == 0);
    CHECK(sof_c_fill(&device, 0, NULL, 0) == SOF_C_DONE && sof_c_held(&device, 0) == 0);
    CHECK(sof_c_read(NULL, 2, bytes, 1, &count) == SOF_C_NULL && sof_c_read(&device, 2, NULL, 1, &count) == SOF_C_NULL);
    CHECK(sof_c_read(&device, 2, bytes, 1, NULL) == SOF_C_NULL && sof_c_read(&device, 2, bytes, huge, &count) == SOF_C_TOO_LARGE);
    CHECK(sof_c_read(&device, 2, NULL, 0, &count) == SOF_C_DONE && count == 0);
    CHECK(sof_c_check(NULL, 1).status == SOF_C_NULL && sof_c_check(bytes, huge).status == SOF_C_TOO_LARGE);
    CHECK(sof_c_check(NULL, 0).status == SOF_C_DONE);
    CHECK(sof_c_is_on(&device) == 1 && sof_c_ticks(&device) == 0);
    sof_c_free(&device);
}

/* Power: on, off, and a heap above the greatest. */
static void power(void) {
    struct sof_c_device device = SOF_C_CLOSED;
    CHECK(sof_c_new(&device, 992) == SOF_C_DONE);
    CHECK(sof_c_is_on(&device) == 0);
    CHECK(sof_c_cut(&device) == SOF_C_OFF);
    CHECK(sof_c_tick(&device) == SOF_C_OFF);
    CHECK(error_to_hex(&device, START) == 2);
    CHECK(sof_c_boot(&device, 993) == SOF_C_TOO_LARGE);
    CHECK(sof_c_boot(&device, 992) == SOF_C_DONE);
    CHECK(sof_c_boot(&device, 992) == SOF_C_ON);
    CHECK(sof_c_is_on(&device) == 1 && sof_c_used(&device) == 0);
    CHECK(loads(&device));
    CHECK(sof_c_used(&device) == 992);
    CHECK(sof_c_cut(&device) == SOF_C_DONE);
    CHECK(sof_c_is_on(&device) == 0 && sof_c_used(&device) == 0);
    /* 976 bytes are too few for the pipeline: tests/cases/traces/a_load_without_room_is_traced. */
    CHECK(sof_c_boot(&device, 976) == SOF_C_DONE);
    CHECK(error_to_hex(&device, LOAD[0]) == 0 && error_to_hex(&device, LOAD[1]) == 0 && error_to_hex(&device, LOAD[2]) == 0);
    CHECK(error_to_hex(&device, LOAD[3]) == -12);
    sof_c_free(&device);
}

/* Ten ticks: 960 samples of 32767 come as 32-bit ones, as in tests/cases/examples/ten_ticks. */
static void ten_ticks(void) {
    struct sof_c_device device = SOF_C_CLOSED;
    uint8_t in[1920], out[SOF_C_TURN_BYTES];
    size_t count;
    for (size_t i = 0; i < sizeof in; i += 2) {
        in[i] = 0xff;
        in[i + 1] = 0x7f;
    }
    CHECK(sof_c_new(&device, 65536) == SOF_C_DONE);
    CHECK(sof_c_add_input(&device, 0) == SOF_C_DONE && sof_c_add_input(&device, 0) == SOF_C_BOUND);
    CHECK(sof_c_add_output(&device, 2) == SOF_C_DONE && sof_c_add_output(&device, 2) == SOF_C_BOUND);
    CHECK(sof_c_boot(&device, 992) == SOF_C_DONE);
    CHECK(loads(&device));
    CHECK(sof_c_fill(&device, 0, in, sizeof in) == SOF_C_DONE);
    CHECK(sof_c_held(&device, 0) == 1920);
    /* Nothing moves before the start. */
    CHECK(sof_c_tick(&device) == SOF_C_DONE && sof_c_held(&device, 0) == 1920);
    CHECK(sof_c_read(&device, 2, out, sizeof out, &count) == SOF_C_DONE && count == 0);
    CHECK(error_to_hex(&device, PARAMS) == 0 && error_to_hex(&device, START) == 0);
    for (int tick = 0; tick < 10; tick++) {
        CHECK(sof_c_tick(&device) == SOF_C_DONE);
        CHECK(sof_c_held(&device, 0) == 1920 - 192 * (size_t)(tick + 1));
        memset(out, 0xa5, sizeof out);
        CHECK(sof_c_read(&device, 2, out, 383, &count) == SOF_C_SHORT && count == 384 && out[0] == 0xa5);
        CHECK(sof_c_read(&device, 2, out, sizeof out, &count) == SOF_C_DONE && count == 384);
        int right = out[384] == 0xa5;
        for (size_t i = 0; i < 384; i += 4) right = right && word_at(out, i) == 0x7fff0000;
        CHECK(right);
    }
    /* The input is at its end: zeros. */
    CHECK(sof_c_tick(&device) == SOF_C_DONE && sof_c_read(&device, 2, out, sizeof out, &count) == SOF_C_DONE && count == 384);
    int zeros = 1;
    for (size_t i = 0; i < 384; i++) zeros = zeros && out[i] == 0;
    CHECK(zeros);
    CHECK(sof_c_ticks(&device) == 12);
    CHECK(error_to_hex(&device, STOP) == 0);
    CHECK(sof_c_tick(&device) == SOF_C_DONE && sof_c_read(&device, 2, out, sizeof out, &count) == SOF_C_DONE && count == 0);
    CHECK(error_to_hex(&device, PCM_FREE) == 0);
    sof_c_free(&device);
}

/* The graph of examples/capture.toml, and a stream of it: docs/FORMATS.md, part 2. */
static const char *const CAPTURE[] = {
    /* COMP_NEW 0: a DAI that captures, of 32 bits */
    "5000000000000130000000000200000001000000000000000000000024000000000000000000000000000000000000000200"
    "000000000000000000000000000001000000000000000000000000000000",
    /* BUFFER_NEW 1: 768 bytes */
    "2c00000000002030010000000c00000001000000000000000000000000030000000000000000000000000000",
    /* COMP_NEW 2: a host that captures */
    "4c00000000000130020000000100000001000000000000000000000024000000000000000000000000000000000000000200"
    "0000000000000000000000000000010000000000000000000000",
    /* PIPE_NEW 3: pipeline 1, scheduled by 0, each 1000 us */
    "300000000000103003000000010000000000000000000000e80300000000000000000000000000000000000000000000",
    /* CONNECT 0 to 1, CONNECT 1 to 2, PIPE_COMPLETE 3 */
    "10000000000003300000000001000000",
    "10000000000003300100000002000000",
    "0c0000000000133003000000",
    /* PCM_PARAMS of host 2: two channels of 32 bits, captured; TRIG_START */
    "6c0000000000016002000000000000000000000000000000540000001c000000000000000000000000000000000000000000"
    "00000000000001000000020000000000000080bb000000000200040004008001000000000000000000000000010000000000"
    "0000000000000000",
    "0c0000000000046002000000",
};

/* What a DAI of 32 bits captures, a stream of 32 bits gives as it is. */
static void captures(void) {
    struct sof_c_device device = SOF_C_CLOSED;
    uint8_t in[3840], out[SOF_C_TURN_BYTES];
    size_t count, at = 0;
    for (size_t i = 0; i < sizeof in; i++) in[i] = (uint8_t)(i * 7 + i / 256);
    CHECK(sof_c_new(&device, 992) == SOF_C_DONE && sof_c_boot(&device, 992) == SOF_C_DONE);
    CHECK(sof_c_add_input(&device, 0) == SOF_C_DONE && sof_c_add_output(&device, 2) == SOF_C_DONE);
    for (size_t i = 0; i < sizeof CAPTURE / sizeof *CAPTURE; i++) CHECK(error_to_hex(&device, CAPTURE[i]) == 0);
    CHECK(sof_c_fill(&device, 0, in, sizeof in) == SOF_C_DONE);
    for (int tick = 0; tick < 10; tick++) {
        CHECK(sof_c_tick(&device) == SOF_C_DONE && sof_c_read(&device, 2, out, sizeof out, &count) == SOF_C_DONE);
        CHECK(count == 384 && memcmp(out, in + at, 384) == 0);
        at += 384;
    }
    sof_c_free(&device);
}

/* Endpoints that are not there, and an input that is full. */
static void endpoints(void) {
    struct sof_c_device device = SOF_C_CLOSED;
    static uint8_t piece[SOF_C_INPUT_BYTES + 1];
    uint8_t out[8];
    size_t count = 7;
    CHECK(sof_c_new(&device, 4096) == SOF_C_DONE);
    CHECK(sof_c_fill(&device, 5, piece, 1) == SOF_C_UNKNOWN);
    CHECK(sof_c_read(&device, 5, out, sizeof out, &count) == SOF_C_UNKNOWN && count == 0);
    CHECK(sof_c_held(&device, 5) == 0);
    CHECK(sof_c_add_input(&device, 0xffffffff) == SOF_C_DONE);
    CHECK(sof_c_fill(&device, 0xffffffff, piece, sizeof piece) == SOF_C_FULL);
    CHECK(sof_c_held(&device, 0xffffffff) == 0);
    CHECK(sof_c_fill(&device, 0xffffffff, piece, SOF_C_INPUT_BYTES) == SOF_C_DONE);
    CHECK(sof_c_fill(&device, 0xffffffff, piece, 0) == SOF_C_DONE);
    CHECK(sof_c_fill(&device, 0xffffffff, piece, 1) == SOF_C_FULL);
    CHECK(sof_c_held(&device, 0xffffffff) == SOF_C_INPUT_BYTES);
    sof_c_free(&device);
}

static uint32_t drawn(uint32_t *seed) {
    *seed ^= *seed << 13;
    *seed ^= *seed >> 17;
    *seed ^= *seed << 5;
    return *seed;
}

/* Bytes that are no message, and messages with bytes changed: each has a reply, and the device still takes messages afterwards. */
static void hostile(void) {
    struct sof_c_device device = SOF_C_CLOSED;
    uint8_t request[2048] = {0}, reply[SOF_C_REPLY_BYTES];
    size_t count = 7;
    CHECK(sof_c_new(&device, 65536) == SOF_C_DONE && sof_c_boot(&device, 65536) == SOF_C_DONE);
    /* A buffer of 383 bytes is too short, and stays as it is. */
    memset(reply, 0xa5, sizeof reply);
    CHECK(sof_c_exchange(&device, request, 12, reply, 383, &count) == SOF_C_SHORT && count == 0 && reply[0] == 0xa5);
    for (size_t size = 0; size < 8; size++) CHECK(error_to(&device, request, size) == -22);
    /* A size word of 8 whose command is none, one below 8, and one above 384. */
    request[0] = 8;
    CHECK(error_to(&device, request, 8) == -22);
    request[0] = 7;
    CHECK(error_to(&device, request, 384) == -22);
    request[0] = 0x81, request[1] = 1;
    CHECK(error_to(&device, request, 385) == -22);
    CHECK(error_to(&device, request, sizeof request) == -22);
    /* tests/cases/traces/messages_that_are_none */
    CHECK(error_to_hex(&device, "1400000000000130000000000000000000000000") == -22);
    /* Ids that name nothing, an id that is used. */
    CHECK(error_to_hex(&device, START) == -19);
    CHECK(error_to_hex(&device, LOAD[4]) == -19);
    CHECK(loads(&device));
    CHECK(error_to_hex(&device, LOAD[0]) == -16);
    uint32_t seed = 2463534242u;
    int right = 1;
    for (int i = 0; i < 100000; i++) {
        size_t size = bytes_of(LOAD[drawn(&seed) % 7], request);
        if (drawn(&seed) % 4 == 0) size = bytes_of(PARAMS, request);
        for (unsigned k = drawn(&seed) % 4; k > 0; k--) request[drawn(&seed) % size] = (uint8_t)drawn(&seed);
        if (drawn(&seed) % 8 == 0) size = drawn(&seed) % 400;
        memset(reply, 0xa5, sizeof reply);
        right = right && sof_c_exchange(&device, request, size, reply, sizeof reply, &count) == SOF_C_DONE;
        right = right && count >= 12 && count <= 384 && word_at(reply, 0) == (int32_t)count && word_at(reply, 4) == 0x10000000;
        for (size_t at = count; at < sizeof reply; at++) right = right && reply[at] == 0xa5;
        if (i % 16 == 0) right = right && sof_c_tick(&device) == SOF_C_DONE;
    }
    CHECK(right);
    CHECK(sof_c_used(&device) <= 65536);
    CHECK(sof_c_cut(&device) == SOF_C_DONE && sof_c_boot(&device, 992) == SOF_C_DONE && loads(&device));
    sof_c_free(&device);
}

/* Many devices at once, each with its own state. */
static void many(void) {
    struct sof_c_device devices[20] = {{0, false}};
    for (int i = 0; i < 20; i++) {
        CHECK(sof_c_new(&devices[i], 992) == SOF_C_DONE && sof_c_boot(&devices[i], 992) == SOF_C_DONE);
        if (i % 2) CHECK(loads(&devices[i]));
    }
    for (int i = 0; i < 20; i++) CHECK(sof_c_used(&devices[i]) == (i % 2 ? 992 : 0));
    for (int i = 0; i < 20; i++) sof_c_free(&devices[i]);
}

/* A topology file: its need, and its faults where bytes are changed or missing. `sof check` on more files: cases.py. */
static void check_files(const char *examples) {
    static uint8_t bytes[65536];
    char path[4096];
    snprintf(path, sizeof path, "%s/base.tplg", examples);
    FILE *file = fopen(path, "rb");
    size_t size = file ? fread(bytes, 1, sizeof bytes, file) : 0;
    if (file) fclose(file);
    CHECK(size == 2020);
    struct sof_c_verdict v = sof_c_check(bytes, size);
    CHECK(v.status == SOF_C_DONE && v.need == 992 && v.cause == 0 && v.number == 0 && v.reserved == 0 && v.at == 0);
    CHECK(v.pipelines == 1 && v.components == 2 && v.buffers == 1 && v.routes == 2 && v.streams == 1 && v.controls == 0);
    v = sof_c_check(bytes, size - 1);
    CHECK(v.status == SOF_C_BROKEN && v.cause == SOF_C_TRUNCATED && v.at == 1072 && v.need == 0 && v.components == 0);
    bytes[0] ^= 1;
    v = sof_c_check(bytes, size);
    CHECK(v.status == SOF_C_BROKEN && v.cause == SOF_C_MAGIC && v.at == 0);
    bytes[0] ^= 1;
    bytes[4] = 6;
    v = sof_c_check(bytes, size);
    CHECK(v.status == SOF_C_BROKEN && v.cause == SOF_C_ABI && v.at == 0 && v.number == 6);
    bytes[4] = 5;
    uint32_t seed = 88172645u;
    int right = 1;
    for (int i = 0; i < 20000; i++) {
        size_t at = drawn(&seed) % size;
        uint8_t old = bytes[at];
        bytes[at] = (uint8_t)drawn(&seed);
        v = sof_c_check(bytes, drawn(&seed) % 4 ? size : drawn(&seed) % (size + 1));
        right = right && (v.status == SOF_C_DONE || v.status == SOF_C_BROKEN || v.status == SOF_C_RULE);
        right = right && (v.status != SOF_C_BROKEN || v.at <= size) && (v.status != SOF_C_RULE || (v.cause >= 1 && v.cause <= 14));
        bytes[at] = old;
    }
    CHECK(right);
    v = sof_c_check(bytes, 0);
    CHECK(v.status == SOF_C_DONE && v.need == 0 && v.components == 0);
}

int main(int count, char **words) {
    if (count != 2) {
        fprintf(stderr, "usage: test EXAMPLES\n");
        return 2;
    }
    handles();
    nulls();
    power();
    ten_ticks();
    captures();
    endpoints();
    hostile();
    many();
    check_files(words[1]);
    printf("%d passed, %d failed\n", passed, failed);
    return failed != 0;
}
