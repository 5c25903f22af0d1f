/* Each allocation fails in turn: the call says so and changes nothing, and a free gives back every block. Linked with
 * -Wl,--wrap=malloc,--wrap=realloc,--wrap=free. */
#include <stdio.h>
#include <string.h>

#include "sof_c.h"

#include "small_graph.h"

void *__real_malloc(size_t size);
void *__real_realloc(void *block, size_t size);
void __real_free(void *block);
void *__wrap_malloc(size_t size);
void *__wrap_realloc(void *block, size_t size);
void __wrap_free(void *block);

static int calls, failing, live;

void *__wrap_malloc(size_t size) {
    void *block = ++calls == failing ? NULL : __real_malloc(size);
    live += block != NULL;
    return block;
}

void *__wrap_realloc(void *block, size_t size) {
    void *moved = ++calls == failing ? NULL : __real_realloc(block, size);
    live += moved != NULL && block == NULL;
    return moved;
}

void __wrap_free(void *block) {
    live -= block != NULL;
    __real_free(block);
}

static int failed;

#define CHECK(holds)                                                     \
    do {                                                                 \
        if (!(holds)) {                                                  \
            failed++;                                                    \
            fprintf(stderr, "FAILED %d, allocation %d: %s\n", __LINE__, failing, #holds); \
        }                                                                \
    } while (0)

/* Allocation `at` fails, counted from here on; 0 for none. Answers how many allocations there were. */
static int play(int at) {
    struct sof_c_device device = SOF_C_CLOSED;
    uint8_t bytes[2020];
    calls = 0;
    failing = at;
    uint32_t status = sof_c_new(&device, 65536);
    CHECK(status == SOF_C_DONE || (status == SOF_C_NO_MEMORY && !device.held && live == 0));
    if (status != SOF_C_DONE) return calls;
    status = sof_c_add_input(&device, 0);
    CHECK(status == SOF_C_DONE || status == SOF_C_NO_MEMORY);
    CHECK(sof_c_fill(&device, 0, bytes, 0) == (status == SOF_C_DONE ? SOF_C_DONE : SOF_C_UNKNOWN));
    status = sof_c_add_output(&device, 2);
    CHECK(status == SOF_C_DONE || status == SOF_C_NO_MEMORY);
    int before = calls;
    /* A boot, messages and ticks take no memory. */
    CHECK(sof_c_boot(&device, 65536) == SOF_C_DONE);
    for (size_t i = 0; i < sizeof LOAD / sizeof *LOAD; i++) {
        uint8_t request[384], reply[384];
        size_t size = strlen(LOAD[i]) / 2, count = 0;
        for (size_t k = 0; k < size; k++) {
            unsigned byte = 0;
            sscanf(LOAD[i] + 2 * k, "%2x", &byte);
            request[k] = (uint8_t)byte;
        }
        CHECK(sof_c_exchange(&device, request, size, reply, sizeof reply, &count) == SOF_C_DONE && reply[8] == 0);
    }
    CHECK(sof_c_tick(&device) == SOF_C_DONE);
    CHECK(calls == before);
    (void)PARAMS, (void)START, (void)STOP, (void)PCM_FREE;
    sof_c_free(&device);
    CHECK(live == 0);
    return calls;
}

int main(int count, char **words) {
    static uint8_t bytes[65536];
    FILE *file = count == 2 ? fopen(words[1], "rb") : NULL;
    size_t size = file ? fread(bytes, 1, sizeof bytes, file) : 0;
    if (file) fclose(file);
    live = 0;
    int most = play(0);
    for (int at = 1; at <= most; at++) play(at);
    /* A check: the verdict, or that memory is missing. */
    CHECK(size == 2020);
    calls = failing = 0;
    CHECK(sof_c_check(bytes, size).status == SOF_C_DONE && live == 0);
    int checked = calls;
    for (int at = 1; at <= checked; at++) {
        calls = 0;
        failing = at;
        struct sof_c_verdict v = sof_c_check(bytes, size);
        CHECK(live == 0);
        CHECK((v.status == SOF_C_NO_MEMORY && v.need == 0) || (v.status == SOF_C_DONE && v.need == 992));
    }
    fprintf(stderr, "%d and %d allocations, %d failed\n", most, checked, failed);
    return failed != 0;
}
