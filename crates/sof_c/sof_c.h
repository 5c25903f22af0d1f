/* The firmware model as a C library: a device that takes messages and ticks, with the bytes of its endpoints; and the check of topologies.
 *
 * The library is crates/sof_c/out/libsof_c.a, which tests/c_library builds. It calls malloc, realloc and free through the kit's archive
 * c/liblibc_c.a, and memcpy, memmove and memset: link it with that archive and the C library.
 *
 *     cc program.c libsof_c.a liblibc_c.a
 *
 * What a call does is proved where its caller keeps to this list, which nothing checks:
 *   - A handle is a `struct sof_c_device` that begins as SOF_C_CLOSED. Only these functions change it. It may be moved, but only one
 *     copy of it is used from then on.
 *   - A pointer that is not NULL points to memory of its type, as much as the length beside it says.
 *   - Within a call what one pointer points to does not overlap what another one does, but that two `const` ones may.
 *   - A handle stays on one thread.
 *   - malloc, realloc and free are those of one allocator, with blocks aligned to 16 bytes where their size is a multiple of 16.
 *   - No call is made from a signal handler, or in the forked child of a process with threads.
 * A caller owes nothing else: every id, number, message and length has an answer, a closed handle too, and NULL. The functions of this
 * file test for NULL and call those of the archive, whose names end in _unchecked: a caller of those owes that no pointer is NULL, also
 * where a length is 0.
 */
#ifndef SOF_C_H
#define SOF_C_H

#include <stdbool.h>
#include <stddef.h>
#include <stdint.h>

#ifdef __cplusplus
extern "C" {
#endif

/* A handle: closed, or open with one device. */
struct sof_c_device {
    void *at;
    bool held;
};

/* How a handle begins: zeros. */
#define SOF_C_CLOSED {0, false}

/* What a call answers. Each but SOF_C_DONE says that nothing changed, but for the counts that a call sets. */
enum sof_c_status {
    SOF_C_DONE = 0,
    SOF_C_CLOSED_HANDLE = 1, /* the handle is closed */
    SOF_C_OPEN = 2,          /* the handle is open already */
    SOF_C_NO_MEMORY = 3,
    SOF_C_ON = 4,        /* the device is on already */
    SOF_C_OFF = 5,       /* the device is off */
    SOF_C_TOO_LARGE = 6, /* the heap is above the device's greatest; a length is above PTRDIFF_MAX, or that of a file 4 GiB or more */
    SOF_C_SHORT = 7,     /* the caller's buffer is too short */
    SOF_C_UNKNOWN = 8,   /* no endpoint has this id */
    SOF_C_BOUND = 9,     /* an endpoint has this id already */
    SOF_C_FULL = 10,     /* the input would hold more than SOF_C_INPUT_BYTES */
    SOF_C_BROKEN = 11,   /* the bytes are no topology file */
    SOF_C_RULE = 12,     /* the topology breaks a rule */
    SOF_C_NULL = 13,     /* a pointer is NULL; one to bytes may be, where their length is 0 */
};

/* The first fault of a topology file: docs/FORMATS.md, part 1. */
enum sof_c_fault {
    SOF_C_TRUNCATED = 1,
    SOF_C_MAGIC = 2,
    SOF_C_ABI = 3,
    SOF_C_HEADER = 4,
    SOF_C_PAYLOAD = 5,
    SOF_C_NAME = 6,
    SOF_C_CONTROL = 7,
    SOF_C_TOKENS = 8,
};

/* What a check of a topology finds. What no comment names is 0. */
struct sof_c_verdict {
    uint32_t status; /* SOF_C_DONE, SOF_C_BROKEN, SOF_C_RULE, SOF_C_TOO_LARGE, SOF_C_NO_MEMORY, SOF_C_NULL */
    uint32_t cause;  /* SOF_C_BROKEN: a sof_c_fault. SOF_C_RULE: the first rule that is broken, 1 to 14 of docs/BEHAVIOUR.md */
    uint32_t number; /* SOF_C_ABI, SOF_C_CONTROL: the number that was found */
    uint32_t reserved;
    uint64_t at; /* SOF_C_BROKEN: the place in the file, in bytes. SOF_C_RULE: the least item that breaks it */
    /* SOF_C_DONE: the bytes of heap that the topology needs, and what it has of each */
    uint64_t need, pipelines, components, buffers, routes, streams, controls;
};

/* The most bytes of a reply: a buffer of a reply has as many at least. */
#define SOF_C_REPLY_BYTES 384

/* The most bytes that an input holds. */
#define SOF_C_INPUT_BYTES 1048576

/* The most bytes that a tick gives an output or takes from an input. */
#define SOF_C_TURN_BYTES 61440

/* What the archive exports. */
uint32_t sof_c_new_unchecked(struct sof_c_device *device, uint32_t room);
void sof_c_free_unchecked(struct sof_c_device *device);
uint32_t sof_c_boot_unchecked(struct sof_c_device *device, uint32_t heap);
uint32_t sof_c_cut_unchecked(struct sof_c_device *device);
uint32_t sof_c_exchange_unchecked(struct sof_c_device *device, const uint8_t *request, size_t size, uint8_t *reply, size_t capacity,
                                  size_t *count);
uint32_t sof_c_tick_unchecked(struct sof_c_device *device);
uint32_t sof_c_add_input_unchecked(struct sof_c_device *device, uint32_t id);
uint32_t sof_c_add_output_unchecked(struct sof_c_device *device, uint32_t id);
uint32_t sof_c_fill_unchecked(struct sof_c_device *device, uint32_t id, const uint8_t *piece, size_t size);
uint32_t sof_c_read_unchecked(struct sof_c_device *device, uint32_t id, uint8_t *out, size_t capacity, size_t *count);
uint32_t sof_c_is_on_unchecked(struct sof_c_device *device);
uint64_t sof_c_ticks_unchecked(struct sof_c_device *device);
uint32_t sof_c_used_unchecked(struct sof_c_device *device);
size_t sof_c_held_unchecked(struct sof_c_device *device, uint32_t id);
struct sof_c_verdict sof_c_check_unchecked(const uint8_t *bytes, size_t size);

/* The status of a pointer to so many bytes. */
static inline uint32_t sof_c_bytes_status(const uint8_t *bytes, size_t size) {
    if (size > PTRDIFF_MAX) return SOF_C_TOO_LARGE;
    return !bytes && size ? SOF_C_NULL : SOF_C_DONE;
}

/* A pointer to no bytes that is not NULL. */
static inline const uint8_t *sof_c_bytes(const uint8_t *bytes) {
    static const uint8_t none = 0;
    return bytes ? bytes : &none;
}

/* Makes a device that is off, with a greatest heap of `room` bytes, behind a closed handle. SOF_C_OPEN, SOF_C_NO_MEMORY. */
static inline uint32_t sof_c_new(struct sof_c_device *device, uint32_t room) {
    if (!device) return SOF_C_NULL;
    return sof_c_new_unchecked(device, room);
}

/* Gives back all memory of a device, and closes its handle. A closed handle stays closed. */
static inline void sof_c_free(struct sof_c_device *device) {
    if (device) sof_c_free_unchecked(device);
}

/* Boots a device that is off, with a heap of so many bytes. SOF_C_ON, SOF_C_TOO_LARGE. */
static inline uint32_t sof_c_boot(struct sof_c_device *device, uint32_t heap) {
    if (!device) return SOF_C_NULL;
    return sof_c_boot_unchecked(device, heap);
}

/* Cuts the power of a device that is on. Its endpoints and their bytes stay. SOF_C_OFF. */
static inline uint32_t sof_c_cut(struct sof_c_device *device) {
    if (!device) return SOF_C_NULL;
    return sof_c_cut_unchecked(device);
}

/* Delivers a message, any bytes, to a device that is on, and puts its reply at the front of `reply`. `*count` becomes the number of its
 * bytes, 12 to 384, and 0 where there is none. SOF_C_SHORT where `capacity` is below 384, SOF_C_OFF.
 * The reply is the firmware's, also to bytes that are no message: docs/FORMATS.md, part 2. */
static inline uint32_t sof_c_exchange(struct sof_c_device *device, const uint8_t *request, size_t size, uint8_t *reply, size_t capacity,
                                      size_t *count) {
    uint32_t status = sof_c_bytes_status(request, size);
    if (count) *count = 0;
    if (!device || !reply || !count) return SOF_C_NULL;
    if (!status) status = sof_c_bytes_status(reply, capacity);
    return status ? status : sof_c_exchange_unchecked(device, sof_c_bytes(request), size, reply, capacity, count);
}

/* Runs one tick, a millisecond, of a device that is on. The outputs then hold what this tick gave them, and nothing else. SOF_C_OFF. */
static inline uint32_t sof_c_tick(struct sof_c_device *device) {
    if (!device) return SOF_C_NULL;
    return sof_c_tick_unchecked(device);
}

/* Binds an input to the component of this id: a host that plays, or a DAI that captures. It may come before the component or after it.
 * An endpoint that is not bound takes zeros. SOF_C_BOUND, SOF_C_NO_MEMORY. */
static inline uint32_t sof_c_add_input(struct sof_c_device *device, uint32_t id) {
    if (!device) return SOF_C_NULL;
    return sof_c_add_input_unchecked(device, id);
}

/* Binds an output to the component of this id: a DAI that plays, or a host that captures. What goes to an endpoint that is not bound is
 * dropped. SOF_C_BOUND, SOF_C_NO_MEMORY. */
static inline uint32_t sof_c_add_output(struct sof_c_device *device, uint32_t id) {
    if (!device) return SOF_C_NULL;
    return sof_c_add_output_unchecked(device, id);
}

/* Puts bytes after those that an input has left: all or none. Past its last byte an input gives zeros. SOF_C_UNKNOWN, SOF_C_FULL. */
static inline uint32_t sof_c_fill(struct sof_c_device *device, uint32_t id, const uint8_t *piece, size_t size) {
    uint32_t status = sof_c_bytes_status(piece, size);
    if (!device) return SOF_C_NULL;
    return status ? status : sof_c_fill_unchecked(device, id, sof_c_bytes(piece), size);
}

/* Copies what the last tick gave an output to the front of `out`: all or none. `*count` becomes the number of these bytes, also with
 * SOF_C_SHORT; 0 with SOF_C_UNKNOWN. */
static inline uint32_t sof_c_read(struct sof_c_device *device, uint32_t id, uint8_t *out, size_t capacity, size_t *count) {
    uint8_t none = 0;
    uint32_t status = sof_c_bytes_status(out, capacity);
    if (count) *count = 0;
    if (!device || !count) return SOF_C_NULL;
    return status ? status : sof_c_read_unchecked(device, id, out ? out : &none, capacity, count);
}

/* 1 where the device is on, and else 0. These four change nothing, and answer 0 where the handle is closed or NULL. */
static inline uint32_t sof_c_is_on(struct sof_c_device *device) {
    return device ? sof_c_is_on_unchecked(device) : 0;
}

/* How many ticks it ran since it was made. */
static inline uint64_t sof_c_ticks(struct sof_c_device *device) {
    return device ? sof_c_ticks_unchecked(device) : 0;
}

/* How many bytes of its heap are carved; 0 where it is off. */
static inline uint32_t sof_c_used(struct sof_c_device *device) {
    return device ? sof_c_used_unchecked(device) : 0;
}

/* How many bytes an input has left; 0 for one that is not there. */
static inline size_t sof_c_held(struct sof_c_device *device, uint32_t id) {
    return device ? sof_c_held_unchecked(device, id) : 0;
}

/* Reads a topology file and tests its rules, as `sof check` does. */
static inline struct sof_c_verdict sof_c_check(const uint8_t *bytes, size_t size) {
    struct sof_c_verdict refused = {sof_c_bytes_status(bytes, size), 0, 0, 0, 0, 0, 0, 0, 0, 0, 0, 0};
    return refused.status ? refused : sof_c_check_unchecked(sof_c_bytes(bytes), size);
}

#ifdef __cplusplus
}
#endif

#endif
