// Random bytes. On this board they are those of the script's lines `random`. This call does not wait.

#ifndef LIBTOCK_PERIPHERALS_RNG_H
#define LIBTOCK_PERIPHERALS_RNG_H

#include <libtock/peripherals/syscalls/rng_syscalls.h>

// What is called once bytes have come: with what it came to, and how many they are.
typedef void (*libtock_rng_callback)(returncode_t, int);

static inline void tock_rng_upcall(int status, int count, int unused, void *callback)
{
    (void)unused;
    ((libtock_rng_callback)callback)(tock_status_to_returncode(status), count);
}

// Asks for so many bytes, for which the buffer must have room. It must stay until the function is called, inside of a
// yield.
static inline returncode_t libtock_rng_get_random_bytes(uint8_t *buffer, uint32_t length, uint32_t count,
                                                        libtock_rng_callback callback)
{
    returncode_t code = libtock_rng_set_upcall(tock_rng_upcall, (void *)callback);
    if (code == RETURNCODE_SUCCESS) {
        code = libtock_rng_set_allow_readwrite(buffer, length);
    }
    return code == RETURNCODE_SUCCESS ? libtock_rng_command_get_random(count) : code;
}

#endif
