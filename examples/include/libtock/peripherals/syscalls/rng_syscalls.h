// The calls of the random bytes' driver. On this board they are those of the script's lines `random`.

#ifndef LIBTOCK_PERIPHERALS_SYSCALLS_RNG_SYSCALLS_H
#define LIBTOCK_PERIPHERALS_SYSCALLS_RNG_SYSCALLS_H

#include <libtock/tock.h>

enum { DRIVER_NUM_RNG = 0x40001 };

enum { TOCK_RNG_GET = 1 };

static inline bool libtock_rng_driver_exists(void)
{
    return driver_exists(DRIVER_NUM_RNG);
}

// The upcall has a status code, and how many bytes came.
static inline returncode_t libtock_rng_set_upcall(subscribe_upcall *callback, void *opaque)
{
    return tock_subscribe_return_to_returncode(subscribe(DRIVER_NUM_RNG, 0, callback, opaque));
}

static inline returncode_t libtock_rng_set_allow_readwrite(uint8_t *buffer, uint32_t length)
{
    return tock_allow_rw_return_to_returncode(allow_readwrite(DRIVER_NUM_RNG, 0, buffer, length));
}

static inline returncode_t libtock_rng_command_get_random(int count)
{
    return tock_command_return_novalue_to_returncode(command(DRIVER_NUM_RNG, TOCK_RNG_GET, count, 0));
}

#endif
