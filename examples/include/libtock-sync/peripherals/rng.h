// Random bytes, waited for; no function of the application runs meanwhile.

#ifndef LIBTOCK_SYNC_PERIPHERALS_RNG_H
#define LIBTOCK_SYNC_PERIPHERALS_RNG_H

#include <libtock/peripherals/rng.h>
#include <libtock-sync/await.h>

static inline bool libtocksync_rng_exists(void)
{
    return libtock_rng_driver_exists();
}

// Waits for that many bytes, which the buffer must have room for, and tells how many came: fewer, with
// RETURNCODE_FAIL, where the source has no more.
static inline returncode_t libtocksync_rng_get_random_bytes(uint8_t *buffer, uint32_t length, uint32_t count,
                                                            int *received)
{
    struct tock_completion completion = {0};
    struct tock_request request = {DRIVER_NUM_RNG, TOCK_RNG_GET, count, 0, 0};
    returncode_t code = tock_await_alone_writing(request, 0, buffer, length, &completion);
    *received = code == RETURNCODE_SUCCESS ? (int)completion.arguments[1] : 0;
    return code == RETURNCODE_SUCCESS ? tock_status_to_returncode(completion.arguments[0]) : code;
}

#endif
