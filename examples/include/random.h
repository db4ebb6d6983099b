// Random bytes, and a call that waits while other functions of the application run; these must leave the source alone.

#ifndef RANDOM_H
#define RANDOM_H

#include <libtock-sync/peripherals/rng.h>

// Waits for that many bytes, which the buffer must have room for, and tells how many came: fewer, with
// RETURNCODE_FAIL, where the source has no more.
static inline returncode_t random_get_bytes(uint8_t *buffer, uint32_t length, uint32_t count, int *received)
{
    struct tock_completion completion;
    struct tock_request request = {DRIVER_NUM_RNG, TOCK_RNG_GET, count, 0, 0};
    returncode_t code = tock_await_writing(request, 0, buffer, length, &completion);
    *received = code == RETURNCODE_SUCCESS ? (int)completion.arguments[1] : 0;
    return code == RETURNCODE_SUCCESS ? tock_status_to_returncode(completion.arguments[0]) : code;
}

#endif
