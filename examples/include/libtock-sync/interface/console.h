// The console, with calls that wait; no function of the application runs meanwhile.

#ifndef LIBTOCK_SYNC_INTERFACE_CONSOLE_H
#define LIBTOCK_SYNC_INTERFACE_CONSOLE_H

#include <libtock/interface/console.h>
#include <libtock-sync/await.h>

// Writes the bytes, waits until they are out, and tells how many were written.
static inline returncode_t libtocksync_console_write(const uint8_t *buffer, uint32_t length, int *written)
{
    struct tock_completion completion = {0};
    struct tock_request write = {DRIVER_NUM_CONSOLE, TOCK_CONSOLE_WRITE, length, 0, TOCK_CONSOLE_WRITE};
    returncode_t code = tock_await_alone_reading(write, TOCK_CONSOLE_BUFFER, buffer, length, &completion);
    *written = code == RETURNCODE_SUCCESS ? (int)completion.arguments[0] : 0;
    return code;
}

// Waits for bytes, as many as came in up to the length, and tells how many.
static inline returncode_t libtocksync_console_read(uint8_t *buffer, uint32_t length, int *read)
{
    struct tock_completion completion = {0};
    struct tock_request request = {DRIVER_NUM_CONSOLE, TOCK_CONSOLE_READ, length, 0, TOCK_CONSOLE_READ};
    returncode_t code = tock_await_alone_writing(request, TOCK_CONSOLE_BUFFER, buffer, length, &completion);
    *read = code == RETURNCODE_SUCCESS ? (int)completion.arguments[1] : 0;
    return code == RETURNCODE_SUCCESS ? tock_status_to_returncode(completion.arguments[0]) : code;
}

#endif
