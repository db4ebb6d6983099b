// The console, and calls that wait while other functions of the application run; these must leave the console alone.

#ifndef CONSOLE_H
#define CONSOLE_H

#include <libtock-sync/interface/console.h>

// Writes the bytes, waits until they are out, and tells how many were written.
static inline returncode_t console_write_all(const uint8_t *buffer, uint32_t length, int *written)
{
    struct tock_completion completion;
    struct tock_request write = {DRIVER_NUM_CONSOLE, TOCK_CONSOLE_WRITE, length, 0, TOCK_CONSOLE_WRITE};
    returncode_t code = tock_await_reading(write, TOCK_CONSOLE_BUFFER, buffer, length, &completion);
    *written = code == RETURNCODE_SUCCESS ? (int)completion.arguments[0] : 0;
    return code;
}

// Writes a text that ends with a zero.
static inline returncode_t console_print(const char *text)
{
    uint32_t length = 0;
    while (text[length] != 0) {
        length++;
    }
    int written;
    return console_write_all((const uint8_t *)text, length, &written);
}

// The next two leave buffer and upcall with the driver, which the next request replaces: a few calls less, for an
// application that does nothing else with the console.

static inline void console_await(uint32_t request, size_t size, struct tock_completion *completion)
{
    subscribe(DRIVER_NUM_CONSOLE, request, tock_complete, completion);
    if (tock_is_success(command(DRIVER_NUM_CONSOLE, request, size, 0))) {
        while (!completion->is_done) {
            yield();
        }
    }
}

// Returns how many bytes were written.
static inline size_t console_write(const void *bytes, size_t size)
{
    struct tock_completion completion = {0};
    allow_readonly(DRIVER_NUM_CONSOLE, TOCK_CONSOLE_BUFFER, bytes, size);
    console_await(TOCK_CONSOLE_WRITE, size, &completion);
    return completion.arguments[0];
}

// Returns how many bytes came in: at least one, and 0 only where nothing can be read.
static inline size_t console_read(void *bytes, size_t size)
{
    struct tock_completion completion = {0};
    allow_readwrite(DRIVER_NUM_CONSOLE, TOCK_CONSOLE_BUFFER, bytes, size);
    console_await(TOCK_CONSOLE_READ, size, &completion);
    return completion.arguments[1];
}

#endif
