// The storage, and calls that wait while other functions of the application run; these must leave the storage alone.

#ifndef STORAGE_H
#define STORAGE_H

#include <libtock-sync/storage/nonvolatile_storage.h>

// Reads bytes from an offset on; RETURNCODE_EINVAL where the storage has not as many, RETURNCODE_FAIL where it failed.
static inline returncode_t storage_read(uint32_t offset, uint32_t length, uint8_t *buffer, uint32_t buffer_length,
                                        int *moved)
{
    struct tock_completion completion;
    struct tock_request read = {DRIVER_NUM_NONVOLATILE_STORAGE, TOCK_STORAGE_READ, offset, length,
                                TOCK_STORAGE_READ_DONE};
    returncode_t code = tock_await_writing(read, TOCK_STORAGE_BUFFER, buffer, buffer_length, &completion);
    return tock_storage_end(code, &completion, moved);
}

// Writes bytes from an offset on; the same errors.
static inline returncode_t storage_write(uint32_t offset, uint32_t length, const uint8_t *buffer,
                                         uint32_t buffer_length, int *moved)
{
    struct tock_completion completion;
    struct tock_request write = {DRIVER_NUM_NONVOLATILE_STORAGE, TOCK_STORAGE_WRITE, offset, length,
                                 TOCK_STORAGE_WRITE_DONE};
    returncode_t code = tock_await_reading(write, TOCK_STORAGE_BUFFER, buffer, buffer_length, &completion);
    return tock_storage_end(code, &completion, moved);
}

#endif
