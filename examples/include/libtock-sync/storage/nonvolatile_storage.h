// The storage, with calls that wait; no function of the application runs meanwhile.

#ifndef LIBTOCK_SYNC_STORAGE_NONVOLATILE_STORAGE_H
#define LIBTOCK_SYNC_STORAGE_NONVOLATILE_STORAGE_H

#include <libtock/storage/nonvolatile_storage.h>
#include <libtock-sync/await.h>

static inline bool libtocksync_nonvolatile_storage_exists(void)
{
    return libtock_nonvolatile_storage_driver_exists();
}

// What came of a request, and how many bytes it moved: the upcall has that number and then the status.
static inline returncode_t tock_storage_end(returncode_t code, const struct tock_completion *completion, int *moved)
{
    *moved = code == RETURNCODE_SUCCESS ? (int)completion->arguments[0] : 0;
    return code == RETURNCODE_SUCCESS ? (returncode_t)-completion->arguments[1] : code;
}

// Reads bytes from an offset on; RETURNCODE_EINVAL where the storage has not as many, RETURNCODE_FAIL where it failed.
static inline returncode_t libtocksync_nonvolatile_storage_read(uint32_t offset, uint32_t length, uint8_t *buffer,
                                                                uint32_t buffer_length, int *moved)
{
    struct tock_completion completion = {0};
    struct tock_request read = {DRIVER_NUM_NONVOLATILE_STORAGE, TOCK_STORAGE_READ, offset, length,
                                TOCK_STORAGE_READ_DONE};
    returncode_t code = tock_await_alone_writing(read, TOCK_STORAGE_BUFFER, buffer, buffer_length, &completion);
    return tock_storage_end(code, &completion, moved);
}

// Writes bytes from an offset on; the same errors.
static inline returncode_t libtocksync_nonvolatile_storage_write(uint32_t offset, uint32_t length,
                                                                 const uint8_t *buffer, uint32_t buffer_length,
                                                                 int *moved)
{
    struct tock_completion completion = {0};
    struct tock_request write = {DRIVER_NUM_NONVOLATILE_STORAGE, TOCK_STORAGE_WRITE, offset, length,
                                 TOCK_STORAGE_WRITE_DONE};
    returncode_t code = tock_await_alone_reading(write, TOCK_STORAGE_BUFFER, buffer, buffer_length, &completion);
    return tock_storage_end(code, &completion, moved);
}

#endif
