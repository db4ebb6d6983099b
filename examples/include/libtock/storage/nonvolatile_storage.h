// The storage: bytes of the process's slot that stay when it starts again. At first all are 0xFF. Its reads and writes
// do not wait.

#ifndef LIBTOCK_STORAGE_NONVOLATILE_STORAGE_H
#define LIBTOCK_STORAGE_NONVOLATILE_STORAGE_H

#include <libtock/storage/syscalls/nonvolatile_storage_syscalls.h>

// What is called once bytes were moved: with what it came to, and how many they are.
typedef void (*libtock_nonvolatile_storage_callback_read)(returncode_t, int);
typedef void (*libtock_nonvolatile_storage_callback_write)(returncode_t, int);

static inline bool libtock_nonvolatile_storage_exists(void)
{
    return libtock_nonvolatile_storage_driver_exists();
}

static inline returncode_t libtock_nonvolatile_storage_get_number_bytes(uint32_t *count)
{
    return libtock_nonvolatile_storage_command_get_number_bytes(count);
}

static inline void tock_storage_upcall(int moved, int status, int unused, void *callback)
{
    (void)unused;
    ((libtock_nonvolatile_storage_callback_read)callback)(tock_status_to_returncode(status), moved);
}

// Reads bytes from an offset on; RETURNCODE_EINVAL where the storage has not as many, RETURNCODE_FAIL where it failed.
// The buffer must stay until the function is called, inside of a yield.
static inline returncode_t libtock_nonvolatile_storage_read(uint32_t offset, uint32_t length, uint8_t *buffer,
                                                            uint32_t buffer_length,
                                                            libtock_nonvolatile_storage_callback_read callback)
{
    returncode_t code = libtock_nonvolatile_storage_set_read_done_upcall(tock_storage_upcall, (void *)callback);
    if (code == RETURNCODE_SUCCESS) {
        code = libtock_nonvolatile_storage_set_allow_readwrite_read_buffer(buffer, buffer_length);
    }
    return code == RETURNCODE_SUCCESS ? libtock_nonvolatile_storage_command_read(offset, length) : code;
}

// Writes bytes from an offset on; the same errors.
static inline returncode_t libtock_nonvolatile_storage_write(uint32_t offset, uint32_t length, const uint8_t *buffer,
                                                             uint32_t buffer_length,
                                                             libtock_nonvolatile_storage_callback_write callback)
{
    returncode_t code = libtock_nonvolatile_storage_set_write_done_upcall(tock_storage_upcall, (void *)callback);
    if (code == RETURNCODE_SUCCESS) {
        code = libtock_nonvolatile_storage_set_allow_readonly_write_buffer(buffer, buffer_length);
    }
    return code == RETURNCODE_SUCCESS ? libtock_nonvolatile_storage_command_write(offset, length) : code;
}

#endif
