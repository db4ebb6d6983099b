// The calls of the storage's driver.

#ifndef LIBTOCK_STORAGE_SYSCALLS_NONVOLATILE_STORAGE_SYSCALLS_H
#define LIBTOCK_STORAGE_SYSCALLS_NONVOLATILE_STORAGE_SYSCALLS_H

#include <libtock/tock.h>

enum { DRIVER_NUM_NONVOLATILE_STORAGE = 0x50001 };

enum { TOCK_STORAGE_SIZE = 1, TOCK_STORAGE_READ = 2, TOCK_STORAGE_WRITE = 3 };

// The upcall of each, and the number of the buffer, which is the same for both.
enum { TOCK_STORAGE_READ_DONE = 0, TOCK_STORAGE_WRITE_DONE = 1, TOCK_STORAGE_BUFFER = 0 };

static inline bool libtock_nonvolatile_storage_driver_exists(void)
{
    return driver_exists(DRIVER_NUM_NONVOLATILE_STORAGE);
}

// The upcalls have how many bytes were moved, and a status code.
static inline returncode_t libtock_nonvolatile_storage_set_read_done_upcall(subscribe_upcall *callback, void *opaque)
{
    return tock_subscribe_return_to_returncode(
        subscribe(DRIVER_NUM_NONVOLATILE_STORAGE, TOCK_STORAGE_READ_DONE, callback, opaque));
}

static inline returncode_t libtock_nonvolatile_storage_set_write_done_upcall(subscribe_upcall *callback, void *opaque)
{
    return tock_subscribe_return_to_returncode(
        subscribe(DRIVER_NUM_NONVOLATILE_STORAGE, TOCK_STORAGE_WRITE_DONE, callback, opaque));
}

static inline returncode_t libtock_nonvolatile_storage_set_allow_readonly_write_buffer(const uint8_t *buffer,
                                                                                       uint32_t length)
{
    return tock_allow_ro_return_to_returncode(
        allow_readonly(DRIVER_NUM_NONVOLATILE_STORAGE, TOCK_STORAGE_BUFFER, buffer, length));
}

static inline returncode_t libtock_nonvolatile_storage_set_allow_readwrite_read_buffer(uint8_t *buffer,
                                                                                       uint32_t length)
{
    return tock_allow_rw_return_to_returncode(
        allow_readwrite(DRIVER_NUM_NONVOLATILE_STORAGE, TOCK_STORAGE_BUFFER, buffer, length));
}

static inline returncode_t libtock_nonvolatile_storage_command_get_number_bytes(uint32_t *count)
{
    return tock_command_return_u32_to_returncode(
        command(DRIVER_NUM_NONVOLATILE_STORAGE, TOCK_STORAGE_SIZE, 0, 0), count);
}

static inline returncode_t libtock_nonvolatile_storage_command_read(uint32_t offset, uint32_t length)
{
    return tock_command_return_novalue_to_returncode(
        command(DRIVER_NUM_NONVOLATILE_STORAGE, TOCK_STORAGE_READ, offset, length));
}

static inline returncode_t libtock_nonvolatile_storage_command_write(uint32_t offset, uint32_t length)
{
    return tock_command_return_novalue_to_returncode(
        command(DRIVER_NUM_NONVOLATILE_STORAGE, TOCK_STORAGE_WRITE, offset, length));
}

#endif
