// The calls of the console's driver.

#ifndef LIBTOCK_INTERFACE_SYSCALLS_CONSOLE_SYSCALLS_H
#define LIBTOCK_INTERFACE_SYSCALLS_CONSOLE_SYSCALLS_H

#include <libtock/tock.h>

enum { DRIVER_NUM_CONSOLE = 0x1 };

// The number of a command, and of the upcall that comes once it is done.
enum { TOCK_CONSOLE_WRITE = 1, TOCK_CONSOLE_READ = 2, TOCK_CONSOLE_ABORT_READ = 3 };

// The number of the buffer that is lent for either.
enum { TOCK_CONSOLE_BUFFER = 1 };

static inline bool libtock_console_driver_exists(void)
{
    return driver_exists(DRIVER_NUM_CONSOLE);
}

// The upcall has how many bytes were written.
static inline returncode_t libtock_console_set_write_upcall(subscribe_upcall *callback, void *opaque)
{
    return tock_subscribe_return_to_returncode(subscribe(DRIVER_NUM_CONSOLE, TOCK_CONSOLE_WRITE, callback, opaque));
}

// The upcall has a status code, and how many bytes came in.
static inline returncode_t libtock_console_set_read_upcall(subscribe_upcall *callback, void *opaque)
{
    return tock_subscribe_return_to_returncode(subscribe(DRIVER_NUM_CONSOLE, TOCK_CONSOLE_READ, callback, opaque));
}

static inline returncode_t libtock_console_set_write_allow(const uint8_t *buffer, uint32_t length)
{
    return tock_allow_ro_return_to_returncode(
        allow_readonly(DRIVER_NUM_CONSOLE, TOCK_CONSOLE_BUFFER, buffer, length));
}

static inline returncode_t libtock_console_set_read_allow(uint8_t *buffer, uint32_t length)
{
    return tock_allow_rw_return_to_returncode(
        allow_readwrite(DRIVER_NUM_CONSOLE, TOCK_CONSOLE_BUFFER, buffer, length));
}

static inline returncode_t libtock_console_command_write(int length)
{
    return tock_command_return_novalue_to_returncode(command(DRIVER_NUM_CONSOLE, TOCK_CONSOLE_WRITE, length, 0));
}

static inline returncode_t libtock_console_command_read(int length)
{
    return tock_command_return_novalue_to_returncode(command(DRIVER_NUM_CONSOLE, TOCK_CONSOLE_READ, length, 0));
}

// The read that waits is over; its upcall has the status CANCEL. RETURNCODE_EALREADY where none waits.
static inline returncode_t libtock_console_command_abort_read(void)
{
    return tock_command_return_novalue_to_returncode(command(DRIVER_NUM_CONSOLE, TOCK_CONSOLE_ABORT_READ, 0, 0));
}

#endif
