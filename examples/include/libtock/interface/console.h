// The console: bytes go out on the serial line, and come in. These calls do not wait.

#ifndef LIBTOCK_INTERFACE_CONSOLE_H
#define LIBTOCK_INTERFACE_CONSOLE_H

#include <libtock/interface/syscalls/console_syscalls.h>

// What is called once bytes are out or have come in: with what it came to, and how many they are.
typedef void (*libtock_console_callback_write)(returncode_t, uint32_t);
typedef void (*libtock_console_callback_read)(returncode_t, uint32_t);

static inline void tock_console_write_upcall(int length, int unused, int unused_too, void *callback)
{
    (void)unused, (void)unused_too;
    ((libtock_console_callback_write)callback)(RETURNCODE_SUCCESS, length);
}

static inline void tock_console_read_upcall(int status, int length, int unused, void *callback)
{
    (void)unused;
    ((libtock_console_callback_read)callback)(tock_status_to_returncode(status), length);
}

// The buffer must stay as it is until the function is called, inside of a yield.
static inline returncode_t libtock_console_write(const uint8_t *buffer, uint32_t length,
                                                 libtock_console_callback_write callback)
{
    returncode_t code = libtock_console_set_write_upcall(tock_console_write_upcall, (void *)callback);
    if (code == RETURNCODE_SUCCESS) {
        code = libtock_console_set_write_allow(buffer, length);
    }
    return code == RETURNCODE_SUCCESS ? libtock_console_command_write(length) : code;
}

static inline returncode_t libtock_console_read(uint8_t *buffer, uint32_t length,
                                                libtock_console_callback_read callback)
{
    returncode_t code = libtock_console_set_read_upcall(tock_console_read_upcall, (void *)callback);
    if (code == RETURNCODE_SUCCESS) {
        code = libtock_console_set_read_allow(buffer, length);
    }
    return code == RETURNCODE_SUCCESS ? libtock_console_command_read(length) : code;
}

static inline returncode_t libtock_console_abort_read(void)
{
    return libtock_console_command_abort_read();
}

#endif
