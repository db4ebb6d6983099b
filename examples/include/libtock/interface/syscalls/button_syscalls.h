// The calls of the buttons' driver. They are numbered from 0; RETURNCODE_EINVAL where there is none of a number.

#ifndef LIBTOCK_INTERFACE_SYSCALLS_BUTTON_SYSCALLS_H
#define LIBTOCK_INTERFACE_SYSCALLS_BUTTON_SYSCALLS_H

#include <libtock/tock.h>

enum { DRIVER_NUM_BUTTON = 0x3 };

enum { TOCK_BUTTON_COUNT = 0, TOCK_BUTTON_ENABLE = 1, TOCK_BUTTON_DISABLE = 2, TOCK_BUTTON_READ = 3 };

static inline bool libtock_button_driver_exists(void)
{
    return driver_exists(DRIVER_NUM_BUTTON);
}

// Has each edge of an enabled button call a function, with the button and 1 where it is pressed, 0 where it is
// released.
static inline returncode_t libtock_button_set_upcall(subscribe_upcall *callback, void *opaque)
{
    return tock_subscribe_return_to_returncode(subscribe(DRIVER_NUM_BUTTON, 0, callback, opaque));
}

static inline returncode_t libtock_button_command_count(int *count)
{
    return tock_command_return_u32_to_returncode(command(DRIVER_NUM_BUTTON, TOCK_BUTTON_COUNT, 0, 0),
                                                 (uint32_t *)count);
}

// Whether a button is pressed: 1, or 0.
static inline returncode_t libtock_button_command_read(int button, int *value)
{
    return tock_command_return_u32_to_returncode(command(DRIVER_NUM_BUTTON, TOCK_BUTTON_READ, button, 0),
                                                 (uint32_t *)value);
}

static inline returncode_t libtock_button_command_enable_interrupt(int button)
{
    return tock_command_return_novalue_to_returncode(command(DRIVER_NUM_BUTTON, TOCK_BUTTON_ENABLE, button, 0));
}

static inline returncode_t libtock_button_command_disable_interrupt(int button)
{
    return tock_command_return_novalue_to_returncode(command(DRIVER_NUM_BUTTON, TOCK_BUTTON_DISABLE, button, 0));
}

#endif
