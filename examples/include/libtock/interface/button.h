// The buttons, numbered from 0; RETURNCODE_EINVAL where there is none of a number.

#ifndef LIBTOCK_INTERFACE_BUTTON_H
#define LIBTOCK_INTERFACE_BUTTON_H

#include <libtock/interface/syscalls/button_syscalls.h>

// What is called at each edge: with RETURNCODE_SUCCESS, the button, and whether it is pressed.
typedef void (*libtock_button_callback)(returncode_t, int, bool);

static inline returncode_t libtock_button_count(int *count)
{
    return libtock_button_command_count(count);
}

static inline returncode_t libtock_button_read(int button, int *value)
{
    return libtock_button_command_read(button, value);
}

static inline void tock_button_upcall(int button, int pressed, int unused, void *callback)
{
    (void)unused;
    ((libtock_button_callback)callback)(RETURNCODE_SUCCESS, button, pressed == 1);
}

// Has each edge of a button call a function, inside of a yield. It is one function for all buttons: the last that was
// given.
static inline returncode_t libtock_button_notify_on_press(int button, libtock_button_callback callback)
{
    returncode_t code = libtock_button_set_upcall(tock_button_upcall, (void *)callback);
    return code == RETURNCODE_SUCCESS ? libtock_button_command_enable_interrupt(button) : code;
}

#endif
