// The LEDs, numbered from 0; RETURNCODE_EINVAL where there is none of a number.

#ifndef LIBTOCK_INTERFACE_LED_H
#define LIBTOCK_INTERFACE_LED_H

#include <libtock/interface/syscalls/led_syscalls.h>

static inline returncode_t libtock_led_count(int *count)
{
    return libtock_led_command_count(count);
}

static inline returncode_t libtock_led_on(int number)
{
    return libtock_led_command_on(number);
}

static inline returncode_t libtock_led_off(int number)
{
    return libtock_led_command_off(number);
}

static inline returncode_t libtock_led_toggle(int number)
{
    return libtock_led_command_toggle(number);
}

#endif
