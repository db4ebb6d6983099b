// The calls of the LEDs' driver. They are numbered from 0; RETURNCODE_EINVAL where there is none of a number.

#ifndef LIBTOCK_INTERFACE_SYSCALLS_LED_SYSCALLS_H
#define LIBTOCK_INTERFACE_SYSCALLS_LED_SYSCALLS_H

#include <libtock/tock.h>

enum { DRIVER_NUM_LEDS = 0x2 };

enum { TOCK_LED_COUNT = 0, TOCK_LED_ON = 1, TOCK_LED_OFF = 2, TOCK_LED_TOGGLE = 3 };

static inline bool libtock_led_driver_exists(void)
{
    return driver_exists(DRIVER_NUM_LEDS);
}

static inline returncode_t libtock_led_command_count(int *count)
{
    return tock_command_return_u32_to_returncode(command(DRIVER_NUM_LEDS, TOCK_LED_COUNT, 0, 0), (uint32_t *)count);
}

static inline returncode_t libtock_led_command_on(uint32_t number)
{
    return tock_command_return_novalue_to_returncode(command(DRIVER_NUM_LEDS, TOCK_LED_ON, number, 0));
}

static inline returncode_t libtock_led_command_off(uint32_t number)
{
    return tock_command_return_novalue_to_returncode(command(DRIVER_NUM_LEDS, TOCK_LED_OFF, number, 0));
}

static inline returncode_t libtock_led_command_toggle(uint32_t number)
{
    return tock_command_return_novalue_to_returncode(command(DRIVER_NUM_LEDS, TOCK_LED_TOGGLE, number, 0));
}

#endif
