// The calls of the alarm's driver. A process has one alarm; the clock counts ticks modulo 2^32, and a tick is a turn:
// one instruction.

#ifndef LIBTOCK_PERIPHERALS_SYSCALLS_ALARM_SYSCALLS_H
#define LIBTOCK_PERIPHERALS_SYSCALLS_ALARM_SYSCALLS_H

#include <libtock/tock.h>

enum { DRIVER_NUM_ALARM = 0x0 };

// How many ticks this library takes for a millisecond, by the build: `make TICKS_PER_MS=1000`. The kernel, which
// executes an instruction a tick, says that it has 1,000 ticks a second.
#ifndef TOCK_TICKS_PER_MS
#define TOCK_TICKS_PER_MS 1
#endif

enum { TOCK_ALARM_FREQUENCY = 1, TOCK_ALARM_READ = 2, TOCK_ALARM_STOP = 3, TOCK_ALARM_RELATIVE = 5,
    TOCK_ALARM_ABSOLUTE = 6 };

static inline bool libtock_alarm_driver_exists(void)
{
    return driver_exists(DRIVER_NUM_ALARM);
}

// The upcall has the tick at which the alarm comes, and the one for which it was armed.
static inline returncode_t libtock_alarm_set_upcall(subscribe_upcall *callback, void *opaque)
{
    return tock_subscribe_return_to_returncode(subscribe(DRIVER_NUM_ALARM, 0, callback, opaque));
}

// Ticks a second, as this library takes them.
static inline returncode_t libtock_alarm_command_get_frequency(uint32_t *frequency)
{
    returncode_t code =
        tock_command_return_u32_to_returncode(command(DRIVER_NUM_ALARM, TOCK_ALARM_FREQUENCY, 0, 0), frequency);
    *frequency *= TOCK_TICKS_PER_MS;
    return code;
}

// The clock's tick now.
static inline returncode_t libtock_alarm_command_read(uint32_t *tick)
{
    return tock_command_return_u32_to_returncode(command(DRIVER_NUM_ALARM, TOCK_ALARM_READ, 0, 0), tick);
}

// Disarms the alarm; RETURNCODE_EALREADY where none is armed.
static inline returncode_t libtock_alarm_command_stop(void)
{
    return tock_command_return_novalue_to_returncode(command(DRIVER_NUM_ALARM, TOCK_ALARM_STOP, 0, 0));
}

// Arms the alarm so many ticks from now on, in place of one that is armed.
static inline returncode_t libtock_alarm_command_set_relative(uint32_t ticks, uint32_t *expiration)
{
    return tock_command_return_u32_to_returncode(command(DRIVER_NUM_ALARM, TOCK_ALARM_RELATIVE, ticks, 0), expiration);
}

// The same, counted from a tick that has been: alarms that follow one another by it come at a fixed period, however
// long the process takes to arm the next.
static inline returncode_t libtock_alarm_command_set_absolute(uint32_t reference, uint32_t ticks)
{
    uint32_t expiration;
    return tock_command_return_u32_to_returncode(command(DRIVER_NUM_ALARM, TOCK_ALARM_ABSOLUTE, reference, ticks),
                                                 &expiration);
}

// Has the clock's tick stand in a word of the application's from each look at the clock and each alarm on; NULL takes
// the word back. This kernel's own.
static inline returncode_t libtock_alarm_show_clock(volatile uint32_t *tick)
{
    return tock_command_return_novalue_to_returncode(
        tock_allow_userspace_read(DRIVER_NUM_ALARM, 0, tick, tick == NULL ? 0 : sizeof *tick));
}

#endif
