// As many alarms as an application wants, by the one that the kernel has for it, and so by its upcall. What an
// application does between two alarms takes as many ticks as instructions.

#ifndef LIBTOCK_SERVICES_ALARM_H
#define LIBTOCK_SERVICES_ALARM_H

#include <libtock/peripherals/syscalls/alarm_syscalls.h>

// What is called when an alarm comes, inside of a yield: with the tick that it is, and the one for which it was set.
typedef void (*libtock_alarm_callback)(uint32_t now, uint32_t scheduled, void *opaque);

// An alarm that comes once. It is the application's, and must stay where it is until it has come or is cancelled.
typedef struct libtock_alarm {
    uint32_t reference, ticks;
    libtock_alarm_callback callback;
    void *opaque;
    struct libtock_alarm *next;
} libtock_alarm_t;

typedef libtock_alarm_t libtock_alarm_ticks_t;

// One that comes again and again.
typedef struct {
    uint32_t interval;
    libtock_alarm_callback callback;
    void *opaque;
    libtock_alarm_t alarm;
} libtock_alarm_repeating_t;

// As many ticks as there are, where it would be more.
static inline uint32_t libtock_alarm_ms_to_ticks(uint32_t milliseconds)
{
    return milliseconds > UINT32_MAX / TOCK_TICKS_PER_MS ? UINT32_MAX : milliseconds * TOCK_TICKS_PER_MS;
}

static inline uint32_t libtock_alarm_ticks_to_ms(uint32_t ticks)
{
    return ticks / TOCK_TICKS_PER_MS;
}

// Has an alarm come once, so many milliseconds from now on.
int libtock_alarm_in_ms(uint32_t milliseconds, libtock_alarm_callback callback, void *opaque, libtock_alarm_t *alarm);

// The same by ticks, counted from one that has been.
int libtock_alarm_at(uint32_t reference, uint32_t ticks, libtock_alarm_callback callback, void *opaque,
                     libtock_alarm_ticks_t *alarm);

// Has one come at each multiple of so many milliseconds from now on, at least one; where the application was busy for
// longer, those that it missed come one after another.
void libtock_alarm_repeat_every_ms(uint32_t milliseconds, libtock_alarm_callback callback, void *opaque,
                                   libtock_alarm_repeating_t *alarm);

// It does not come any more, where it was still to come.
void libtock_alarm_cancel(libtock_alarm_t *alarm);
void libtock_alarm_repeating_cancel(libtock_alarm_repeating_t *alarm);

// The clock's tick in seconds and microseconds, by <sys/time.h>. The second argument means nothing.
struct timeval;
int libtock_alarm_gettimeasticks(struct timeval *time, void *zone);

// The clock in milliseconds. It goes on past 2^32 ticks where it is asked once in so many. This project's own.
uint64_t libtock_alarm_milliseconds(void);

#endif
