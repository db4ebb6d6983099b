// The alarms, and a way to wait that needs no static variables.

#ifndef ALARM_H
#define ALARM_H

#include <libtock-sync/services/alarm.h>
#include <libtock-sync/await.h>

// Waits so many ticks by the driver's one alarm itself, for an application that has no other.
static inline returncode_t alarm_wait(uint32_t ticks)
{
    struct tock_completion completion;
    struct tock_request wait = {DRIVER_NUM_ALARM, TOCK_ALARM_RELATIVE, ticks, 0, 0};
    return tock_await(wait, &completion);
}

#endif
