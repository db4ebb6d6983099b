// Tries to be in the way of whoever lies behind it: it keeps the serial line busy, sets an alarm for the next tick
// before each line, does not yield for long, and then stores to the memory of the next slot, which is denied. By the
// policy of the script it starts again.

#include "alarm.h"
#include "console.h"

enum { SHARE = 4096 };

static const char line[] = "all time and the line are mine, all time and the line are mine\n";

static void count(int unused, int also_unused, int unused_too, void *alarms)
{
    (void)unused, (void)also_unused, (void)unused_too;
    ++*(int *)alarms;
}

int main(void)
{
    int alarms = 0;
    uint32_t expiration;
    subscribe(DRIVER_NUM_ALARM, 0, count, &alarms);
    while (alarms < 3) {
        libtock_alarm_command_set_relative(1, &expiration);
        console_print(line);
    }
    for (volatile int spins = 0; spins < 200; spins++) {
    }
    volatile uint32_t *theirs = (volatile uint32_t *)((char *)tock_app_memory_begins_at() + SHARE);
    *theirs = 0;
    return 0; // it never comes to this
}
