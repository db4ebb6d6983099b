// Wakes three times by the alarm, and writes a line each time. What it asked for is waited for alone: no function of an
// upcall runs.

#include "alarm.h"
#include "console.h"

// Subscribed, since the kernel keeps no upcall without a function that comes before it is waited for.
static void never(int first, int second, int third, void *userdata)
{
    (void)first, (void)second, (void)third, (void)userdata;
}

// Whether the alarm came at the tick for which it was set.
static bool doze(uint32_t ticks)
{
    uint32_t expiration;
    return libtock_alarm_command_set_relative(ticks, &expiration) == RETURNCODE_SUCCESS
        && yield_wait_for(DRIVER_NUM_ALARM, 0).data1 == expiration;
}

// Whether all bytes were written.
static bool tell(const char *text, size_t size)
{
    return allow_readonly(DRIVER_NUM_CONSOLE, TOCK_CONSOLE_BUFFER, text, size).success
        && tock_is_success(command(DRIVER_NUM_CONSOLE, TOCK_CONSOLE_WRITE, size, 0))
        && yield_wait_for(DRIVER_NUM_CONSOLE, TOCK_CONSOLE_WRITE).data0 == size;
}

int main(void)
{
    static const char awake[] = "awake\n";
    if (!subscribe(DRIVER_NUM_ALARM, 0, never, NULL).success
        || !subscribe(DRIVER_NUM_CONSOLE, TOCK_CONSOLE_WRITE, never, NULL).success) {
        return TOCK_STATUSCODE_FAIL;
    }
    for (int time = 0; time < 3; time++) {
        if (!doze(100) || !tell(awake, sizeof awake - 1)) {
            return TOCK_STATUSCODE_FAIL;
        }
    }
    return 0;
}
