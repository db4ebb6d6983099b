// How late it is, by the alarm's clock.

#include <sys/time.h>
#include <libtock/services/alarm.h>

uint64_t libtock_alarm_milliseconds(void)
{
    static uint32_t before, rounds;
    uint32_t now;
    if (libtock_alarm_command_read(&now) != RETURNCODE_SUCCESS) {
        return 0;
    }
    rounds += now < before;
    before = now;
    return ((uint64_t)rounds << 32 | now) / TOCK_TICKS_PER_MS;
}

int libtock_alarm_gettimeasticks(struct timeval *time, void *zone)
{
    (void)zone;
    uint32_t frequency, now;
    returncode_t code = libtock_alarm_command_get_frequency(&frequency);
    if (code == RETURNCODE_SUCCESS) {
        code = libtock_alarm_command_read(&now);
    }
    if (code == RETURNCODE_SUCCESS) {
        *time = (struct timeval){now / frequency, (uint64_t)(now % frequency) * 1000000 / frequency};
    }
    return code;
}

// An application may have its own.
__attribute__((weak)) int gettimeofday(struct timeval *restrict time, void *restrict zone)
{
    (void)zone;
    uint64_t now = libtock_alarm_milliseconds();
    *time = (struct timeval){now / 1000, now % 1000 * 1000};
    return 0;
}
