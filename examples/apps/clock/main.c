// Waits for an alarm without an upcall: the kernel shows its clock in a word which this application reads meanwhile. It
// exits with how many ticks lie between its look at the clock and the alarm, which comes 100 ticks after it is armed.

#include "alarm.h"

int main(void)
{
    volatile uint32_t shown = 0;
    uint32_t start, expiration;
    returncode_t code = libtock_alarm_show_clock(&shown);
    if (code == RETURNCODE_SUCCESS) {
        code = libtock_alarm_command_read(&start);
    }
    if (code == RETURNCODE_SUCCESS) {
        code = libtock_alarm_command_set_relative(100, &expiration);
    }
    if (code != RETURNCODE_SUCCESS) {
        return -code;
    }
    while (shown == start) {
    }
    libtock_alarm_show_clock(NULL);
    return shown - start;
}
