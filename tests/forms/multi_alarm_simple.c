// In the form of libtock-c's test multi_alarm_simple_test: two alarms every half a second, a quarter apart.

#include <stdio.h>

#include <libtock-sync/services/alarm.h>

static void event_cb(uint32_t now, uint32_t expiration, void *ud)
{
    int i = (int)ud;
    printf("%d %lu %lu\n", i, (unsigned long)now, (unsigned long)expiration);
}

int main(void)
{
    libtock_alarm_repeating_t t1, t2;
    libtock_alarm_repeat_every_ms(500, event_cb, (void *)1, &t1);
    libtocksync_alarm_delay_ms(250);
    libtock_alarm_repeat_every_ms(500, event_cb, (void *)2, &t2);

    while (1) {
        yield();
    }
}
